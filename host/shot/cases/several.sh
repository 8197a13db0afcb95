# Several dumps in one call, and the same facts as JSON.

mkdir goldens
cp "$examples"/*.png goldens
patch "$td.dump" 16 ^1 > swap.dump
patch "$t1" 0 0x1b > no-panel.dump
head -c 5 "$t1" > short.dump
cp "$td.dump" td035sted4-16.dump

# ---- a line each, and the worst exit status

run "$examples"/*.dump
same "$status $(wc -l < out)" '0 8' 'a line each'
says "$examples/at070tn83-4.dump 800 by 480 4 bits 51.313 Hz accepted" 'name, size, mode, rate'
run "$examples"/*.dump --golden-dir goldens
same "$status $(grep -c 'accepted  equal$' out) $(grep -c 'accepted  equal  rate by rule edition 1$' out)" '0 6 2' \
    'all are their golden pictures'
run td035sted4-16.dump --golden-dir goldens
same "$status: $(cat out)" '0: td035sted4-16.dump   240 by 320   16 bits    109.553 Hz  accepted  equal' 'one dump and a folder of golden pictures'
run td035sted4-16.dump no-panel.dump short.dump
same "$status: $(sed 's/  */ /g' out)" "1: td035sted4-16.dump 240 by 320 16 bits 109.553 Hz accepted
no-panel.dump 1 by 2 24 bits no rate refused 2 size by TFT's rules
short.dump refused 14" 'refused ones'
cp swap.dump lq64d343-2.dump && cp swap.dump goldens/swap.dump && cp "$td.png" goldens/swap.png
run swap.dump lq64d343-2.dump td035sted4-16.dump --golden-dir goldens
same "$status: $(sed 's/  */ /g; s/.*accepted //' out)" "1: differs: 8328 of 76800 pixels
differs in size
equal" 'different ones'
cp "$td.dump" unknown.dump && echo no > goldens/damaged.png && cp "$td.dump" damaged.dump
run unknown.dump no.dump damaged.dump td035sted4-16.dump --golden-dir goldens
same "$status: $(sed 's/  */ /g; s/.*accepted //' out)" "2: error with the golden picture: No such file or directory
no.dump error: No such file or directory
error with the golden picture: can't be read as a PNG: not a PNG file
equal" 'an error does not end the call, and is the worst'
same "$(wc -c < err)" 0 'no progress line where there is no terminal'
cp goldens/td035sted4-16.png kept.png
"$shot" td035sted4-16.dump --golden-dir goldens >> goldens/td035sted4-16.png 2> err || status=$?
same "$status $(cmp goldens/td035sted4-16.png kept.png 2>&1)" '2 ' 'the report does not go into a golden picture of the folder'
patch "$td.dump" 556 ^1 > td.dump && cp "$td.png" goldens/td.png
run td.dump --golden-dir goldens
same "$status $(sed 's/.*accepted  //' out)" '1 differs: 1 of 76800 pixels' 'a pixel'
run td.dump --golden-dir goldens --tolerance 8
same "$status $(sed 's/.*accepted  //' out)" '0 equal' 'a pixel within the tolerance'
{ head -c 36 "$td.dump"; printf '\0\0\0\0'; tail -c +41 "$td.dump"; } > still.dump
run still.dump short.dump
same "$(sed 's/  */ /g' out | head -n 1)" 'still.dump 240 by 320 16 bits no rate accepted' 'no rate where HCLK is 0'
patch "$td.dump" 16 ^0x88 > dark.dump && cp "$td.png" goldens/dark.png
run dark.dump --golden-dir goldens
same "$status $(sed 's/.*accepted  //' out)" '0 equal  dark: PWREN is 0  negative: INVVD is 1' 'an equal picture on a dark glass'
cp "$td.dump" $'two\nlines.dump'
run $'two\nlines.dump' short.dump
same "$(wc -l < out)" 2 'a name with a line feed stays on its line'

# a line that says how far it is, on a terminal alone
script -qec "'$shot' td035sted4-16.dump no-panel.dump" /dev/null < /dev/null > typed 2>&1 || true
same "$(grep -c '1 of 2: td035sted4-16.dump' typed) $(grep -c '2 of 2: no-panel.dump' typed)" '1 1' 'a progress line on a terminal'

# ---- JSON

json() { jq -c "$1" out; }
run "$td.dump" --json
same "$status $(json '[.status, .dumps[0].accepted, .dumps[0].width, .dumps[0].height, .dumps[0].bits, .dumps[0].counts.mhz]')" \
    '0 [0,true,240,320,16,109553]' 'the facts of a dump'
same "$(json '[.dumps[0].registers[].name]')" \
    '["LCDCON1","LCDCON2","LCDCON3","LCDCON4","LCDCON5","LCDSADDR1","LCDSADDR2","LCDSADDR3","TPAL"]' 'its registers'
same "$(jq -r '.dumps[0].registers[].fields[] | "  \(.name) \(.high)\(if .high == .low then "" else "..\(.low)" end) \(.number)  \(.meaning)"' out |
    sed 's/  */ /g')" "$("$shot" "$td.dump" --registers | sed -n 's/^  \([A-Z]\)/ \1/p' | sed 's/  */ /g')" 'the account as JSON'
run no-panel.dump --json
same "$status $(json '[.status, .dumps[0].refusal, .dumps[0].counts, .dumps[0].faults[0].lifted_by]')" \
    '1 [1,2,null,[{"set":{"PNRMODE":3},"then":0}]]' 'a refusal'
patch "$td.dump" 27 0x18 > a && patch a 0 0x78 > linux.dump
run linux.dump --json
same "$(json '[.dumps[0].registers[6].reserved_bits_set, .dumps[0].registers[6].bank_bits_left, .dumps[0].faults[0].then_cleared, .dumps[0].bytes]')" \
    '["0x18000000",true,9,154156]' 'reserved bits'
same "$(json '.dumps[0].faults[1] | [.refusal, .reserved_bits_cleared, .lifted_by]')" '[9,true,[{"set":{"ENVID":1},"then":0}]]' 'a second fault'
td_with 479 14fc041 98ef09 9 b09 18000000 12c00 ee 0 > page.dump
run page.dump --json
same "$(json '[.dumps[0].faults[0].lifted_by[].then], [.dumps[0].faults[1].judged_with, .dumps[0].faults[1].lifted_by[0]]' | xargs)" \
    '[0,6] [{HOZVAL:237},{set:{LCDBASEL:76160},then:0}]' 'what follows cures'
td_with 478 14fc041 98ef09 9 b09 20000000 12c00 f0 0 > far.dump
run far.dump --json
same "$(json '.dumps[0].faults[1] | [.refusal, .needed_memory_given, .hangs_on]')" '[9,true,0]' 'a fault behind 8'
run no.dump --json
same "$status $(json '[.status, .dumps[0].error]')" '2 [2,"No such file or directory"]' 'no dump'
run "$td.dump" --compare short.dump --json -o none.png
same "$status $(json '[.status, .dumps[0].golden_error]') $(files 'none*')" \
    "2 [2,\"can't be read as a PNG: not a PNG file\"] " 'no golden picture'
run "$td.dump" --json -o no/screen.png
same "$status $(wc -c < out)" '2 0' 'no document that says less than the exit status'
run swap.dump --compare "$td.png" --json
same "$status $(json '.dumps[0].comparison | [.equal, .differ, .pixels, .top, .bottom, .left, .right, .largest_distance, (.neighbours[] | select(.equal).name)]')" \
    '1 [false,8328,76800,1,318,0,239,252,"HWSWP 1"]' 'a comparison'
run swap.dump --against "$td.dump" --json
same "$status $(json '.dumps[0].against | [.differs, .fields[0].name, .fields[0].old, .fields[0].new, .palette, .memory.words_differ]')" \
    '1 [true,"HWSWP",1,0,[],0]' 'another dump'
run unknown.dump no.dump short.dump td035sted4-16.dump --golden-dir goldens --json
same "$status $(json '[.status, (.dumps | length), .dumps[0].golden_error, .dumps[1].error, .dumps[2].refusal, .dumps[3].comparison.equal]')" \
    '2 [2,4,"No such file or directory","No such file or directory",14,true]' 'several dumps'
run --words $t9 --hclk 100000000 --json
same "$status $(json '[.dumps[0].memory.needed_first, .dumps[0].memory.needed_last]')" '0 ["0x30000000","0x300257ff"]' 'words'
printf -v odd 'quote"back\\slash\ttab\xff\xc3\xa9.dump'
cp "$t1" "$odd"
run "$odd" --json
same "$(jq -r '.dumps[0].name' out)" "$(printf 'quote"back\\slash\ttab\xef\xbf\xbd\xc3\xa9.dump')" 'a name of any bytes'
