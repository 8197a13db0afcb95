# Pictures and test cards: the examples are their golden pictures, and the first line is the bench's.

for dump in "$examples"/*.dump; do
    name=$(basename "$dump" .dump)
    run "$dump" -o screen.png --compare "$examples/$name.png"
    same "$status: $(tail -n 1 out | cut -d: -f1)" "0: equal" "$name is its golden picture"
    gives 0 "$(head -n 1 out)" "$dump" --compare screen.png
    same "$(tail -n 1 out | cut -d: -f1)" equal "$name is the picture just written"
done

# ---- test cards

for dump in "$examples"/*.dump; do
    "$shot" "$dump" --registers > printed
    read -r w h bits < <(sed -n 's/^panel *\([0-9]*\) by \([0-9]*\) pixels, STN,.* \(mono\|grey\)s*$/\1 \2 \3/p
        s/^panel *\([0-9]*\) by \([0-9]*\) pixels, \([0-9]*\) bit.*/\1 \2 \3/p' printed)
    run --testcard "$w" "$h" "$bits" -o card.dump
    same "$status $(cmp card.dump "$dump" 2>&1)" "0 " "the test card of $(basename "$dump") made anew"
    same "$(sed -n 's/^frame rate *\([0-9]*\)\.\([0-9]*\) Hz/\1\2/p' printed)" "$(head -n 1 printed | cut -d' ' -f6)" \
        "the rate in the account and in the counts of $(basename "$dump")"
done
for account in "$examples"/*.txt; do
    same "$("$shot" "${account%.txt}.dump" --registers)" "$(cat "$account")" "the account of $(basename "$account" .txt)"
done
same "$(od -An -v -tx4 -N 36 "$td.dump" | xargs)" \
    '00000479 014fc041 0098ef09 00000009 00000b09 18000000 00012c00 000000f0 00000000' 'the words of T9'

# What a card shows is told as the mode shows it.
run --testcard 64 64 1 -o card.dump
says '64 by 64 at 1 bit, in white on black: a border, the eight bars (the light colours white), a ramp of two steps' 'a card of 1 bit'
run --testcard 64 64 2 -o card.dump
says '64 by 64 at 2 bits, in four greys' 'a card of 2 bits'
run --testcard 1 1 24 -o card.dump
says 'the polar diagram in red and green, as far as they fit' 'a card of one pixel'
run --testcard 64 64 16 -o card.dump
says '64 by 64 at 16 bits, a border, eight colour bars' 'a card of 16 bits'

# A card that can't be made names its argument and the limit.
no_card() { # why, arguments of --testcard
    local why=$1
    shift
    gives 2 "lcdshot: --testcard: $why; see lcdshot --help" --testcard "$@"
}
no_card 'width 0 is outside 1 to 2048' 0 320 16 -o none.dump
no_card 'width 2049 is outside 1 to 2048' 2049 320 1 -o none.dump
no_card 'height 0 is outside 1 to 1024' 240 0 16 -o none.dump
no_card 'height 1025 is outside 1 to 1024' 240 1025 16 -o none.dump
no_card 'BPP 3 is none of 1, 2, 4, 8, 16, 24, mono and grey' 240 320 3 -o none.dump
no_card 'width 1024 at 24 bits needs PAGEWIDTH 2048, above 2047' 1024 1 24 -o none.dump
no_card 'width 240 at 1 bit is no multiple of 32' 240 320 1 -o none.dump
no_card 'width 241 at 16 bits is no multiple of 2' 241 320 16 -o none.dump
no_card 'height x is not a number' 1 x 24 -o none.dump
no_card 'width -1 is not a number' -1 1 24 -o none.dump
no_card 'width 4294967296 is above 4294967295' 4294967296 1 24 -o none.dump
no_card 'makes a dump, which lcdshot then draws; -o names a picture' 240 320 16 -o none.png
no_card 'BPP is missing' 1 1
no_card 'BPP is missing' 1 1 -o none.dump
no_card 'WIDTH is missing' -o none.dump
no_card '-o and a file are missing' 1 1 24
same "$(files 'none*')" '' 'a card that is not made writes nothing'

# ---- T1's two pixels as a PNG of another writer than the tool

base64 -d > t1.png <<< iVBORw0KGgoAAAANSUhEUgAAAAEAAAACCAIAAAAW4yFwAAAAEElEQVR4nGMQVDJmWLX7DAAGigKYfWEGHgAAAABJRU5ErkJggg==
gives 0 'clocks 20 hclk 40 mhz 25000' "$t1" -o screen.png --compare t1.png
same "$(tail -n 1 out)" 'equal: 2 pixels' 'T1'
says '25.000 Hz, 500.000 Hz pixel clock' 'the counts in plain units'
gives 0 'clocks 20 hclk 40 mhz 25000' - --compare t1.png < "$t1"
patch "$t1" 36 0 > a && patch a 37 0 > still.dump
gives 0 'clocks 20 hclk 40 mhz 0' still.dump
says 'no rate: HCLK is 0' 'no rate without HCLK'
{ head -c 556 "$t1"; printf '\xff\xff\xff\x00\x33\x2e\x2a\x00'; } > white-and-dim.dump
patch "$t1" 556 0x34 > one.dump
gives 1 'clocks 20 hclk 40 mhz 25000' one.dump --compare t1.png --differences one.png
gives 0 'clocks 20 hclk 40 mhz 25000' white-and-dim.dump --compare one.png
same "$("$shot" "$t1" --registers | grep -c ' 1 \(line\|clock\|pixel\) ')" 7 'one line, one clock, one pixel'
same "$("$shot" "$t1" --registers | grep -c '\b1 [a-z]*s\b')" 0 'no "1 lines"'

# ---- the first line is the bench's, where the bench has room for the memory

"$shot" --testcard 64 32 8 -o fits.dump > out
patch fits.dump 0 ^1 > off.dump
patch fits.dump 28 ^2 > page.dump
head -c -4 fits.dump > less.dump
head -c -1 fits.dump > cut.dump
[ -x "$bench" ] || echo 'no bench: its cases are left out' >&2
for dump in "$t1" fits.dump off.dump page.dump less.dump cut.dump; do
    [ -x "$bench" ] || continue
    run "$dump"
    same "$(head -n 1 out)" "$("$bench" < "$dump" | head -n 1)" "the first line of $dump"
done

# ---- a panel's whole 4 MiB, and a memory that goes on behind it

run --testcard 1022 1024 24 -o large.dump
same "$status" 0 'a large card'
gives 0 'clocks 1266246 hclk 2532492 mhz 39486' large.dump -o large.png
{ cat large.dump; head -c 5000000 /dev/zero; } > longer.dump
gives 0 'clocks 1266246 hclk 2532492 mhz 39486' longer.dump --compare large.png
same "$(tail -n 1 out)" 'equal: 1046528 pixels' 'a memory longer than the panel'
head -c -4 large.dump > shorter.dump
gives 1 'refused 8' shorter.dump
