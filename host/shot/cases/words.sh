# Words without a board.

tail -c +557 "$td.dump" > td.raw
head -c 556 "$examples/lq035q1dg06-8.dump" | tail -c 512 > palette2
tail -c +557 "$examples/lq035q1dg06-8.dump" > lq.raw
# the chip's own: an entry every 4 bytes, with bytes between that count for nothing
od -An -v -tx1 -w2 palette2 | sed 's/ \(..\) \(..\)/\\x\1\\x\2\\xa5\\x5a/' | tr -d '\n' | xargs -0 printf > palette4
lq=$(od -An -v -tx4 -N 36 "$examples/lq035q1dg06-8.dump" | xargs)

# ---- words alone: 1 to 7, and what memory they need

gives 0 'clocks 91280 hclk 912800 mhz 109553' --words $t9 --hclk 100000000 --registers
says '109.553 Hz, 10.000 MHz pixel clock' 'the counts of words in plain units'
says 'needed 0x30000000 to 0x300257ff, 153600 bytes' 'the memory that words need'
same "$(grep -v '^needed' out)" "$("$shot" "$td.dump" --registers | grep -v '^memory\|^needed')" 'the account of words is that of their dump'
gives 0 'clocks 91280 hclk 912800 mhz 109553' --words $t9 --hclk 100000000
says 'needed 0x30000000 to 0x300257ff, 153600 bytes' 'the memory that words need, in short'
gives 0 'clocks 91280 hclk 912800 mhz 0' --words 0x479 0X14FC041 0098EF09 9 B09 18000000 12C00 F0 000000000000
says 'no rate: HCLK is not given' 'no rate where no HCLK is given'
gives 1 'refused 5' --words 479 14fc041 98ef09 9 b09 18000000 12c00 ef 0 --registers
says '16 x PAGEWIDTH = 3824, W x S = 3840' 'refused words'
gives 1 'refused 1' --words 479 14fc041 98ef09 9 b09 18000000 18012c00 f0 0
says "LCDSADDR2: reserved bits 28..27 are set (0x18000000); cleared, the word is 0x00012c00; it is the bank, as Linux's driver leaves it" \
    'bank bits in words'
gives 0 'clocks 91280 hclk 912800 mhz 0' --words 478 14fc041 98ef09 9 b09 18000000 12c00 f0 0
says 'nothing is sent to the glass: ENVID is 0, and a drawing is refused 9' 'words with video off are judged by 1 to 7'
gives 0 'clocks 91280 hclk 912800 mhz 0' --words 479 14fc041 98ef09 9 b09 18009600 3a200 c00f0 0 --registers
# LCDBASEU 38400, 384 half-words left out after each row: the last row ends at 38400 + 319 x 624 + 240 half-words, 0x74100 bytes
says 'needed 0x30012c00 to 0x300740ff, 398592 bytes' 'a view inside a virtual screen'
says 'HCLK not given, no rates' 'no rates without HCLK'

# ---- with a memory they are drawn, and make a dump

gives 0 'clocks 91280 hclk 912800 mhz 109553' --words $t9 --hclk 100000000 --memory td.raw --start 30000000 -o screen.png \
    --compare "$td.png"
same "$(tail -n 1 out)" 'equal: 76800 pixels' 'words and a memory are the picture'
gives 0 'clocks 91280 hclk 912800 mhz 109553' "$td.dump" --compare screen.png
gives 0 'clocks 91280 hclk 912800 mhz 109553' --words $t9 --hclk 100000000 --memory td.raw --start 0x30000000 -o board.dump
same "$(cmp board.dump "$td.dump" 2>&1)" '' 'words and a memory are the dump'
gives 0 'clocks 91280 hclk 912800 mhz 109553' --words $t9 --hclk 100000000 --memory - --start 30000000 --compare "$td.png" < td.raw
gives 1 'refused 8' --words $t9 --hclk 100000000 --memory td.raw --start 30000004
says 'the memory given is 0x30000004 to 0x30025803, 4 bytes are missing before its start' 'a memory beside the view'
gives 1 'refused 1' --words 479 14fc041 98ef09 9 b09 18000000 18012c00 f0 0 --hclk 100000000 --memory td.raw --start 30000000 \
    -o linux.dump
gives 1 'refused 1' linux.dump --registers
same "$(od -An -tx4 -j 24 -N 4 linux.dump | xargs)" 18012c00 'the dump of refused words is a record of them'
gives 1 'refused 5' --words 479 14fc041 98ef09 9 b09 18000000 12c00 ef 0 --memory td.raw --start 30000000 -o none.png
same "$(files 'none*')" '' 'refused words make no picture'

# ---- the palette, 2 or 4 bytes an entry

for bytes in 2 4; do
    run --words $lq --hclk 100000000 --memory lq.raw --start 30000000 --palette palette$bytes --palette-bytes $bytes -o lq.dump \
        --compare "$examples/lq035q1dg06-8.png"
    same "$status $(cmp lq.dump "$examples/lq035q1dg06-8.dump" 2>&1)" '0 ' "a palette of $bytes bytes an entry"
done
run --words $lq --memory lq.raw --start 30000000 --palette palette2 --compare "$examples/lq035q1dg06-8.png"
same "$status" 0 'a palette of 2 bytes an entry, where none is said'
gives 2 'lcdshot: palette4: 1024 bytes; 256 entries of 2 bytes are 512 (--palette-bytes says how many an entry has)' --words $lq \
    --memory lq.raw --start 30000000 --palette palette4
gives 2 'lcdshot: palette2: 512 bytes; 256 entries of 4 bytes are 1024 (--palette-bytes says how many an entry has)' --words $lq \
    --memory lq.raw --start 30000000 --palette palette2 --palette-bytes 4
gives 2 'lcdshot: --palette: missing; in this mode the colours come from the palette; see lcdshot --help' --words $lq --memory lq.raw \
    --start 30000000 -o none.png
# TPALEN 1, 0x112233 everywhere: no palette is needed
run --words ${lq% *} 1112233 --memory lq.raw --start 30000000 -o one.png
same "$status" 0 'no palette where the temporary one is on'
gives 2 'lcdshot: --palette-bytes: 2 or 4; see lcdshot --help' --words $lq --memory lq.raw --start 30000000 --palette palette2 \
    --palette-bytes 3

# ---- words that are none

gives 2 'lcdshot: --words: TPAL is missing; see lcdshot --help' --words 479 14fc041 98ef09 9 b09 18000000 12c00 f0
gives 2 'lcdshot: --words: LCDSADDR3 is missing; see lcdshot --help' --words 479 14fc041 98ef09 9 b09 18000000 12c00 --registers
gives 2 'lcdshot: --words: LCDCON2 14fcx is not a hexadecimal number; see lcdshot --help' --words 479 14fcx 98ef09 9 b09 18000000 12c00 f0 0
gives 2 'lcdshot: --words: LCDCON1 100000000 is wider than 32 bits; see lcdshot --help' --words 100000000 14fc041 98ef09 9 b09 18000000 12c00 f0 0
gives 2 "lcdshot: --words: LCDCON1 '' is not a hexadecimal number; see lcdshot --help" --words '' 14fc041 98ef09 9 b09 18000000 12c00 f0 0
gives 2 'lcdshot: --hclk: HCLK 100e6 is not a number; see lcdshot --help' --words $t9 --hclk 100e6
gives 2 'lcdshot: --hclk: HCLK 4294967296 is above 4294967295; see lcdshot --help' --words $t9 --hclk 4294967296
head -c 7 td.raw > seven.raw
gives 2 'lcdshot: seven.raw: 7 bytes, no multiple of 4' --words $t9 --memory seven.raw --start 30000000
