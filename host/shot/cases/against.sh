# A dump beside another one: what differs, field by field.

gives 0 'clocks 91280 hclk 912800 mhz 109553' "$td.dump" --against "$td.dump"
same "$(tail -n 1 out)" "no difference from $td.dump" 'a dump beside itself'

patch "$td.dump" 16 ^1 > swap.dump
gives 1 'clocks 91280 hclk 912800 mhz 109553' swap.dump --against "$td.dump"
same "$(tail -n +3 out | sed 's/   */  /g')" "differs from $td.dump
  LCDCON5  HWSWP  1, the halves of a word exchanged  ->  0, half-words in their order" 'one field, old and new with their meaning'

# fields of three registers, HCLK, the window start, two palette entries, two words of memory
patch "$td.dump" 1 5 > a && patch a 28 0xef > b && patch b 38 0xff > c && patch c 44 1 > d && patch d 555 2 > e
patch e 556 ^3 > f && patch f 564 ^1 > g
gives 1 'refused 5' g --against "$td.dump"
same "$(sed -n '/^differs/,$p' out | sed 's/   */  /g; s/, first at.*//')" "differs from $td.dump
  LCDCON1  CLKVAL  4, VCLK is HCLK / 10: 10.000 MHz  ->  5, VCLK is HCLK / 12: 8.387 MHz
  LCDSADDR3 PAGEWIDTH  240, half-words a row  ->  239, half-words a row
  HCLK  100000000, 100.000 MHz  ->  100655360, 100.655 MHz
  refusal  0, accepted  ->  5, refused
  palette  entry 0  0x0000  ->  0x0001
  palette  entry 255  0x0000  ->  0x0200
  memory  2 of 38400 words" 'fields, clock, palette and memory'
says 'words, first at 0x30000000: 0xffffffff -> 0xfffffffc' 'the first word that differs'

# the status bits, which the chip itself changes, are told and not counted; reserved bits count
patch "$td.dump" 18 1 > status.dump
gives 0 'clocks 91280 hclk 912800 mhz 109553' status.dump --against "$td.dump"
says 'LCDCON5 VSTATUS 0 -> 2, read-only, not counted' 'read-only bits'
patch "$td.dump" 27 0x18 > linux.dump
gives 1 'refused 1' linux.dump --against "$td.dump"
says 'LCDSADDR2 reserved bits 0, bits 31..21 -> 192, bits 31..21' 'reserved bits'

# memories of other lengths and starts are compared where they share addresses
{ cat "$td.dump"; printf '\x01\x02\x03\x04'; } > longer.dump
gives 1 'clocks 91280 hclk 912800 mhz 109553' longer.dump --against "$td.dump"
says 'memory 1 word in the new dump alone' 'a longer memory'
{ head -c 40 "$td.dump"; printf '\xfc\xff\xff\x2f'; head -c 556 "$td.dump" | tail -c 512; printf '\0\0\0\0'; tail -c +557 "$td.dump"; } > earlier.dump
gives 1 'clocks 91280 hclk 912800 mhz 109553' earlier.dump --against "$td.dump"
same "$(sed -n '/^differs/,$p' out | sed 's/   */  /g')" "differs from $td.dump
  window start 805306368, 0x30000000  ->  805306364, 0x2ffffffc
  memory  1 word in the new dump alone" 'the same memory, a word earlier'
gives 1 'clocks 91280 hclk 912800 mhz 109553' "$td.dump" --against longer.dump
says 'memory 1 word in the old dump alone' 'a shorter memory'
gives 1 'clocks 91280 hclk 912800 mhz 109553' "$td.dump" --against earlier.dump
same "$(sed -n '/^differs/,$p' out | tail -n +3 | sed 's/   */  /g')" '  memory  1 word in the old dump alone' 'and the other way round'

gives 2 'lcdshot: no.dump: No such file or directory' "$td.dump" --against no.dump
head -c 100 "$td.dump" > short.dump
run "$td.dump" --against short.dump
same "$status: $(cut -d, -f1 err)" '2: lcdshot: short.dump: the input has under 556 bytes' 'another dump that is none'
gives 0 'clocks 91280 hclk 912800 mhz 109553' - --against "$td.dump" < "$td.dump"
gives 0 'clocks 91280 hclk 912800 mhz 109553' --words $t9 --hclk 100000000 --memory <(tail -c +557 "$td.dump") --start 30000000 \
    --against "$td.dump"

# words beside a dump: their registers, and HCLK where it is given
gives 0 'clocks 91280 hclk 912800 mhz 0' --words $t9 --against "$td.dump"
gives 0 'clocks 91280 hclk 912800 mhz 109553' --words $t9 --hclk 100000000 --against "$td.dump"
gives 1 'clocks 91280 hclk 912800 mhz 0' --words $t9 --hclk 0 --against "$td.dump"
patch "$td.dump" 44 1 > palette.dump
gives 0 'clocks 91280 hclk 912800 mhz 109553' --words $t9 --hclk 100000000 --memory <(tail -c +557 "$td.dump") --start 30000000 \
    --against palette.dump
gives 1 'clocks 91280 hclk 912800 mhz 146070' --words $t9 --hclk 133333333 --against "$td.dump"
gives 1 'clocks 91280 hclk 912800 mhz 0' --words 479 14fc041 98ef09 9 b08 18000000 12c00 f0 0 --against "$td.dump"
same "$(sed -n '/^differs/,$p' out | sed 's/   */  /g')" "differs from $td.dump
  LCDCON5  HWSWP  1, the halves of a word exchanged  ->  0, half-words in their order" 'words beside a dump'
run --words $(od -An -v -tx4 -N 36 "$examples/lq035q1dg06-8.dump" | xargs) --hclk 100000000 --memory <(tail -c +557 "$examples/lq035q1dg06-8.dump") \
    --start 30000000 --palette <(head -c 555 "$examples/lq035q1dg06-8.dump" | tail -c 511; printf '\x12') --against "$examples/lq035q1dg06-8.dump"
same "$status $(grep -c 'palette' out)" '1 1' 'a palette given with words'
