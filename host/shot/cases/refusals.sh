# Refusals: every condition that holds, its arithmetic, the numbers that lift it and what follows.

# ---- the bytes of T1 that draw each number, and the marks in the account

refused() { # number, offset, byte, marks due
    patch "$t1" "$2" "$3" > refused.dump
    gives 1 "refused $1" refused.dump --registers -o refused.png
    same "$(grep -- '<-' out | sed 's/^ *//; s/  */ /g')" "$4" "the marks of refusal $1"
    same "$(files 'refused.p*')" '' 'a refusal writes no picture'
}
refused 1 3 0xf0 'LCDCON1 0xf000007b <- refused 1; reserved bits 31..28 are set (0xf0000000); cleared, the word is 0x0000007b'
says 'lifted by clearing them, then accepted' 'what follows where reserved bits are cleared'
refused 1 11 0x08 'LCDCON3 0x08000000 <- refused 1; reserved bit 27 is set (0x08000000); cleared, the word is 0x00000000'
refused 2 0 0x3b 'PNRMODE 6..5 1 STN, 4-bit single scan <- refused 2; lifted by 3, then accepted'
refused 3 0 0x5b "PNRMODE 6..5 2 STN, 8-bit single scan <- refused 3; lifted by 3, then accepted
BPPMODE 4..1 13 no STN mode <- refused 3; lifted by 2, then refused 17"
refused 3 0 0x7f 'BPPMODE 4..1 15 no TFT mode <- refused 3; lifted by 13, then accepted'
refused 4 16 0x02 "BPPMODE 4..1 13 24 bits a pixel, stored as 32 <- refused 4; lifted by 11, then refused 5
BSWP 1 1 the four bytes of a word reversed <- refused 4; lifted by 0, then accepted"
says 'BSWP = 1, HWSWP = 0 with 24 bits a pixel, stored as 32' 'the arithmetic of 4'
same "$(grep -n 'lifted by' out | head -n 2 | sed 's/.*lifted/lifted/')" "lifted by BSWP 0, then accepted
lifted by BPPMODE 11, then refused 5" 'numbers that end in acceptance go first'
refused 4 16 0x03 'BSWP 1 1 the four bytes of a word reversed <- refused 4; lifted by 0 with HWSWP 0, then accepted'
refused 5 28 0x04 "memory 2 words from 0x30000000 to before 0x30000008 <- refused 8
LINEVAL 23..14 1 2 rows, the height <- refused 6; lifted by 0 with HOZVAL 1, then accepted
HOZVAL 18..8 0 1 pixel a row, the width <- refused 5; lifted by 1, then refused 6
LCDBASEU 20..0 0 A21..1 of the first row: bank + 0x000000 <- refused 6; lifted by 2097148 with HOZVAL 1, then refused 7
LCDBASEL 20..0 4 A21..1 past the last row: bank + 0x000008 <- refused 6; lifted by 8 with HOZVAL 1, then refused 8
PAGEWIDTH 10..0 4 half-words a row <- refused 5; lifted by 2, then accepted"
same "$(sed -n '/^  refused 6/,/^  refused 8/p' out | sed -n 's/^ *lifted by //p')" "LINEVAL 0, then accepted
LCDBASEL 8, then refused 8
LCDBASEU 2097148, then refused 7" 'those that go further go first'
refused 5 20 0x01 "memory 2 words from 0x30000000 to before 0x30000008 <- refused 8
LCDBASEU 20..0 1 A21..1 of the first row: bank + 0x000002 <- refused 5; lifted by 0, then accepted"
says 'LCDBASEU = 1 is odd' 'the arithmetic of 5: an odd number'
refused 6 24 0x06 "LINEVAL 23..14 1 2 rows, the height <- refused 6; lifted by 2, then refused 8
LCDBASEU 20..0 0 A21..1 of the first row: bank + 0x000000 <- refused 6; lifted by 2, then refused 8
LCDBASEL 20..0 6 A21..1 past the last row: bank + 0x00000c <- refused 6; lifted by 4, then accepted"
says 'LCDBASEL = 6, LCDBASEU + (PAGEWIDTH + OFFSIZE) x H = 4' 'the arithmetic of 6'
refused 8 23 0x19 "memory 2 words from 0x30000000 to before 0x30000008 <- refused 8
LCDBANK 29..21 200 A30..22 of the frame buffer: 0x32000000 <- refused 8; lifted by 192, then accepted"
refused 8 40 0x02 'memory 2 words from 0x30000002 to before 0x3000000a <- refused 8'
refused 9 0 0x7a 'ENVID 0 0 video off <- refused 9; lifted by 1, then accepted'

# LCDBASEU 0x1ffffe and LCDBASEL 2: T1's second row begins at the bank's end.
patch "$t1" 20 0xfe > a && patch a 21 0xff > b && patch b 22 0x1f > c && patch c 24 0x02 > past.dump
gives 1 'refused 7' past.dump --registers
says 'LCDBASEU + (H - 1) x (PAGEWIDTH + OFFSIZE) + PAGEWIDTH = 2097154, 2^21 = 2097152: 2 half-words too far' 'the arithmetic of 7'
says 'lifted by LCDBASEU 0 and LCDBASEL 4, then accepted' 'the view moved back into its bank'

for length in 0 1 555 557 561; do
    head -c "$length" "$t1" > short.dump
    gives 1 'refused 14' short.dump -o short.png
    same "$(tail -n 1 out)" "short.dump has $length byte$([ "$length" = 1 ] || echo s)" 'the length of a short dump'
done
same "$(files 'short.p*')" '' 'a short dump writes no picture'

# ---- cures: BPPMODE 7 on a panel of 16 bits is cured by 12 at once, not by 8 and then 12

td_with 46f 14fc041 98ef09 9 b09 18000000 12c00 f0 0 > mode.dump
gives 1 'refused 3' mode.dump --registers
same "$(grep -c 'lifted by BPPMODE 12, then accepted' out) $(grep -c 'lifted by 8' out)" '1 0' 'BPPMODE 7 at 16 bits'
# with video off besides, the same number goes furthest
td_with 46e 14fc041 98ef09 9 b09 18000000 12c00 f0 0 > mode.dump
run mode.dump --registers
same "$(grep 'refused [0-9]  \|lifted by [A-Z]' out | sed 's/^ *//; s/  */ /g')" "refused 3 BPPMODE is no mode of the panel: 8..13 on TFT, 0 and 2 on STN
lifted by BPPMODE 12, then refused 9
refused 9 video is off: ENVID is 0
lifted by ENVID 1, then accepted" 'what follows each cure'

# ---- all faults, with their arithmetic

# The numbers of the faults that are listed.
listed() { sed -n 's/^  refused \([0-9]\) .*/\1/p' out | xargs; }
all_faults() { # words, numbers due
    td_with $1 > faults.dump
    run faults.dump --registers
    same "$(listed)" "$2" "all faults of $1"
}
all_faults '479 14fc041 98ef09 9 b09 18000000 12c00 f0 0' ''
all_faults '479 14fc041 98ef09 9 b09 18000000 12c00 ef 0' '5 6'
says '16 x PAGEWIDTH = 3824, W x S = 3840; PAGEWIDTH = 239 is odd' 'the arithmetic of 5'
says 'lifted by PAGEWIDTH 240, then accepted' 'the cure of 5'
says 'LCDBASEL = 76800, LCDBASEU + (PAGEWIDTH + OFFSIZE) x H = 76480 modulo 2^21' '6 beside an odd number'
says 'hangs on refused 5: look again when that is lifted' '6 goes with the cure of 5'
same "$(grep -c 'refused 6;' out)" 0 'no mark for what hangs on another fault'
all_faults '479 14fc041 98ef09 9 b09 18000000 12c00 ee 0' '5 6'
says 'LCDBASEL = 76800, LCDBASEU + (PAGEWIDTH + OFFSIZE) x H = 76160' '6 beside 5'
says 'judged with HOZVAL 237' 'what 6 is judged with'
all_faults 'f000042e 14fc041 98ef09 9 b0b 18000000 12c01 f0 fe000000' '1 2 3 4 6 9'
says 'LCDCON1: reserved bits 31..28 are set (0xf0000000); cleared, the word is 0x0000042e; TPAL: reserved bits 31..25 are set' \
    'reserved bits of two registers'
says 'lifted by clearing them, then refused 2' 'what follows where they are cleared'
says 'ENVID 0 0 video off <- refused 9; lifted by 1 with reserved bits cleared, PNRMODE 3, BPPMODE 12, BSWP 0 and LCDBASEL 76800, then accepted' \
    'a mark says what its number needs'
says 'judged with reserved bits cleared, PNRMODE 3, BPPMODE 12, BSWP 0 and LCDBASEL 76800' 'what 9 is judged with'
all_faults '478 14fc041 98ef09 9 b09 181ffffe 12bfe f0 0' '7 8 9'
says 'lifted by LCDBASEU 0 and LCDBASEL 76800, then refused 9' 'the view moved to where the memory is'
says 'hangs on refused 7: look again when that is lifted' '8 of a view that was moved'
all_faults '479 14fc041 98ef09 9 b09 20000000 12c00 f0 0' 8
says "the picture needs 0x40000000 to 0x400257ff, the dump's video memory is 0x30000000 to 0x300257ff, 153600 bytes are missing behind its end" \
    'a view far behind the memory'
all_faults '478 14fc041 98ef09 9 b09 20000000 12c00 f0 0' '8 9'
says 'judged with the memory that is needed' 'what 9 is judged with behind 8'
all_faults '479 14fc041 98ef09 9 b09 10000000 12c00 f0 0' 8
says '153600 bytes are missing before its start' 'a view far before the memory'
# a width of 241, an odd LCDBASEU and an odd OFFSIZE: no field alone will do
all_faults '479 14fc041 98f009 9 b09 18000001 12c00 888f1 0' '5 6 8'
says 'LCDBASEU = 1 is odd; PAGEWIDTH = 241 is odd; OFFSIZE = 273 is odd' 'three odd numbers'
says 'lifted by LCDBASEU 0, OFFSIZE 272, HOZVAL 239 and PAGEWIDTH 240, then refused 6' 'four fields together'
# a viewport at an odd LCDBASEU whose end fits it: both move together
all_faults '479 14fc041 98ef09 9 b09 18000001 12c01 f0 0' '5 8'
says 'lifted by LCDBASEU 0 and LCDBASEL 76800, then accepted' 'LCDBASEL along with LCDBASEU'
# a viewport at an odd LCDBASEU, far from its end and from the memory
all_faults '479 14fc041 98ef09 9 b09 180edbf9 12c00 f0 0' '5 6 8'
# a row of no length, a row that no width fits in this mode
all_faults '479 14fc041 98ef09 9 b09 18000000 0 0 0' '5'
all_faults '471 14fc041 98ef09 9 b08 18000000 4e200 3e8 0' '5 8'

# 8: both sides, the first and the last byte
head -c -4 "$td.dump" > less.dump
gives 1 'refused 8' less.dump --registers
says "the picture needs 0x30000000 to 0x300257ff, the dump's video memory is 0x30000000 to 0x300257fb, 4 bytes are missing behind its end" \
    'a word too few'
patch "$td.dump" 40 4 > later.dump
gives 1 'refused 8' later.dump
says "the dump's video memory is 0x30000004 to 0x30025803, 4 bytes are missing before its start" 'a memory that starts a word late'
patch less.dump 40 4 > neither.dump
{ head -c 556 neither.dump; head -c 400 /dev/zero; } > both.dump
run both.dump
says "the dump's video memory is 0x30000004 to 0x30000193, 4 bytes are missing before its start, 153196 bytes are missing behind its end" \
    'bytes missing on both sides'
head -c 556 "$td.dump" > none.dump
run none.dump
says "the dump's video memory has no bytes, 153600 are missing" 'no memory'
patch "$td.dump" 40 2 > misaligned.dump
run misaligned.dump
says "the dump's video memory starts at 0x30000002, which is no multiple of 4" 'a misaligned memory'

# ---- words as the Linux driver leaves them: LCDBANK's bits in LCDSADDR2

td_with 479 14fc041 98ef09 9 b09 18000000 18012c00 f0 0 > linux.dump
gives 1 'refused 1' linux.dump --registers
says "LCDSADDR2 0x18012c00 <- refused 1; reserved bits 28..27 are set (0x18000000); cleared, the word is 0x00012c00; it is the bank, as Linux's driver leaves it" \
    'bank bits in LCDSADDR2'
says 'lifted by clearing them, then accepted' 'the words without bank bits'
says 'needed 0x30000000 to 0x300257ff, 153600 bytes' 'the memory that the words need'
# a picture that ends with its bank has the next one there
td_with 479 14fc041 98ef09 9 b09 181ed400 18200000 f0 0 > linux.dump
run linux.dump
says 'cleared, the word is 0x00000000; it is the bank' 'the bank behind the picture'
td_with 479 14fc041 98ef09 9 b09 18000000 18212c00 f0 0 > linux.dump
run linux.dump
same "$(grep -c Linux out)" 0 'the next bank where the picture does not end there'
td_with 479 14fc041 98ef09 9 b09 18000000 08012c00 f0 0 > other.dump
run other.dump
same "$(grep -c Linux out)" 0 'other bits than LCDBANK has'
