# The C interface beside the tool: a program of its own with lcd_refusals.c, by the link line of the README, as C and as C++.

cat > refuse.c <<'END'
#include <stdio.h>
#include "lcd.h"
int main(void) {
    uint32_t words[LCD_REGISTERS] = {0}, sizes[LCD_SIZES];
    uint16_t palette[LCD_PALETTE_ENTRIES] = {0};
    uint32_t numbers[] = {lcd_read_sizes(words, LCD_REGISTERS, sizes, LCD_SIZES), lcd_check(words, LCD_REGISTERS, 0, words, 0), 15, 16};
    for (int i = 0; i < 4; i++)
        printf("%u %s\n", (unsigned)numbers[i], lcd_refusal_text(numbers[i]));
    printf("%zu %zu %d.%d %s\n", sizeof words / 4, sizeof palette / 2, LCD_VERSION_MAJOR, LCD_VERSION_MINOR, LCD_VERSION);
    return 0;
}
END
due="0 no refusal
2 PNRMODE selects no panel that the call takes: 3 is TFT, 2 is STN, 8-bit single scan
15 the position is not below the frame's clocks
16 no such refusal
9 256 $(sed -n 's/#define LCD_VERSION "\(.*\)"/\1 \1/p' "$top/host/lcd.h")"
# the README's line, with this program for its program.c
line=$(sed -n 's/^ *\(gcc .*liblcd\.a\).*/\1/p' "$top/README.md" | head -n 1)
(cd "$top" && eval "${line/program.c/"$work/interface/refuse.c"} -o '$work/interface/refuse'")
same "$(./refuse)" "$due" 'a C program over the library'
line=${line/gcc/g++ -x c++}
line=${line/target/-x none target}
(cd "$top" && eval "${line/program.c/"$work/interface/refuse.c"} -o '$work/interface/refuse++'")
same "$(./refuse++)" "$due" 'a C++ program over the library'

# The tool's text of a refusal is the table's.
patch "$t1" 0 0x1b > no-panel.dump
gives 1 'refused 2' no-panel.dump
same "$(sed -n 2p out)" 'PNRMODE selects no panel that the call takes: 3 is TFT, 2 is STN, 8-bit single scan' 'the text of a refusal'
# The README's lines of C compile, in a function that has what they take for granted.
{
    printf '%s\n' '#include <stdio.h>' '#include "lcd.h"' \
        'void lines(uint32_t *words, uint32_t *video, size_t video_len, uint16_t *palette, uint32_t *picture, size_t picture_len,' \
        '           uint32_t lcdsaddr1, uint32_t lcdsaddr2, uint32_t *stn_words, uint32_t frame, uint8_t *dots, size_t dots_len) {'
    sed -n '/^```c$/,/^```$/p' "$top/README.md" | sed '/^```/d; /^#include/d'
    echo '}'
} > lines.c
status=0
gcc -std=c11 -Wall -Wextra -Werror -Wno-unused-but-set-variable -I"$top/host" -c lines.c -o lines.o 2> err || status=$?
same "$status $(grep -c ' = lcd_' lines.c)" '0 6' "the README's lines of C: $(head -n 3 err)"

# docs/REFERENCE.md has the same numbers of refusal (§9.1) and the same declarations (§10.1) as lcd.h.
reference=$top/docs/REFERENCE.md
same "$(sed -n '/^### §9\.1 /,/^### §9\.2 /s/^| \([0-9]*\) | .*/\1/p' "$reference" | xargs)" \
    "$(sed -n 's/^    R(\([0-9]*\),.*/\1/p' "$top/host/lcd.h" | xargs)" 'the numbers of refusal in the reference and in lcd.h'
declarations() { tr '\n' ' ' | sed 's/  */ /g' | grep -oE 'uint32_t lcd_[a-z_]+\([^)]*\);'; }
same "$(sed -n '/^### §10\.1 /,/^### §10\.2 /p' "$reference" | declarations)" "$(declarations < "$top/host/lcd.h")" \
    'the declarations in the reference and in lcd.h'
