/* A small C host: the worked cases T1 and T8 to T10 (docs/REFERENCE.md, §13.1), a grey panel (§5.9, §6.8) and loads that are cut (§1.8)
 * through the calls of lcd.h. It prints a line for each case that comes out right; where something differs it says what, and exits
 * with 1. */
#include <inttypes.h>
#include <stdint.h>
#include <stdio.h>
#include <stdlib.h>
#include <string.h>
#include "lcd.h"

enum { WIDTH = 240, HEIGHT = 320, PIXELS = WIDTH * HEIGHT, VIDEO = PIXELS / 2, START = 0x30000000 };

/* What the lent buffers hold before a call. It is no colour, since a colour has 24 bits. */
static const uint32_t UNTOUCHED = 0xdeadbeef;

static const uint16_t palette[256];

/* Ends the program with a message if two numbers differ. */
static void same(const char *what, uint64_t got, uint64_t due) {
    if (got == due)
        return;
    printf("%s: got 0x%" PRIx64 ", due 0x%" PRIx64 "\n", what, got, due);
    exit(1);
}

static void untouched(const char *what, const uint32_t *entries, size_t n) {
    for (size_t i = 0; i < n; i++)
        same(what, entries[i], UNTOUCHED);
}

static void prefill(uint32_t *entries, size_t n) {
    for (size_t i = 0; i < n; i++)
        entries[i] = UNTOUCHED;
}

/* A frame's counts by a rule edition; the entry past them stays. */
static void counted(const char *what, const uint32_t *words, uint32_t edition, uint32_t hclk, const uint64_t *due) {
    uint64_t counts[4] = {UNTOUCHED, UNTOUCHED, UNTOUCHED, UNTOUCHED};
    same(what, lcd_counts(words, 9, edition, hclk, counts, 4), 0);
    for (int i = 0; i < 3; i++)
        same(what, counts[i], due[i]);
    same(what, counts[3], UNTOUCHED);
}

/* Counts that are refused; the entries stay. */
static void not_counted(const char *what, const uint32_t *words, uint32_t edition, uint32_t number) {
    uint64_t counts[3] = {UNTOUCHED, UNTOUCHED, UNTOUCHED};
    same(what, lcd_counts(words, 9, edition, 60000000, counts, 3), number);
    for (int i = 0; i < 3; i++)
        same(what, counts[i], UNTOUCHED);
}

/* The same nine words with another LCDCON1. */
static void other_lcdcon1(uint32_t *out, const uint32_t *words, uint32_t lcdcon1) {
    memcpy(out, words, 9 * sizeof *out);
    out[0] = lcdcon1;
}

/* ---- T1: a panel 1 by 2, 24 bits a pixel; its output is the bench's */

static const uint32_t t1_words[9] = {0x7b, 0x4000, 0, 0, 0, 0x18000000, 4, 2, 0};
static const uint32_t t1_video[2] = {0x00112233, 0x00aabbcc};
static const char t1_output[] = "clocks 20 hclk 40 mhz 25000\n112233\naabbcc\n";

/* The bench's text (§11.2), from the counts and from each row drawn by itself. */
static void t1_rows(char *text, size_t size) {
    uint64_t counts[3];
    same("T1, counts", lcd_counts(t1_words, 9, 1, 1000, counts, 3), 0);
    int n = snprintf(text, size, "clocks %" PRIu64 " hclk %" PRIu64 " mhz %" PRIu64 "\n", counts[0], counts[1], counts[2]);
    for (uint32_t row = 0; row < 2; row++) {
        uint32_t out[2] = {UNTOUCHED, UNTOUCHED};
        same("T1, row", lcd_draw_row(t1_words, 9, START, t1_video, 2, palette, 256, row, out, 2), 0);
        untouched("T1, entry past the row", out + 1, 1);
        n += snprintf(text + n, size - n, "%06" PRIx32 "\n", out[0]);
    }
}

static void t1_picture(void) {
    uint32_t picture[3] = {UNTOUCHED, UNTOUCHED, UNTOUCHED};
    same("T1, picture", lcd_draw_picture(t1_words, 9, START, t1_video, 2, palette, 256, picture, 3), 0);
    same("T1, picture's first entry", picture[0], 0x112233);
    same("T1, picture's second entry", picture[1], 0xaabbcc);
    untouched("T1, entry past the picture", picture + 2, 1);
}

static void t1_pixels(void) {
    static const uint32_t due[2] = {0x112233, 0xaabbcc};
    for (uint32_t row = 0; row < 2; row++) {
        uint32_t out[2] = {UNTOUCHED, UNTOUCHED};
        same("T1, pixel", lcd_draw_pixel(t1_words, 9, START, t1_video, 2, palette, 256, row, 0, out, 2), 0);
        same("T1, colour of the pixel", out[0], due[row]);
        untouched("T1, entry past the pixel", out + 1, 1);
    }
    uint32_t out = UNTOUCHED;
    same("T1, row outside", lcd_draw_pixel(t1_words, 9, START, t1_video, 2, palette, 256, 2, 0, &out, 1), 11);
    same("T1, row outside, no entry", lcd_draw_pixel(t1_words, 9, START, t1_video, 2, palette, 256, 2, 0, &out, 0), 10);
    untouched("T1, entry of a refused pixel", &out, 1);
}

/* A TFT panel has no pulses, so its counts do not depend on the rule edition, but there must be such an edition. */
static void t1_editions(void) {
    static const uint64_t due[3] = {20, 40, 25000};
    counted("T1, edition 1", t1_words, 1, 1000, due);
    counted("T1, edition 2", t1_words, 2, 1000, due);
    not_counted("T1, edition 3", t1_words, 3, 27);
    puts("T1: the same counts by rule editions 1 and 2, and 27 for 3");
}

static void t1(void) {
    char text[100];
    same("T1, check", lcd_check(t1_words, 9, START, t1_video, 2), 0);
    t1_rows(text, sizeof text);
    fputs(text, stdout);
    if (strcmp(text, t1_output)) {
        printf("T1: the text differs, due is\n%s", t1_output);
        exit(1);
    }
    t1_picture();
    t1_pixels();
    puts("T1: check, counts, rows, picture and pixels as they should be");
}

/* ---- T1's panel clock by clock: 5 lines of 4 clocks; row r's pixel is at clock (1 + 1 + r) x 4 + 1 + 1 (§6.6) */

enum { T1_FRAME = 20, T1_FIRST = 10, T1_SECOND = 14 };

/* One word more than T1's: a viewport that begins one row later fits too. */
static const uint32_t t1_longer[3] = {0x00112233, 0x00aabbcc, 0x00445566};

static void t1_start(uint32_t *scan) {
    prefill(scan, LCD_SCAN_ENTRIES + 1);
    same("T1, start", lcd_start(t1_words, 9, START, t1_longer, 3, scan, LCD_SCAN_ENTRIES + 1), 0);
    for (int i = 0; i < 9; i++)
        same("T1, word in force", scan[LCD_WORDS + i], t1_words[i]);
    same("T1, window start", scan[LCD_WINDOW_START], START);
    same("T1, pending LCDSADDR1", scan[LCD_PENDING_LCDSADDR1], t1_words[5]);
    same("T1, pending LCDSADDR2", scan[LCD_PENDING_LCDSADDR2], t1_words[6]);
    same("T1, position", scan[LCD_POSITION], 0);
    untouched("T1, entry past the state", scan + LCD_SCAN_ENTRIES, 1);
}

/* VDEN is active at the clocks of the two pixels, VSYNC in the first line, HSYNC at each line's first clock. */
static void t1_steps(void) {
    uint32_t scan[LCD_SCAN_ENTRIES + 1], clock[LCD_CLOCK_ENTRIES + 1];
    t1_start(scan);
    prefill(clock, LCD_CLOCK_ENTRIES + 1);
    for (uint32_t n = 0; n < T1_FRAME; n++) {
        same("T1, position before a step", scan[LCD_POSITION], n);
        same("T1, step", lcd_step(scan, LCD_SCAN_ENTRIES + 1, t1_longer, 3, palette, 256, clock, LCD_CLOCK_ENTRIES + 1), 0);
        same("T1, VSYNC", clock[LCD_VSYNC], n < 4);
        same("T1, HSYNC", clock[LCD_HSYNC], n % 4 == 0);
        same("T1, VDEN", clock[LCD_VDEN], n == T1_FIRST || n == T1_SECOND);
        same("T1, VD", clock[LCD_VD], n == T1_FIRST ? 0x112233 : n == T1_SECOND ? 0xaabbcc : 0);
    }
    same("T1, position after a frame", scan[LCD_POSITION], 0);
    untouched("T1, entry past the scan", scan + LCD_SCAN_ENTRIES, 1);
    untouched("T1, entry past the clock", clock + LCD_CLOCK_ENTRIES, 1);
    puts("T1: a frame in 20 steps, with the two pixels at clocks 10 and 14");
}

/* A run: the clocks taken, the next position, and the picture's two entries afterwards. */
static void t1_run(uint32_t *scan, uint32_t *picture, uint64_t clocks, uint32_t taken, uint32_t position, uint32_t first,
                   uint32_t second) {
    uint32_t count[2] = {UNTOUCHED, UNTOUCHED};
    same("T1, run", lcd_run(scan, LCD_SCAN_ENTRIES + 1, t1_longer, 3, palette, 256, clocks, picture, 3, count, 2), 0);
    same("T1, clocks of a run", count[0], taken);
    untouched("T1, entry past the count", count + 1, 1);
    same("T1, position after a run", scan[LCD_POSITION], position);
    same("T1, first entry after a run", picture[0], first);
    same("T1, second entry after a run", picture[1], second);
    untouched("T1, entry past the run's picture", picture + 2, 1);
}

static void t1_runs(void) {
    uint32_t scan[LCD_SCAN_ENTRIES + 1], picture[3], drawn[2];
    t1_start(scan);
    prefill(picture, 3);
    same("T1, picture", lcd_draw_picture(t1_words, 9, START, t1_longer, 3, palette, 256, drawn, 2), 0);
    t1_run(scan, picture, 0, 0, 0, UNTOUCHED, UNTOUCHED);
    t1_run(scan, picture, T1_FIRST, T1_FIRST, T1_FIRST, UNTOUCHED, UNTOUCHED);
    t1_run(scan, picture, 1, 1, T1_FIRST + 1, drawn[0], UNTOUCHED);
    t1_run(scan, picture, UINT64_MAX, T1_FRAME - T1_FIRST - 1, 0, drawn[0], drawn[1]);
    prefill(picture, 3);
    t1_run(scan, picture, T1_FRAME, T1_FRAME, 0, drawn[0], drawn[1]);
    puts("T1: a frame in four runs and in one, each with the picture");
}

/* Refused calls: they leave the scan and all other lent slices as they were (§9.5). */
static void t1_refused(uint32_t *scan, uint32_t *picture) {
    uint32_t kept[LCD_SCAN_ENTRIES + 1], clock[LCD_CLOCK_ENTRIES], taken = UNTOUCHED;
    prefill(clock, LCD_CLOCK_ENTRIES);
    prefill(picture, 3);
    memcpy(kept, scan, sizeof kept);
    same("T1, viewport past the memory",
         lcd_change_viewport(scan, LCD_SCAN_ENTRIES + 1, t1_longer, 3, t1_words[5] + 4, t1_words[6] + 4), 8);
    same("T1, run of a short scan", lcd_run(scan, LCD_SCAN_ENTRIES - 1, t1_longer, 3, palette, 256, 1, picture, 3, &taken, 1), 10);
    same("T1, run without a count", lcd_run(scan, LCD_SCAN_ENTRIES, t1_longer, 3, palette, 256, T1_FRAME, picture, 3, &taken, 0), 10);
    same("T1, step of a short clock", lcd_step(scan, LCD_SCAN_ENTRIES, t1_longer, 3, palette, 256, clock, LCD_CLOCK_ENTRIES - 1), 10);
    same("T1, scan after refusals", memcmp(kept, scan, sizeof kept), 0);
    scan[LCD_POSITION] = T1_FRAME;
    same("T1, position past the frame", lcd_step(scan, LCD_SCAN_ENTRIES, t1_longer, 3, palette, 256, clock, LCD_CLOCK_ENTRIES), 15);
    untouched("T1, clock of a refused step", clock, LCD_CLOCK_ENTRIES);
    untouched("T1, count of a refused run", &taken, 1);
    untouched("T1, picture of a refused run", picture, 3);
}

/* A viewport one row down, in force from the next frame (§7.6). */
static void t1_viewport(void) {
    uint32_t scan[LCD_SCAN_ENTRIES + 1], picture[3];
    t1_start(scan);
    prefill(picture, 3);
    t1_run(scan, picture, T1_SECOND, T1_SECOND, T1_SECOND, 0x112233, UNTOUCHED);
    same("T1, viewport", lcd_change_viewport(scan, LCD_SCAN_ENTRIES + 1, t1_longer, 3, t1_words[5] + 2, t1_words[6] + 2), 0);
    same("T1, LCDSADDR1 in force", scan[LCD_WORDS + 5], t1_words[5]);
    t1_run(scan, picture, T1_FRAME, T1_FRAME - T1_SECOND, 0, 0x112233, 0xaabbcc);
    t1_run(scan, picture, T1_FRAME, T1_FRAME, 0, 0xaabbcc, 0x445566);
    same("T1, LCDSADDR1 of the next frame", scan[LCD_WORDS + 5], t1_words[5] + 2);
    t1_refused(scan, picture);
    puts("T1: a new viewport comes into force with the next frame");
}

/* ---- T8 to T10: T9's panel, 240 by 320 at 16 bits; its fields and sizes, and memory that just suffices and one word less */

static const uint32_t t9_words[9] = {0x479, 0x014fc041, 0x0098ef09, 0x9, 0xb09, 0x18000000, 0x12c00, 0xf0, 0};
static uint32_t video[VIDEO], picture[PIXELS + 1], row[WIDTH];

/* T9's words have the fields of T8, and T8's fields make T9's words. */
static void t9_fields(void) {
    static const struct {
        enum lcd_field field;
        uint32_t due;
    } t8[] = {{LCD_HSPW, 9}, {LCD_HBPD, 19}, {LCD_HFPD, 9},  {LCD_VSPW, 1},     {LCD_VBPD, 1},     {LCD_VFPD, 1},
              {LCD_CLKVAL, 4}, {LCD_HOZVAL, WIDTH - 1}, {LCD_LINEVAL, HEIGHT - 1}, {LCD_BPPMODE, 12}, {LCD_HWSWP, 1}};
    uint32_t fields[LCD_FIELDS + 1], words[10];
    prefill(fields, LCD_FIELDS + 1);
    prefill(words, 10);
    same("T9, read", lcd_read_fields(t9_words, 9, fields, LCD_FIELDS + 1), 0);
    for (size_t i = 0; i < sizeof t8 / sizeof *t8; i++)
        same("T9, field", fields[t8[i].field], t8[i].due);
    untouched("T9, entry past the fields", fields + LCD_FIELDS, 1);
    same("T9, write", lcd_write_fields(fields, LCD_FIELDS, words, 10), 0);
    same("T9, words written", memcmp(words, t9_words, sizeof t9_words), 0);
    untouched("T9, entry past the words", words + 9, 1);
    fields[LCD_VSPW] = 64;
    prefill(words, 10);
    same("T9, VSPW of seven bits", lcd_write_fields(fields, LCD_FIELDS, words, 10), 12);
    untouched("T9, word of a refused field", words, 10);
    puts("T9: the words have the fields of T8, and are written from them");
}

static void t8_sizes(void) {
    static const uint32_t due[LCD_SIZES] = {WIDTH, HEIGHT, 16, 10, 10, 20, 10, 280, 2, 2, 2, 326};
    uint32_t sizes[LCD_SIZES + 1];
    prefill(sizes, LCD_SIZES + 1);
    same("T8, sizes", lcd_read_sizes(t9_words, 9, sizes, LCD_SIZES + 1), 0);
    for (int i = 0; i < LCD_SIZES; i++)
        same("T8, size", sizes[i], due[i]);
    same("T8, clocks", (uint64_t)sizes[LCD_SIZE_LINE] * sizes[LCD_SIZE_FRAME], 91280);
    untouched("T8, entry past the sizes", sizes + LCD_SIZES, 1);
    puts("T8: 280 clocks a line, 326 lines a frame");
}

/* All black but the last pixel, which is white: the last word is read, and HWSWP, set here, orders its halves. */
static void t10_suffices(void) {
    video[VIDEO - 1] = 0xffff0000;
    prefill(picture, PIXELS + 1);
    same("T10, check", lcd_check(t9_words, 9, START, video, VIDEO), 0);
    same("T10, picture", lcd_draw_picture(t9_words, 9, START, video, VIDEO, palette, 256, picture, PIXELS + 1), 0);
    for (size_t i = 0; i < PIXELS - 1; i++)
        same("T10, black entry", picture[i], 0);
    same("T10, last entry", picture[PIXELS - 1], 0xf8fcf8);
    untouched("T10, entry past the picture", picture + PIXELS, 1);
    same("T10, last row", lcd_draw_row(t9_words, 9, START, video, VIDEO, palette, 256, HEIGHT - 1, row, WIDTH), 0);
    same("T10, last row's last entry", row[WIDTH - 1], 0xf8fcf8);
    puts("T10: 38400 words suffice");
}

static void t10_one_short(void) {
    prefill(picture, PIXELS + 1);
    prefill(row, WIDTH);
    same("T10, check, one word short", lcd_check(t9_words, 9, START, video, VIDEO - 1), 8);
    same("T10, picture, one word short",
         lcd_draw_picture(t9_words, 9, START, video, VIDEO - 1, palette, 256, picture, PIXELS + 1), 8);
    same("T10, row, one word short", lcd_draw_row(t9_words, 9, START, video, VIDEO - 1, palette, 256, 0, row, WIDTH), 8);
    untouched("T10, entry of a refused picture", picture, PIXELS + 1);
    untouched("T10, entry of a refused row", row, WIDTH);
    puts("T10: 38399 words give 8, and nothing lent is changed");
}

/* ---- an STN panel, 8 by 2 in 16 greys: levels 0 to 7 in row 0, 8 to 15 in row 1; the numbers are worked out by hand */

static const uint32_t stn_words[9] = {0x245, 0x4000, 0, 0, 0, 0x18000000, 4, 2, 0};
static const uint32_t stn_video[2] = {0x01234567, 0x89abcdef};

static void stn_frames(void) {
    static const struct {
        uint32_t frame;
        uint8_t due[3];
    } cases[] = {{0, {0x04, 0x63, 0xaa}}, {6, {0x42, 0xbf, 0xaa}}, {0xffffffff, {0x05, 0xfb, 0xaa}}};
    for (size_t i = 0; i < sizeof cases / sizeof cases[0]; i++) {
        uint8_t out[3] = {0xaa, 0xaa, 0xaa};
        same("STN, frame", lcd_draw_stn(stn_words, 9, START, stn_video, 2, cases[i].frame, out, 3), 0);
        for (int k = 0; k < 3; k++)
            same("STN, byte", out[k], cases[i].due[k]);
    }
    puts("STN: frames 0, 6 and 2^32 - 1 of 16 greys, 8 by 2");
}

/* Level 6, 3/7, stands in row 0, column 6: bit 1 of the first byte. */
static void stn_duty(void) {
    int lit = 0;
    for (uint32_t frame = 100; frame < 107; frame++) {
        uint8_t out[2];
        same("STN, frame of seven", lcd_draw_stn(stn_words, 9, START, stn_video, 2, frame, out, 2), 0);
        lit += out[0] >> 1 & 1;
    }
    same("STN, level 6 in seven frames", lit, 3);
    puts("STN: level 6 is lit in 3 of 7 frames");
}

static void stn_refusals(void) {
    uint32_t fast[9], out = UNTOUCHED;
    uint8_t bytes[2] = {0xaa, 0xaa};
    other_lcdcon1(fast, stn_words, 0x145);
    same("STN, CLKVAL 1, check", lcd_check(fast, 9, START, stn_video, 2), 17);
    same("STN, CLKVAL 1", lcd_draw_stn(fast, 9, START, stn_video, 2, 0, bytes, 2), 17);
    same("STN, CLKVAL 1, one byte short", lcd_draw_stn(fast, 9, START, stn_video, 2, 0, bytes, 1), 10);
    same("STN, TFT words", lcd_draw_stn(t1_words, 9, START, t1_video, 2, 0, bytes, 2), 2);
    same("STN, bytes of a refused frame", bytes[0] << 8 | bytes[1], 0xaaaa);
    same("STN, TFT row", lcd_draw_row(stn_words, 9, START, stn_video, 2, palette, 256, 0, &out, 1), 2);
    untouched("STN, entry of a refused row", &out, 1);
    puts("STN: CLKVAL 1 gives 17, the other kind of panel 2, and nothing lent is changed");
}

/* 320 by 240 in 16 greys, CLKVAL 8, WLH 2, WDLY 1, LINEBLANK 10: a line of 640 + 64 + 32 + 80 ticks by rule edition 1, where the pulse of
 * WLH 2 is 2^6, and of 640 + 48 + 32 + 80 by 2, where it is 16 x 3. */
static void stn_counts(void) {
    static const uint32_t words[9] = {0x845, 0x3bc000, 0x8270a, 0xd02, 0, 0x18000000, 0x4b00, 0x50, 0};
    static const uint64_t first[3] = {9600, 195840, 306372}, second[3] = {9600, 192000, 312500};
    uint32_t fast[9];
    other_lcdcon1(fast, words, 0x145);
    counted("STN, edition 1", words, 1, 60000000, first);
    puts("STN: 816 ticks a line by rule edition 1, 306.372 Hz at 60 MHz");
    counted("STN, edition 2", words, 2, 60000000, second);
    puts("STN: 800 ticks a line by rule edition 2, 312.500 Hz at 60 MHz");
    not_counted("STN, edition 0", words, 0, 27);
    not_counted("STN, edition 3", words, 3, 27);
    not_counted("STN, edition 3, CLKVAL 1", fast, 3, 17);
    puts("STN: rule editions 0 and 3 give 27, with CLKVAL 1 17, and nothing lent is changed");
}

/* ---- loads over T9's words (§1.8): T1's panel one row down, with read-only bits set and a TPALVAL, so that each word differs */

static const uint32_t new_words[9] = {0x4007b, 0x4000, 0, 0, 0xa000, 0x18000002, 6, 2, 0x112233};

/* T9's words, and an entry past them. */
static void store_t9(uint32_t *stored) {
    memcpy(stored, t9_words, sizeof t9_words);
    stored[9] = UNTOUCHED;
}

/* The nine words that are stored; the entry past them stays. */
static void holds(const char *what, const uint32_t *stored, const uint32_t *due) {
    for (int i = 0; i < 9; i++)
        same(what, stored[i], due[i]);
    untouched("load, entry past the words", stored + 9, 1);
}

/* What each cut leaves; loaded again, uncut, the new words are there whole. */
static void load_cut(void) {
    static const struct {
        uint32_t cut, due[9];
    } cases[] = {{0, {0x479, 0x014fc041, 0x0098ef09, 0x9, 0xb09, 0x18000000, 0x12c00, 0xf0, 0}},
                 {1, {0x4007a, 0x014fc041, 0x0098ef09, 0x9, 0xb09, 0x18000000, 0x12c00, 0xf0, 0}},
                 {5, {0x4007a, 0x4000, 0, 0, 0xa000, 0x18000000, 0x12c00, 0xf0, 0}},
                 {9, {0x4007a, 0x4000, 0, 0, 0xa000, 0x18000002, 6, 2, 0x112233}},
                 {10, {0x4007b, 0x4000, 0, 0, 0xa000, 0x18000002, 6, 2, 0x112233}},
                 {11, {0x4007b, 0x4000, 0, 0, 0xa000, 0x18000002, 6, 2, 0x112233}}};
    for (size_t i = 0; i < sizeof cases / sizeof cases[0]; i++) {
        uint32_t stored[10];
        store_t9(stored);
        same("load, cut", lcd_load(stored, 10, new_words, 9, START, t1_longer, 3, cases[i].cut), 0);
        holds("load, word after a cut", stored, cases[i].due);
        same("load, again", lcd_load(stored, 10, new_words, 9, START, t1_longer, 3, LCD_STORES), 0);
        holds("load, word when loaded again", stored, new_words);
    }
    puts("load: cut after 0, 1, 5, 9, 10 and 11 stores, and then loaded again");
}

/* Words with video off are stored as any others. */
static void load_off(void) {
    uint32_t stored[10], off[9];
    other_lcdcon1(off, new_words, 0x4007a);
    store_t9(stored);
    same("load, ENVID 0", lcd_load(stored, 10, off, 9, START, t1_longer, 3, LCD_STORES), 0);
    holds("load, word with ENVID 0", stored, off);
    puts("load: ENVID 0 is not refused");
}

static void load_refused(void) {
    uint32_t stored[10], fast[9];
    other_lcdcon1(fast, stn_words, 0x145);
    store_t9(stored);
    same("load, one word short", lcd_load(stored, 10, new_words, 9, START, t1_longer, 2, LCD_STORES), 8);
    same("load, one word short, cut at once", lcd_load(stored, 10, new_words, 9, START, t1_longer, 2, 0), 8);
    same("load, CLKVAL 1 on STN", lcd_load(stored, 10, fast, 9, START, stn_video, 2, LCD_STORES), 17);
    same("load, eight entries", lcd_load(stored, 8, fast, 9, START, stn_video, 2, LCD_STORES), 10);
    same("load, eight words", lcd_load(stored, 10, fast, 8, START, stn_video, 2, LCD_STORES), 10);
    holds("load, word after refusals", stored, t9_words);
    puts("load: 8, 10 and 17, and nothing is stored");
}

/* Loads made into the slice of a scan, whose first nine entries are the words in force (§10.4), between T1's two pixels. The new words
 * have every colour from TPAL, the last but one to be stored: a mixture would show it too early, or too late. */
static void load_scanned(void) {
    uint32_t scan[LCD_SCAN_ENTRIES + 1], clock[LCD_CLOCK_ENTRIES], picture[3], one_colour[9];
    memcpy(one_colour, t1_words, sizeof one_colour);
    one_colour[8] = 0x01445566;
    for (uint32_t cut = 0; cut <= LCD_STORES; cut++) {
        t1_start(scan);
        prefill(picture, 3);
        t1_run(scan, picture, T1_FIRST + 1, T1_FIRST + 1, T1_FIRST + 1, 0x112233, UNTOUCHED);
        same("load into a scan", lcd_load(scan, LCD_SCAN_ENTRIES + 1, one_colour, 9, START, t1_longer, 3, cut), 0);
        if (cut > 0 && cut < LCD_STORES) {
            same("step after a cut", lcd_step(scan, LCD_SCAN_ENTRIES, t1_longer, 3, palette, 256, clock, LCD_CLOCK_ENTRIES), 9);
            same("load into a scan again", lcd_load(scan, LCD_SCAN_ENTRIES, one_colour, 9, START, t1_longer, 3, LCD_STORES), 0);
        }
        t1_run(scan, picture, UINT64_MAX, T1_FRAME - T1_FIRST - 1, 0, 0x112233, cut == 0 ? 0xaabbcc : 0x445566);
    }
    puts("load: into a scan, cut after 0 to 10 stores: it goes on with whole words, or gives 9");
}

int main(void) {
    t1();
    t1_editions();
    t1_steps();
    t1_runs();
    t1_viewport();
    t9_fields();
    t8_sizes();
    t10_suffices();
    t10_one_short();
    stn_frames();
    stn_duty();
    stn_refusals();
    stn_counts();
    load_cut();
    load_off();
    load_refused();
    load_scanned();
    return 0;
}
