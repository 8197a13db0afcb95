/* What the words, the memory and the palette show, rule by rule: see rules.h. */
#include "rules.h"

/* ---- the nine words (§1, §2) */

/* Each field's word, highest and lowest bit (§1.2, §1.7). */
const struct model_field model_fields[MODEL_FIELDS] = {
    [MODEL_LINECNT] = {LCDCON1, 27, 18}, [LCD_CLKVAL] = {LCDCON1, 17, 8}, [LCD_MMODE] = {LCDCON1, 7, 7},
    [LCD_PNRMODE] = {LCDCON1, 6, 5}, [LCD_BPPMODE] = {LCDCON1, 4, 1}, [LCD_ENVID] = {LCDCON1, 0, 0},
    [LCD_VBPD] = {LCDCON2, 31, 24}, [LCD_LINEVAL] = {LCDCON2, 23, 14}, [LCD_VFPD] = {LCDCON2, 13, 6},
    [LCD_VSPW] = {LCDCON2, 5, 0},
    [LCD_HBPD] = {LCDCON3, 25, 19}, [LCD_HOZVAL] = {LCDCON3, 18, 8}, [LCD_HFPD] = {LCDCON3, 7, 0},
    [LCD_MVAL] = {LCDCON4, 15, 8}, [LCD_HSPW] = {LCDCON4, 7, 0},
    [MODEL_VSTATUS] = {LCDCON5, 16, 15}, [MODEL_HSTATUS] = {LCDCON5, 14, 13},
    [LCD_BPP24BL] = {LCDCON5, 12, 12}, [LCD_FRM565] = {LCDCON5, 11, 11}, [LCD_INVVCLK] = {LCDCON5, 10, 10},
    [LCD_INVVLINE] = {LCDCON5, 9, 9}, [LCD_INVVFRAME] = {LCDCON5, 8, 8}, [LCD_INVVD] = {LCDCON5, 7, 7},
    [LCD_INVVDEN] = {LCDCON5, 6, 6}, [LCD_INVPWREN] = {LCDCON5, 5, 5}, [LCD_INVLEND] = {LCDCON5, 4, 4},
    [LCD_PWREN] = {LCDCON5, 3, 3}, [LCD_ENLEND] = {LCDCON5, 2, 2}, [LCD_BSWP] = {LCDCON5, 1, 1}, [LCD_HWSWP] = {LCDCON5, 0, 0},
    [LCD_LCDBANK] = {LCDSADDR1, 29, 21}, [LCD_LCDBASEU] = {LCDSADDR1, 20, 0},
    [LCD_LCDBASEL] = {LCDSADDR2, 20, 0},
    [LCD_OFFSIZE] = {LCDSADDR3, 21, 11}, [LCD_PAGEWIDTH] = {LCDSADDR3, 10, 0},
    [LCD_TPALEN] = {TPAL, 24, 24}, [LCD_TPALVAL] = {TPAL, 23, 0},
    [MODEL_WDLY] = {LCDCON3, 20, 19}, [MODEL_LINEBLANK] = {LCDCON3, 7, 0}, [MODEL_WLH] = {LCDCON4, 1, 0},
};

uint64_t model_limit(int name) {
    int bits = model_fields[name].high - model_fields[name].low + 1;
    return ((uint64_t)1 << bits) - 1;
}

bool is_stn(const uint32_t *words) {
    return field(words, LCD_PNRMODE) == 2;
}

bool has_field(const uint32_t *words, int name) {
    switch (name) {
    case LCD_HBPD: case LCD_HFPD: case LCD_HSPW: case LCD_TPALEN: case LCD_TPALVAL: return !is_stn(words);
    case MODEL_WDLY: case MODEL_LINEBLANK: case MODEL_WLH: return is_stn(words);
    default: return true;
    }
}

/* W (§2.1); on STN a clock brings eight pixels (§2.3). */
uint64_t width(const uint32_t *words) {
    return is_stn(words) ? 8 * (field(words, LCD_HOZVAL) + 1) : field(words, LCD_HOZVAL) + 1;
}

/* H (§2.1). */
uint64_t height(const uint32_t *words) {
    return field(words, LCD_LINEVAL) + 1;
}

/* S of mono and of 16 greys (§2.3). */
static uint64_t stn_stored_bits(const uint32_t *words) {
    switch (field(words, LCD_BPPMODE)) {
    case 0: return 1;
    case 2: return 4;
    default: return 0;
    }
}

/* S (§2.2): 24-bit pixels take a whole word. */
uint64_t stored_bits(const uint32_t *words) {
    if (is_stn(words))
        return stn_stored_bits(words);
    switch (field(words, LCD_BPPMODE)) {
    case 8: return 1;
    case 9: return 2;
    case 10: return 4;
    case 11: return 8;
    case 12: return 16;
    case 13: return 32;
    default: return 0;
    }
}

/* ---- where a pixel lies (§3, §4) */

bool is_lent_word(const struct memory *memory, uint64_t address) {
    return address >= memory->start && address + 4 <= memory->start + 4 * memory->len;
}

static uint32_t word_at(const struct memory *memory, uint64_t address) {
    return memory->words[(address - memory->start) / 4];
}

/* The bank's first byte, and twice the row's half-words: LCDBASEU and a pitch of PAGEWIDTH + OFFSIZE for each row above (§3.2). */
uint64_t row_start(const uint32_t *words, uint64_t row) {
    uint64_t row_length = field(words, LCD_PAGEWIDTH) + field(words, LCD_OFFSIZE);
    return (field(words, LCD_LCDBANK) << 22) + 2 * (field(words, LCD_LCDBASEU) + row * row_length);
}

/* BSWP reverses a word's bytes (§4.2), HWSWP exchanges its halves (§4.3). */
static uint32_t swapped(const uint32_t *words, uint32_t word) {
    uint32_t byte0 = word & 0xff, byte1 = word >> 8 & 0xff, byte2 = word >> 16 & 0xff, byte3 = word >> 24;
    if (field(words, LCD_BSWP) == 1)
        return byte0 << 24 | byte1 << 16 | byte2 << 8 | byte3;
    if (field(words, LCD_HWSWP) == 1)
        return (word & 0xffff) << 16 | word >> 16;
    return word;
}

static uint32_t bit_of(uint32_t number, uint64_t bit) {
    return number >> bit & 1;
}

/* Pixels of a word go from its highest bits down (§4.1). */
static uint32_t stored_pixel(const uint32_t *words, const struct memory *memory, uint64_t row, uint64_t column) {
    uint64_t stored = stored_bits(words);
    uint64_t first = column * stored;
    uint32_t word = swapped(words, word_at(memory, row_start(words, row) + first / 32 * 4));
    uint32_t pixel = 0;
    for (uint64_t i = 0; i < stored; i++)
        pixel = pixel << 1 | bit_of(word, 31 - (first % 32 + i));
    return pixel;
}

/* ---- colours (§5) */

/* Bits high..low of a number go to line VD`line` and the lines below it. */
static uint32_t to_lines(uint32_t number, int high, int low, int line) {
    uint32_t lines = 0;
    for (int bit = high; bit >= low; bit--)
        lines |= bit_of(number, bit) << (line - (high - bit));
    return lines;
}

/* 5:6:5 under FRM565 (§5.2), else 5:5:5:1, whose bit 0 goes to all three parts (§5.3). Lines that get no bit are 0. */
static uint32_t colour_of_16_bits(const uint32_t *words, uint32_t number) {
    if (field(words, LCD_FRM565) == 1)
        return to_lines(number, 15, 11, 23) | to_lines(number, 10, 5, 15) | to_lines(number, 4, 0, 7);
    uint32_t intensity = to_lines(number, 0, 0, 18) | to_lines(number, 0, 0, 10) | to_lines(number, 0, 0, 2);
    return to_lines(number, 15, 11, 23) | to_lines(number, 10, 6, 15) | to_lines(number, 5, 1, 7) | intensity;
}

/* The word's low 24 bits, or its high ones under BPP24BL (§4.5). */
static uint32_t colour_of_24_bits(const uint32_t *words, uint32_t pixel) {
    return field(words, LCD_BPP24BL) == 1 ? to_lines(pixel, 31, 8, 23) : to_lines(pixel, 23, 0, 23);
}

/* TPALVAL under TPALEN (§5.4); else up to 8 bits by the palette (§5.1), above by the stored bits themselves (§5.5). */
uint32_t colour(const uint32_t *words, const struct memory *memory, const uint16_t *palette, uint64_t row,
                uint64_t column) {
    if (field(words, LCD_TPALEN) == 1)
        return field(words, LCD_TPALVAL);
    uint32_t pixel = stored_pixel(words, memory, row, column);
    if (stored_bits(words) == 32)
        return colour_of_24_bits(words, pixel);
    if (stored_bits(words) == 16)
        return colour_of_16_bits(words, pixel);
    return colour_of_16_bits(words, palette[pixel]);
}

/* ---- pixels of an STN panel (§5.8, §5.9) */

/* By grey level: lit in n of d frames. */
static const struct {
    uint64_t n, d;
} duties[16] = {{0, 1}, {1, 7}, {1, 5}, {1, 4}, {1, 3}, {2, 5}, {3, 7}, {1, 2},
                {4, 7}, {3, 5}, {2, 3}, {5, 7}, {3, 4}, {4, 5}, {6, 7}, {1, 1}};

/* A mono pixel is its bit; a grey's frames also differ from row to row and from column to column. The sum is exact. */
bool is_lit(const uint32_t *words, const struct memory *memory, uint64_t frame, uint64_t row, uint64_t column) {
    uint32_t pixel = stored_pixel(words, memory, row, column);
    if (stored_bits(words) == 1)
        return pixel == 1;
    return (frame + row + column) * duties[pixel].n % duties[pixel].d < duties[pixel].n;
}

/* ---- line and frame (§6) */

/* C (§6.1): sync, back porch, active and front porch clocks. An STN line's clocks are all active (§6.8). */
uint64_t line_length(const uint32_t *words) {
    if (is_stn(words))
        return field(words, LCD_HOZVAL) + 1;
    return (field(words, LCD_HSPW) + 1) + (field(words, LCD_HBPD) + 1) + width(words) + (field(words, LCD_HFPD) + 1);
}

/* L (§6.2): the same parts in lines. An STN frame's lines are its rows (§6.8). */
uint64_t frame_height(const uint32_t *words) {
    if (is_stn(words))
        return height(words);
    return (field(words, LCD_VSPW) + 1) + (field(words, LCD_VBPD) + 1) + height(words) + (field(words, LCD_VFPD) + 1);
}

/* L x C (§6.3, §6.8). */
uint64_t frame_clocks(const uint32_t *words) {
    return frame_height(words) * line_length(words);
}

/* 2 x (CLKVAL+1) (§6.3), on STN 2 x CLKVAL (§6.8). */
uint64_t clock_ticks(const uint32_t *words) {
    return is_stn(words) ? 2 * field(words, LCD_CLKVAL) : 2 * (field(words, LCD_CLKVAL) + 1);
}

/* Ticks of WLH's and WDLY's pulse by rule edition 1, and by 2 (§6.8). */
static uint64_t pulse(uint32_t edition, uint64_t n) {
    if (edition == 1)
        return (uint64_t)1 << (4 + n);
    return 16 * (n + 1);
}

/* After its clocks an STN line takes two pulses and LINEBLANK times eight ticks (§6.8). */
static uint64_t line_ticks(const uint32_t *words, uint32_t edition) {
    uint64_t clocks = clock_ticks(words) * line_length(words);
    if (!is_stn(words))
        return clocks;
    uint64_t pulses = pulse(edition, field(words, MODEL_WLH)) + pulse(edition, field(words, MODEL_WDLY));
    return clocks + pulses + 8 * field(words, MODEL_LINEBLANK);
}

uint64_t frame_ticks(const uint32_t *words, uint32_t edition) {
    return frame_height(words) * line_ticks(words, edition);
}

/* One division, rounded down once (§6.4). The product is exact: below 2^42. */
uint64_t rate(const uint32_t *words, uint32_t edition, uint64_t hclk) {
    return hclk * 1000 / frame_ticks(words, edition);
}

/* Sync is first in a line and in a frame, then back porch, active part and front porch (§6.5). VSYNC marks the sync lines, HSYNC the
 * sync clocks, VDEN the active clocks of active lines (§6.7). */
struct clock clock_at(const uint32_t *words, uint64_t position) {
    uint64_t line = position / line_length(words), clock = position % line_length(words);
    uint64_t sync_lines = field(words, LCD_VSPW) + 1, sync_clocks = field(words, LCD_HSPW) + 1;
    uint64_t first_line = sync_lines + field(words, LCD_VBPD) + 1, first_clock = sync_clocks + field(words, LCD_HBPD) + 1;
    bool line_active = line >= first_line && line < first_line + height(words);
    bool clock_active = clock >= first_clock && clock < first_clock + width(words);
    struct clock shown = {.vsync = line < sync_lines, .hsync = clock < sync_clocks, .vden = line_active && clock_active};
    if (shown.vden) {
        shown.row = line - first_line;
        shown.column = clock - first_clock;
    }
    return shown;
}
