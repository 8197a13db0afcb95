/* Words for the comparison of host/differential.c: see words.h. They lie on both sides of each condition of refusal (docs/REFERENCE.md,
 * §9.1) and at the edges of rows (§3), lines and frames (§6). */
#include "chance.h"
#include "model.h"
#include "words.h"

/* One case in so many has a large panel, which takes longer. */
enum { LARGE_IN = 320 };

/* ---- fields */

/* Reserved bits of each word: on every panel (§1.3), and further ones on STN (§1.7). */
static const uint32_t reserved[LCD_REGISTERS] = {0xf0000000, 0,          0xfc000000, 0xffff0000, 0xfffe0000,
                                                 0xc0000000, 0xffe00000, 0xffc00000, 0xfe000000};
static const uint32_t reserved_on_stn[LCD_REGISTERS] = {0, 0, 0x03e00000, 0x000000fc, 0, 0, 0, 0, 0x01ffffff};

uint64_t get(const uint32_t *words, int name) {
    return words[model_fields[name].word] >> model_fields[name].low & model_limit(name);
}

void put(uint32_t *words, int name, uint64_t number) {
    int low = model_fields[name].low;
    words[model_fields[name].word] &= ~(uint32_t)(model_limit(name) << low);
    words[model_fields[name].word] |= (number & model_limit(name)) << low;
}

bool is_on_stn(const uint32_t *words) {
    return get(words, LCD_PNRMODE) == ON_STN;
}

static uint32_t reserved_bits(const uint32_t *words, int word) {
    return is_on_stn(words) ? reserved[word] | reserved_on_stn[word] : reserved[word];
}

uint64_t smaller(uint64_t a, uint64_t b) {
    return a < b ? a : b;
}

/* ---- well-formed words */

/* A number from 1 to `most`. */
static uint64_t some_count(uint64_t most, enum size size) {
    uint64_t kind = size == SMALL ? 0 : size == MOSTLY_SMALL ? below(1000) : 999;
    if (size == LARGEST)
        return most;
    if (kind < 500)
        return 1 + below(smaller(most, 3));
    if (kind < 960)
        return 1 + below(smaller(most, 20));
    return chance(70) ? 1 + below(most) : most;
}

enum size some_size(void) {
    if (below(LARGE_IN) > 0)
        return MOSTLY_SMALL;
    return chance(50) ? LARGEST : LARGE;
}

uint64_t extent(const uint32_t *words) {
    return get(words, LCD_LINEVAL) * (get(words, LCD_PAGEWIDTH) + get(words, LCD_OFFSIZE)) + get(words, LCD_PAGEWIDTH);
}

void fit_lcdbasel(uint32_t *words) {
    uint64_t row = get(words, LCD_PAGEWIDTH) + get(words, LCD_OFFSIZE);
    put(words, LCD_LCDBASEL, get(words, LCD_LCDBASEU) + row * (get(words, LCD_LINEVAL) + 1));
}

static bool is_mode(const uint32_t *words) {
    uint64_t mode = get(words, LCD_BPPMODE);
    return is_on_stn(words) ? mode == 0 || mode == 2 : mode >= 8 && mode <= 13;
}

/* On both kinds 2 to the power of BPPMODE without its bit 3. */
static uint64_t stored_bits(const uint32_t *words) {
    return is_mode(words) ? 1u << get(words, LCD_BPPMODE) % 8 : 32;
}

/* Columns that HOZVAL counts as one. */
static uint64_t columns_at_once(const uint32_t *words) {
    return is_on_stn(words) ? 8 : 1;
}

uint64_t columns_of(const uint32_t *words) {
    return columns_at_once(words) * (get(words, LCD_HOZVAL) + 1);
}

/* A mode, swap bits that are legal for it, and rows of whole words. */
static void make_rows(uint32_t *words, enum size size) {
    put(words, LCD_BPPMODE, is_on_stn(words) ? 2 * below(2) : 8 + below(6));
    uint64_t stored = stored_bits(words), a_word = 32 / stored / columns_at_once(words);
    put(words, LCD_BSWP, stored <= 8 && chance(50));
    put(words, LCD_HWSWP, stored == 16 && chance(50));
    uint64_t row = some_count(smaller(1023, 2048 / a_word), size);
    put(words, LCD_HOZVAL, row * a_word - 1);
    put(words, LCD_PAGEWIDTH, 2 * row);
}

/* A viewport: at the beginning of its bank, in the middle, or ending exactly with it. */
static void make_viewport(uint32_t *words, enum size size) {
    put(words, LCD_OFFSIZE, 0);
    if (chance(50))
        put(words, LCD_OFFSIZE, 2 * (some_count(1024, size) - 1));
    if (extent(words) > BANK)
        put(words, LCD_OFFSIZE, 0);
    uint64_t room = BANK - extent(words), kind = below(4);
    put(words, LCD_LCDBASEU, kind == 0 ? 0 : kind == 1 ? 2 * below(room / 2 + 1) : room);
    kind = below(4);
    put(words, LCD_LCDBANK, kind == 0 ? 0 : kind == 1 ? 511 : below(512));
    fit_lcdbasel(words);
}

static void make_fields(uint32_t *words, uint64_t pnrmode) {
    for (int i = 0; i < LCD_REGISTERS; i++)
        words[i] = random64();
    put(words, LCD_PNRMODE, pnrmode);
    for (int i = 0; i < LCD_REGISTERS; i++)
        words[i] &= ~reserved_bits(words, i);
}

void make_any_words(uint32_t *words) {
    make_fields(words, below(4));
}

/* Lines, porches and CLKVAL. */
static void make_tft_times(uint32_t *words, enum size size) {
    static const int parts[] = {LCD_VSPW, LCD_VBPD, LCD_LINEVAL, LCD_VFPD, LCD_HSPW, LCD_HBPD, LCD_HFPD};
    for (size_t i = 0; i < sizeof parts / sizeof *parts; i++)
        put(words, parts[i], some_count(model_limit(parts[i]) + 1, size) - 1);
    if (chance(20))
        put(words, LCD_CLKVAL, chance(50) ? 0 : 1023);
    put(words, LCD_TPALEN, chance(12));
}

/* Lines and CLKVAL; then one of the fields that may be any is at an end of its range. */
static void make_stn_times(uint32_t *words, enum size size) {
    static const int any[] = {MODEL_WDLY, MODEL_LINEBLANK, MODEL_WLH, LCD_MVAL, LCD_VBPD, LCD_VFPD, LCD_VSPW, LCD_MMODE, LCD_INVVD};
    int name = any[below(sizeof any / sizeof *any)];
    uint64_t way = below(4);
    put(words, LCD_LINEVAL, some_count(model_limit(LCD_LINEVAL) + 1, size) - 1);
    put(words, LCD_CLKVAL, way == 0 ? 2 : way == 1 ? 1023 : 2 + below(way == 2 ? 4 : 1022));
    put(words, name, chance(50) ? 0 : model_limit(name));
}

void make_words(uint32_t *words, enum panel panel, enum size size) {
    make_fields(words, panel);
    if (panel == ON_STN)
        make_stn_times(words, size);
    else
        make_tft_times(words, size);
    put(words, LCD_ENVID, 1);
    make_rows(words, size);
    make_viewport(words, size);
}

/* ---- damaged words */

/* On STN mostly one that is reserved there alone. */
void set_reserved_bit(uint32_t *words) {
    static const uint64_t with_more[] = {2, 3, 8};
    bool of_stn = is_on_stn(words) && chance(60);
    uint64_t word, bit;
    do {
        word = of_stn ? with_more[below(3)] : below(LCD_REGISTERS);
        bit = below(32);
    } while (((of_stn ? reserved_on_stn[word] : reserved[word]) >> bit & 1) == 0);
    words[word] |= 1u << bit;
}

/* Another kind of panel; half the time with a mode of as many stored bits, where it has one. */
static void change_panel(uint32_t *words) {
    uint64_t mode = get(words, LCD_BPPMODE);
    put(words, LCD_PNRMODE, get(words, LCD_PNRMODE) + 1 + below(3));
    if (chance(50))
        put(words, LCD_BPPMODE, mode ^ 8);
}

static void make_mode_wrong(uint32_t *words) {
    do
        put(words, LCD_BPPMODE, below(16));
    while (is_mode(words));
}

/* A row of an odd number of half-words, with the width that fits it, where the mode has one. */
static void make_page_odd(uint32_t *words) {
    put(words, LCD_PAGEWIDTH, get(words, LCD_PAGEWIDTH) - 1);
    put(words, LCD_HOZVAL, 16 * get(words, LCD_PAGEWIDTH) / stored_bits(words) / columns_at_once(words) - 1);
    fit_lcdbasel(words);
}

/* A row that is a little too long or too short for the width. */
static void make_page_unfit(uint32_t *words) {
    int name = chance(50) ? LCD_PAGEWIDTH : LCD_HOZVAL;
    put(words, name, get(words, name) + below(5) - 2);
    fit_lcdbasel(words);
}

/* LCDBASEL as it would be with a bit more or less, with other rows, or without OFFSIZE after the last row. */
static void make_lcdbasel_differ(uint32_t *words) {
    uint64_t due = get(words, LCD_LCDBASEL), row = get(words, LCD_PAGEWIDTH) + get(words, LCD_OFFSIZE);
    switch (below(4)) {
    case 0: put(words, LCD_LCDBASEL, due ^ (uint64_t)1 << below(21)); break;
    case 1: put(words, LCD_LCDBASEL, due - row); break;
    case 2: put(words, LCD_LCDBASEL, due + row); break;
    default: put(words, LCD_LCDBASEL, get(words, LCD_LCDBASEU) + extent(words)); break;
    }
}

/* An odd LCDBASEU or OFFSIZE, or a viewport that ends one word past its bank: faults that leave LCDBASEL right. */
static void move_viewport(uint32_t *words) {
    switch (below(5)) {
    case 0: put(words, LCD_LCDBASEU, get(words, LCD_LCDBASEU) ^ 1); break;
    case 1: put(words, LCD_OFFSIZE, get(words, LCD_OFFSIZE) ^ 1); break;
    default: put(words, LCD_LCDBASEU, BANK - extent(words) + 2); break;
    }
    fit_lcdbasel(words);
}

/* A field at its limit, one above it (which sets the next higher bit), or any. */
static void set_field(uint32_t *words) {
    int name = below(MODEL_FIELDS);
    uint64_t kind = below(3);
    put(words, name, kind == 0 ? model_limit(name) : kind == 1 ? 0 : random64());
    if (kind == 1 && model_fields[name].high < 31)
        words[model_fields[name].word] |= 2u << model_fields[name].high;
}

static void exchange(uint32_t *words) {
    uint64_t one = below(LCD_REGISTERS), other = below(LCD_REGISTERS);
    uint32_t kept = words[one];
    words[one] = words[other];
    words[other] = kept;
}

void flip_bit(uint32_t *entries, size_t n) {
    uint64_t i = below(n);
    entries[i] ^= 1u << below(32);
}

/* Damage of no special kind; half of it fits LCDBASEL again, so that 6 does not hide the others. */
static void damage_anywhere(uint32_t *words) {
    switch (below(3)) {
    case 0: flip_bit(words, LCD_REGISTERS); break;
    case 1: exchange(words); break;
    default: set_field(words); break;
    }
    if (chance(50))
        fit_lcdbasel(words);
}

/* The last four kinds are of STN alone. */
void damage(uint32_t *words) {
    uint64_t swaps;
    switch (below(is_on_stn(words) ? 18 : 14)) {
    case 0: set_reserved_bit(words); break;
    case 1: change_panel(words); break;
    case 2: make_mode_wrong(words); break;
    case 3:
        swaps = 1 + below(3);
        put(words, LCD_BSWP, swaps & 1);
        put(words, LCD_HWSWP, swaps >> 1);
        break;
    case 4: make_page_odd(words); break;
    case 5: make_page_unfit(words); break;
    case 6: make_lcdbasel_differ(words); break;
    case 7: case 8: move_viewport(words); break;
    case 9: case 10: put(words, LCD_ENVID, 0); break;
    case 14: case 15: put(words, LCD_CLKVAL, below(2)); break;
    case 16: case 17: set_reserved_bit(words); break;
    default: damage_anywhere(words); break;
    }
}

