/* The calls of lcd.h in plain C: the refusals (docs/REFERENCE.md, §9), the scan (§7) and the stores of a load (§1.8), over the rules of
 * rules.h. Written from the rules alone, not from the crates, to be read and to be compared with the library (host/differential.c): each
 * condition of refusal is a function of its own. A `view` here is a viewport put into the nine words. */
#include <string.h>
#include "rules.h"

/* ---- the state of a scan (§7.1) */

/* `waiting1` and `waiting2` are LCDSADDR1 and LCDSADDR2 of the pending viewport (the waiting view). */
struct state {
    uint32_t words[MODEL_WORDS];
    uint32_t window_start;
    uint32_t waiting1, waiting2;
    uint64_t position;
};

static struct state state_of(const uint32_t *scan) {
    struct state state = {.window_start = scan[LCD_WINDOW_START], .waiting1 = scan[LCD_PENDING_LCDSADDR1],
                          .waiting2 = scan[LCD_PENDING_LCDSADDR2], .position = scan[LCD_POSITION]};
    memcpy(state.words, scan + LCD_WORDS, sizeof state.words);
    return state;
}

static void write_state(const struct state *state, uint32_t *scan) {
    memcpy(scan + LCD_WORDS, state->words, sizeof state->words);
    scan[LCD_WINDOW_START] = state->window_start;
    scan[LCD_PENDING_LCDSADDR1] = state->waiting1;
    scan[LCD_PENDING_LCDSADDR2] = state->waiting2;
    scan[LCD_POSITION] = state->position;
}

/* One clock (§7.3): the state moves on, and before clock 0 the pending viewport takes over (§7.6). */
static struct clock take_clock(struct state *state, const struct memory *memory, const uint16_t *palette) {
    if (state->position == 0) {
        state->words[LCDSADDR1] = state->waiting1;
        state->words[LCDSADDR2] = state->waiting2;
    }
    struct clock shown = clock_at(state->words, state->position);
    if (shown.vden)
        shown.colour = colour(state->words, memory, palette, shown.row, shown.column);
    state->position = (state->position + 1) % frame_clocks(state->words);
    return shown;
}

/* The four signals (§6.7): the INV bits invert the three levels, and INVVD inverts the 24 data lines, on blank clocks too. */
static void write_levels(const uint32_t *words, const struct clock *shown, uint32_t *levels) {
    levels[LCD_VSYNC] = shown->vsync != (field(words, LCD_INVVFRAME) == 1);
    levels[LCD_HSYNC] = shown->hsync != (field(words, LCD_INVVLINE) == 1);
    levels[LCD_VDEN] = shown->vden != (field(words, LCD_INVVDEN) == 1);
    levels[LCD_VD] = shown->vden ? shown->colour : 0;
    if (field(words, LCD_INVVD) == 1)
        levels[LCD_VD] = 0xffffff - levels[LCD_VD];
}

/* ---- the refusals (§9.1) */

/* 1 (§1.3, §1.7): a bit is set outside the fields; what remains of the words when all that the panel has are cleared. */
static bool a_reserved_bit_is_set(const uint32_t *words) {
    uint32_t rest[MODEL_WORDS];
    memcpy(rest, words, sizeof rest);
    for (int name = 0; name < MODEL_FIELDS; name++)
        if (has_field(words, name))
            rest[model_fields[name].word] &= ~(uint32_t)(model_limit(name) << model_fields[name].low);
    for (int i = 0; i < MODEL_WORDS; i++)
        if (rest[i] != 0)
            return true;
    return false;
}

/* The panels that a call takes (§9.3): of either kind, or of one. */
enum panels { EITHER, TFT, STN };

/* 2 (§2.2, §2.3): the call does not take the panel */
static bool panel_is_not_taken(enum panels panels, const uint32_t *words) {
    bool is_tft = field(words, LCD_PNRMODE) == 3;
    switch (panels) {
    case TFT: return !is_tft;
    case STN: return !is_stn(words);
    default: return !is_tft && !is_stn(words);
    }
}

/* 3 (§2.2, §2.3): BPPMODE is no mode of the panel */
static bool bppmode_is_outside(const uint32_t *words) {
    if (is_stn(words))
        return field(words, LCD_BPPMODE) != 0 && field(words, LCD_BPPMODE) != 2;
    return field(words, LCD_BPPMODE) < 8 || field(words, LCD_BPPMODE) > 13;
}

/* 4 (§4.4): BSWP above 8 bits, HWSWP at other than 16, or both; so on STN, at 1 and 4 bits, HWSWP */
static bool swap_bits_are_not_legal(const uint32_t *words) {
    bool bswp = field(words, LCD_BSWP) == 1, hwswp = field(words, LCD_HWSWP) == 1;
    return (bswp && stored_bits(words) > 8) || (hwswp && stored_bits(words) != 16) || (bswp && hwswp);
}

/* 5 (§3.4): PAGEWIDTH does not hold W pixels exactly, or an odd number would put a row's ends inside a word */
static bool rows_do_not_fit(const uint32_t *words) {
    return 16 * field(words, LCD_PAGEWIDTH) != width(words) * stored_bits(words) || field(words, LCD_LCDBASEU) % 2 == 1 ||
           field(words, LCD_PAGEWIDTH) % 2 == 1 || field(words, LCD_OFFSIZE) % 2 == 1;
}

/* 6 (§3.5): LCDBASEL is not where a row after the last would begin */
static bool lcdbasel_differs(const uint32_t *words) {
    uint64_t row_length = field(words, LCD_PAGEWIDTH) + field(words, LCD_OFFSIZE);
    uint64_t end = field(words, LCD_LCDBASEU) + row_length * height(words);
    return field(words, LCD_LCDBASEL) != end % ((uint64_t)1 << 21);
}

/* 7 (§3.5): the last row ends past the bank's 2^21 half-words */
static bool last_row_leaves_the_bank(const uint32_t *words) {
    uint64_t row_length = field(words, LCD_PAGEWIDTH) + field(words, LCD_OFFSIZE);
    uint64_t last_row = field(words, LCD_LCDBASEU) + (height(words) - 1) * row_length;
    return last_row + field(words, LCD_PAGEWIDTH) > (uint64_t)1 << 21;
}

/* 8 (§3.6): the window start is misaligned, or a row has a word that is not lent; the half-words of OFFSIZE belong to no row */
static bool memory_does_not_suffice(const uint32_t *words, const struct memory *memory) {
    uint64_t rows = height(words), halves = field(words, LCD_PAGEWIDTH);
    if (memory->start % 4 != 0)
        return true;
    for (uint64_t row = 0; row < rows; row++) {
        uint64_t start = row_start(words, row);
        for (uint64_t half = 0; half < halves; half += 2)
            if (!is_lent_word(memory, start + 2 * half))
                return true;
    }
    return false;
}

/* 9 (§9.3): video is off */
static bool envid_is_0(const uint32_t *words) {
    return field(words, LCD_ENVID) == 0;
}

/* 13 (§7.1, §7.5): the pending viewport or the new one has another bank than the one in force */
static bool lcdbank_differs(const uint32_t *view, const uint32_t *in_force) {
    return field(view, LCD_LCDBANK) != field(in_force, LCD_LCDBANK);
}

/* 15 (§7.1): the position lies past the frame's last clock */
static bool position_is_not_below(const struct state *state) {
    return state->position >= frame_clocks(state->words);
}

/* 17 (§9.1): an STN panel's clock is too short */
static bool clkval_is_too_low(const uint32_t *words) {
    return is_stn(words) && field(words, LCD_CLKVAL) < 2;
}

/* 27 (§9.1): there is no such rule edition, whatever the panel */
static bool edition_is_unknown(uint32_t edition) {
    return edition != 1 && edition != 2;
}

static bool applies(uint32_t number, enum panels panels, const uint32_t *words, const struct memory *memory) {
    switch (number) {
    case 1: return a_reserved_bit_is_set(words);
    case 2: return panel_is_not_taken(panels, words);
    case 3: return bppmode_is_outside(words);
    case 4: return swap_bits_are_not_legal(words);
    case 5: return rows_do_not_fit(words);
    case 6: return lcdbasel_differs(words);
    case 7: return last_row_leaves_the_bank(words);
    case 8: return memory_does_not_suffice(words, memory);
    default: return envid_is_0(words);
    }
}

/* The lowest number of 1 to `last` that applies (§9.2), over all viewports that the call judges (§9.4). */
static uint32_t lowest(uint32_t last, enum panels panels, const uint32_t *const *views, int count, const struct memory *memory) {
    for (uint32_t number = 1; number <= last; number++)
        for (int i = 0; i < count; i++)
            if (applies(number, panels, views[i], memory))
                return number;
    return 0;
}

/* The nine words with another viewport put in (§9.4). */
static void view_in(uint32_t *view, const uint32_t *words, uint32_t lcdsaddr1, uint32_t lcdsaddr2) {
    memcpy(view, words, MODEL_WORDS * sizeof *view);
    view[LCDSADDR1] = lcdsaddr1;
    view[LCDSADDR2] = lcdsaddr2;
}

/* 10 for fewer than nine words, which comes first (§9.3), then 1 to `last`. */
static uint32_t lowest_of_slice(uint32_t last, enum panels panels, const uint32_t *words, size_t words_len,
                                const struct memory *memory) {
    return words_len < MODEL_WORDS ? 10 : lowest(last, panels, &words, 1, memory);
}

/* ---- the calls on words (§9.3 has each call's order of refusals) */

uint32_t model_check(const uint32_t *words, size_t words_len, uint32_t window_start, const uint32_t *video, size_t video_len) {
    struct memory memory = {window_start, video, video_len};
    uint32_t number = lowest_of_slice(8, EITHER, words, words_len, &memory);
    return number == 0 && clkval_is_too_low(words) ? 17 : number;
}

uint32_t model_counts(const uint32_t *words, size_t words_len, uint32_t edition, uint32_t hclk, uint64_t *counts,
                      size_t counts_len) {
    uint32_t number = lowest_of_slice(7, EITHER, words, words_len, NULL);
    if (number != 0)
        return number;
    if (counts_len < 3)
        return 10;
    if (clkval_is_too_low(words))
        return 17;
    if (edition_is_unknown(edition))
        return 27;
    counts[0] = frame_clocks(words);
    counts[1] = frame_ticks(words, edition);
    counts[2] = rate(words, edition, hclk);
    return 0;
}

uint32_t model_draw_pixel(const uint32_t *words, size_t words_len, uint32_t window_start, const uint32_t *video, size_t video_len,
                          const uint16_t *palette, size_t palette_len, uint32_t row, uint32_t column, uint32_t *out,
                          size_t out_len) {
    struct memory memory = {window_start, video, video_len};
    uint32_t number = lowest_of_slice(9, TFT, words, words_len, &memory);
    if (number != 0)
        return number;
    if (palette_len != 256 || out_len < 1)
        return 10;
    if (row >= height(words) || column >= width(words))
        return 11;
    out[0] = colour(words, &memory, palette, row, column);
    return 0;
}

/* Writes W entries; further ones stay (§5.6). */
uint32_t model_draw_row(const uint32_t *words, size_t words_len, uint32_t window_start, const uint32_t *video, size_t video_len,
                        const uint16_t *palette, size_t palette_len, uint32_t row, uint32_t *out, size_t out_len) {
    struct memory memory = {window_start, video, video_len};
    uint32_t number = lowest_of_slice(9, TFT, words, words_len, &memory);
    if (number != 0)
        return number;
    if (palette_len != 256 || out_len < width(words))
        return 10;
    if (row >= height(words))
        return 11;
    for (uint64_t column = 0; column < width(words); column++)
        out[column] = colour(words, &memory, palette, row, column);
    return 0;
}

/* Writes W x H entries in reading order; further ones stay (§5.6). */
uint32_t model_draw_picture(const uint32_t *words, size_t words_len, uint32_t window_start, const uint32_t *video,
                            size_t video_len, const uint16_t *palette, size_t palette_len, uint32_t *picture,
                            size_t picture_len) {
    struct memory memory = {window_start, video, video_len};
    uint32_t number = lowest_of_slice(9, TFT, words, words_len, &memory);
    if (number != 0)
        return number;
    if (palette_len != 256 || picture_len < width(words) * height(words))
        return 10;
    for (uint64_t row = 0; row < height(words); row++)
        for (uint64_t column = 0; column < width(words); column++)
            picture[row * width(words) + column] = colour(words, &memory, palette, row, column);
    return 0;
}

/* The byte of eight pixels of a row, the leftmost in bit 7 (§5.10). */
static uint8_t eight_pixels(const uint32_t *words, const struct memory *memory, uint64_t frame, uint64_t row, uint64_t first) {
    uint8_t byte = 0;
    for (int i = 0; i < 8; i++)
        if (is_lit(words, memory, frame, row, first + i))
            byte |= 1 << (7 - i);
    return byte;
}

/* Writes W / 8 bytes a row; further ones stay (§5.10). */
uint32_t model_draw_stn(const uint32_t *words, size_t words_len, uint32_t window_start, const uint32_t *video, size_t video_len,
                        uint32_t frame, uint8_t *out, size_t out_len) {
    struct memory memory = {window_start, video, video_len};
    uint32_t number = lowest_of_slice(9, STN, words, words_len, &memory);
    if (number != 0)
        return number;
    uint64_t a_row = width(words) / 8;
    if (out_len < height(words) * a_row)
        return 10;
    if (clkval_is_too_low(words))
        return 17;
    for (uint64_t row = 0; row < height(words); row++)
        for (uint64_t i = 0; i < a_row; i++)
            out[row * a_row + i] = eight_pixels(words, &memory, frame, row, 8 * i);
    return 0;
}

/* ---- fields and sizes (§10.2, §10.3) */

/* After 10 for short words these calls judge 1 alone, then 10 for the slice that they write. */
static uint32_t refusal_of_reading(const uint32_t *words, size_t words_len, size_t len, size_t needed) {
    uint32_t number = lowest_of_slice(1, EITHER, words, words_len, NULL);
    return number == 0 && len < needed ? 10 : number;
}

/* Read-only fields are not among those read (§1.4). */
uint32_t model_read_fields(const uint32_t *words, size_t words_len, uint32_t *fields, size_t fields_len) {
    uint32_t number = refusal_of_reading(words, words_len, fields_len, LCD_FIELDS);
    if (number != 0)
        return number;
    for (int name = 0; name < LCD_FIELDS; name++)
        fields[name] = field(words, name);
    return 0;
}

/* 12 (§1.5): a number exceeds what its field's bits hold */
static bool a_field_is_too_wide(const uint32_t *fields) {
    for (int name = 0; name < LCD_FIELDS; name++)
        if (fields[name] > model_limit(name))
            return true;
    return false;
}

/* Judges widths alone; read-only bits become 0 (§1.5). */
uint32_t model_write_fields(const uint32_t *fields, size_t fields_len, uint32_t *words, size_t words_len) {
    if (fields_len < LCD_FIELDS || words_len < MODEL_WORDS)
        return 10;
    if (a_field_is_too_wide(fields))
        return 12;
    for (int i = 0; i < MODEL_WORDS; i++)
        words[i] = 0;
    for (int name = 0; name < LCD_FIELDS; name++)
        words[model_fields[name].word] |= fields[name] << model_fields[name].low;
    return 0;
}

/* A sync's or a porch's clocks or lines: one more than its field says, none on STN (§6.8). */
static uint32_t part(const uint32_t *words, int name) {
    return is_stn(words) ? 0 : field(words, name) + 1;
}

uint32_t model_read_sizes(const uint32_t *words, size_t words_len, uint32_t *sizes, size_t sizes_len) {
    uint32_t number = refusal_of_reading(words, words_len, sizes_len, LCD_SIZES);
    if (number != 0)
        return number;
    sizes[LCD_SIZE_WIDTH] = width(words);
    sizes[LCD_SIZE_HEIGHT] = height(words);
    sizes[LCD_SIZE_STORED_BITS] = stored_bits(words);
    sizes[LCD_SIZE_TICKS] = clock_ticks(words);
    sizes[LCD_SIZE_HSYNC] = part(words, LCD_HSPW);
    sizes[LCD_SIZE_HBACK] = part(words, LCD_HBPD);
    sizes[LCD_SIZE_HFRONT] = part(words, LCD_HFPD);
    sizes[LCD_SIZE_LINE] = line_length(words);
    sizes[LCD_SIZE_VSYNC] = part(words, LCD_VSPW);
    sizes[LCD_SIZE_VBACK] = part(words, LCD_VBPD);
    sizes[LCD_SIZE_VFRONT] = part(words, LCD_VFPD);
    sizes[LCD_SIZE_FRAME] = frame_height(words);
    return 0;
}

/* ---- the scan (§7, §10.4) */

/* The words' own viewport is both in force and pending; the position is 0 (§7.2). */
uint32_t model_start(const uint32_t *words, size_t words_len, uint32_t window_start, const uint32_t *video, size_t video_len,
                     uint32_t *scan, size_t scan_len) {
    struct memory memory = {window_start, video, video_len};
    uint32_t number = lowest_of_slice(9, TFT, words, words_len, &memory);
    if (number != 0)
        return number;
    if (scan_len < LCD_SCAN_ENTRIES)
        return 10;
    struct state state = {.window_start = window_start, .waiting1 = words[LCDSADDR1], .waiting2 = words[LCDSADDR2]};
    state.position = 0;
    memcpy(state.words, words, sizeof state.words);
    write_state(&state, scan);
    return 0;
}

/* 1 to 9 over the viewport in force and the pending one (§9.4). */
static uint32_t lowest_of_state(const struct state *state, const struct memory *memory) {
    uint32_t waiting[MODEL_WORDS];
    const uint32_t *views[2] = {state->words, waiting};
    view_in(waiting, state->words, state->waiting1, state->waiting2);
    return lowest(9, TFT, views, 2, memory);
}

/* 13 and 15 of a state; a step or run judges 10 before them (§9.3). */
static uint32_t last_refusals_of_state(const struct state *state) {
    uint32_t waiting[MODEL_WORDS];
    view_in(waiting, state->words, state->waiting1, state->waiting2);
    if (lcdbank_differs(waiting, state->words))
        return 13;
    return position_is_not_below(state) ? 15 : 0;
}

uint32_t model_step(uint32_t *scan, size_t scan_len, const uint32_t *video, size_t video_len, const uint16_t *palette,
                    size_t palette_len, uint32_t *clock, size_t clock_len) {
    if (scan_len < LCD_SCAN_ENTRIES)
        return 10;
    struct state state = state_of(scan);
    struct memory memory = {state.window_start, video, video_len};
    uint32_t number = lowest_of_state(&state, &memory);
    if (number != 0)
        return number;
    if (palette_len != 256 || clock_len < LCD_CLOCK_ENTRIES)
        return 10;
    number = last_refusals_of_state(&state);
    if (number != 0)
        return number;
    struct clock shown = take_clock(&state, &memory, palette);
    write_state(&state, scan);
    write_levels(state.words, &shown, clock);
    return 0;
}

/* A run (§7.4) is that many steps, to the end of the frame at most. Each pixel scanned goes to its entry of the picture; blank clocks
 * write nothing. */
static uint64_t take_clocks(struct state *state, const struct memory *memory, const uint16_t *palette, uint64_t clocks,
                            uint32_t *picture) {
    uint64_t left = frame_clocks(state->words) - state->position;
    uint64_t number = clocks < left ? clocks : left;
    for (uint64_t taken = 0; taken < number; taken++) {
        struct clock shown = take_clock(state, memory, palette);
        if (shown.vden)
            picture[shown.row * width(state->words) + shown.column] = shown.colour;
    }
    return number;
}

uint32_t model_run(uint32_t *scan, size_t scan_len, const uint32_t *video, size_t video_len, const uint16_t *palette,
                   size_t palette_len, uint64_t clocks, uint32_t *picture, size_t picture_len, uint32_t *taken, size_t taken_len) {
    if (scan_len < LCD_SCAN_ENTRIES)
        return 10;
    struct state state = state_of(scan);
    struct memory memory = {state.window_start, video, video_len};
    uint32_t number = lowest_of_state(&state, &memory);
    if (number != 0)
        return number;
    if (palette_len != 256 || picture_len < width(state.words) * height(state.words) || taken_len < 1)
        return 10;
    number = last_refusals_of_state(&state);
    if (number != 0)
        return number;
    taken[0] = take_clocks(&state, &memory, palette, clocks, picture);
    write_state(&state, scan);
    return 0;
}

/* Judges three viewports: the one in force, the pending one and the new one, which becomes the pending one (§7.5). */
uint32_t model_change_viewport(uint32_t *scan, size_t scan_len, const uint32_t *video, size_t video_len, uint32_t lcdsaddr1,
                               uint32_t lcdsaddr2) {
    if (scan_len < LCD_SCAN_ENTRIES)
        return 10;
    struct state state = state_of(scan);
    struct memory memory = {state.window_start, video, video_len};
    uint32_t waiting[MODEL_WORDS], new_view[MODEL_WORDS];
    const uint32_t *views[3] = {state.words, waiting, new_view};
    view_in(waiting, state.words, state.waiting1, state.waiting2);
    view_in(new_view, state.words, lcdsaddr1, lcdsaddr2);
    uint32_t number = lowest(9, TFT, views, 3, &memory);
    if (number != 0)
        return number;
    if (lcdbank_differs(waiting, state.words) || lcdbank_differs(new_view, state.words))
        return 13;
    if (position_is_not_below(&state))
        return 15;
    state.waiting1 = lcdsaddr1;
    state.waiting2 = lcdsaddr2;
    write_state(&state, scan);
    return 0;
}

/* ---- loading new settings (§1.8) */

/* What an entry is after so many stores. The first nine set entries 0 to 8, one each: entry 0 with ENVID 0, and only the tenth sets it as
 * wanted. */
static uint32_t entry_after(uint32_t stores, uint32_t entry, uint32_t old, uint32_t wanted) {
    if (stores <= entry)
        return old;
    return entry == LCDCON1 && stores < 10 ? wanted - wanted % 2 : wanted;
}

/* The new words are judged as a check judges them, at any cut; the old ones are not. */
uint32_t model_load(uint32_t *stored, size_t stored_len, const uint32_t *words, size_t words_len, uint32_t window_start,
                    const uint32_t *video, size_t video_len, uint32_t cut) {
    if (stored_len < MODEL_WORDS || words_len < MODEL_WORDS)
        return 10;
    uint32_t number = model_check(words, words_len, window_start, video, video_len);
    if (number != 0)
        return number;
    for (int i = 0; i < MODEL_WORDS; i++)
        stored[i] = entry_after(cut, i, stored[i], words[i]);
    return 0;
}
