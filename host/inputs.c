/* Inputs for the comparison of host/differential.c: a row of `kinds` for each kind of argument. See inputs.h. */
#include <string.h>
#include "chance.h"
#include "inputs.h"
#include "model.h"
#include "words.h"

enum { LCDSADDR1 = 5, LCDSADDR2 = 6 };

/* Damaged words may need more memory, or a larger picture, than is worth lending. */
enum { WORTH = 50000, NOT_LARGE = 5000 };

/* Of 100 panels, those of STN. */
enum { STN_PANELS = 50 };

/* ---- lengths */

/* A length where so many entries are needed: mostly exactly that, else one less, fewer, one more, or more. */
static size_t some_length(size_t needed) {
    switch (below(16)) {
    case 0: return needed - (needed > 0);
    case 1: return below(needed + 1);
    case 2: return needed + 1;
    case 3: return needed + 1 + below(16);
    default: return needed;
    }
}

/* A list of calls is not about short slices. */
static void lend_entries(struct inputs *in, enum kind kind, size_t needed, size_t bytes) {
    lend(&in->slices[kind], in->in_list ? needed + below(3) : some_length(needed), bytes);
}

/* ---- memory */

/* Words of memory from the first row's start to the last row's end. */
static uint64_t span_of(const uint32_t *words) {
    return (get(words, LCD_LCDBASEU) % 2 + extent(words) + 1) / 2;
}

static uint64_t first_word_of(const uint32_t *words) {
    return (get(words, LCD_LCDBANK) << 20) + get(words, LCD_LCDBASEU) / 2;
}

/* Words lent beside those needed: none, few, or enough for another viewport. */
static uint64_t some_margin(uint64_t span, bool wide) {
    uint64_t kind = below(4);
    if (wide || (kind == 0 && span < NOT_LARGE))
        return span + below(4);
    return kind == 1 ? 0 : below(8);
}

/* Changes the window so that 8 applies: a word short, a word late, misaligned with all words in it, no memory, elsewhere; or at
 * the end of the 32-bit addresses, where the rows at address 0 would follow if addresses wrapped. */
static void damage_window(uint32_t *words, uint64_t span, uint64_t before, uint32_t *start, uint64_t *len) {
    uint64_t short_of_0 = 1 + below(8);
    switch (below(6)) {
    case 0: *len = before + span - (span > 0); break;
    case 1:
        *start += 4 * (before + 1);
        *len -= before;
        break;
    case 2:
        *start += 1 + below(3);
        *len += 1;
        break;
    case 3: *len = 0; break;
    case 4: *start = random64(); break;
    default:
        put(words, LCD_LCDBANK, 0);
        put(words, LCD_LCDBASEU, 0);
        fit_lcdbasel(words);
        *start = 0 - (uint32_t)(4 * short_of_0);
        *len = short_of_0 + span;
        break;
    }
}

/* Lends memory that just covers the rows, begins earlier, ends later, or does not suffice. At a bank's border another viewport may
 * fit on its other side; in a list of calls several do anyway. */
static void lend_window(struct inputs *in) {
    uint32_t *words = in->state;
    uint64_t span = span_of(words);
    if (!in->sound && span > WORTH)
        span = below(64);
    bool at_end = get(words, LCD_LCDBASEU) + extent(words) == BANK, at_begin = get(words, LCD_LCDBASEU) == 0;
    uint64_t before = some_margin(span, in->in_list || (at_begin && span < NOT_LARGE && chance(50)));
    uint64_t after = some_margin(span, in->in_list || (at_end && span < NOT_LARGE && chance(50)));
    before = smaller(before, first_word_of(words));
    uint32_t start = 4 * (first_word_of(words) - before);
    uint64_t len = before + span + after;
    if (!in->in_list && chance(15))
        damage_window(words, span, before, &start, &len);
    in->numbers[WINDOW_START] = start;
    lend(&in->slices[VIDEO], len, sizeof(uint32_t));
}

/* ---- viewports */

/* The viewport whose first row begins at this address. */
static void view_at(const uint32_t *words, uint64_t address, uint32_t *view) {
    uint32_t moved[LCD_REGISTERS];
    memcpy(moved, words, sizeof moved);
    put(moved, LCD_LCDBANK, address >> 22);
    put(moved, LCD_LCDBASEU, address / 2);
    fit_lcdbasel(moved);
    view[0] = moved[LCDSADDR1];
    view[1] = moved[LCDSADDR2];
}

/* A viewport in the next bank or in the one before, on the side of the border that is lent. */
static void view_across(const struct inputs *in, uint32_t *view) {
    const uint32_t *words = in->state;
    uint64_t bank = get(words, LCD_LCDBANK) << 22, bytes = 4 * span_of(words);
    if (bank >= in->numbers[WINDOW_START] + bytes)
        view_at(words, bank - bytes, view);
    else
        view_at(words, bank + 2 * BANK + 4 * below(2), view);
}

/* A viewport for the panel: that in force, another in the lent memory, or one that draws 1, 5, 6, 7, 8 or 13. */
static void some_view(const struct inputs *in, uint32_t *view) {
    const uint32_t *words = in->state;
    uint64_t bank = get(words, LCD_LCDBANK) << 22, start = in->numbers[WINDOW_START], span = span_of(words);
    uint64_t len = in->slices[VIDEO].len, places = len > span ? len - span + 1 : 1, place = start + 4 * below(places);
    view[0] = words[LCDSADDR1];
    view[1] = words[LCDSADDR2];
    switch (below(20)) {
    case 0: case 1: case 2: case 3: case 4: break;
    case 5: view_at(words, start + 4 * places, view); break;
    case 6: view_at(words, start - 4, view); break;
    case 7: view_at(words, place + 2, view); break;
    case 8: view_at(words, bank + 2 * (BANK - extent(words)), view); break;
    case 9: view_at(words, bank + 2 * (BANK - extent(words)) + 4, view); break;
    case 10: flip_bit(view, 2); break;
    case 11: view[0] ^= 1u << (21 + below(9)); break;
    case 12: case 13: case 14: view_across(in, view); break;
    default: view_at(words, place, view); break;
    }
}

/* ---- clocks */

/* Where the parts of a line's clocks begin and end, or of a frame's lines: sync, back porch, active, front porch. */
static void boundaries(const uint32_t *words, bool lines, uint64_t *at) {
    static const int parts[2][4] = {{LCD_HSPW, LCD_HBPD, LCD_HOZVAL, LCD_HFPD}, {LCD_VSPW, LCD_VBPD, LCD_LINEVAL, LCD_VFPD}};
    at[0] = 0;
    for (int i = 0; i < 4; i++)
        at[i + 1] = at[i] + get(words, parts[lines][i]) + 1;
}

static uint64_t frame_of(const uint32_t *words) {
    uint64_t clocks[5], lines[5];
    boundaries(words, false, clocks);
    boundaries(words, true, lines);
    return lines[4] * clocks[4];
}

/* A position: at a boundary of line and frame parts, just before or after it, at the frame's ends, past it, or any. */
static uint32_t some_position(const uint32_t *words) {
    uint64_t clocks[5], lines[5], frame = frame_of(words);
    boundaries(words, false, clocks);
    boundaries(words, true, lines);
    uint64_t at = lines[below(5)] * clocks[4];
    at += clocks[below(5)];
    switch (below(16)) {
    case 0: case 1: case 2: return 0;
    case 3: return frame - 1;
    case 4: return frame + below(2);
    case 5: return random64();
    case 6: case 7: case 8: case 9: return below(frame);
    case 10: return at;
    default: return (at + below(3) + frame - 1) % frame;
    }
}

/* How many clocks a run shall take: none, one, those left, one more or less, or any number. */
static uint64_t some_clocks(const uint32_t *words, uint64_t position) {
    uint64_t frame = frame_of(words), left = position < frame ? frame - position : 1;
    switch (below(10)) {
    case 0: return 0;
    case 1: return 1;
    case 2: return left;
    case 3: return left - 1;
    case 4: return left + 1;
    case 5: return UINT64_MAX;
    case 6: return ((uint64_t)1 << 32) + below(left);
    default: return below(left);
    }
}

/* ---- panels */

static void make_panel(uint32_t *words, enum size size) {
    make_words(words, chance(STN_PANELS) ? ON_STN : ON_TFT, size);
}

static uint64_t rows_of(const uint32_t *words) {
    return get(words, LCD_LINEVAL) + 1;
}

/* ---- slices of a call */

/* A slice that begins with these entries, as far as it has them. */
static void lend_filled(struct inputs *in, enum kind kind, const uint32_t *entries, size_t n) {
    lend_entries(in, kind, n, sizeof *entries);
    set_entries(&in->slices[kind], entries, n);
}

static void lend_words(struct inputs *in, enum kind kind) {
    uint32_t words[LCD_REGISTERS];
    memcpy(words, in->state, sizeof words);
    if (kind == TIMED_WORDS && chance(20))
        make_panel(words, chance(20) ? LARGEST : LARGE);
    if (kind == ANY_WORDS && chance(70)) {
        make_any_words(words);
        if (chance(40))
            set_reserved_bit(words);
    }
    lend_filled(in, kind, words, LCD_REGISTERS);
}

static void lend_palette(struct inputs *in, enum kind kind) {
    static const size_t wrong[] = {LCD_PALETTE_ENTRIES - 1, LCD_PALETTE_ENTRIES + 1, 0, 2 * LCD_PALETTE_ENTRIES};
    bool right = in->in_list || chance(90);
    lend(&in->slices[kind], right ? LCD_PALETTE_ENTRIES : wrong[below(4)], sizeof(uint16_t));
}

/* Fields to write: in range, at their limits, and one or all of them too wide. */
static void lend_fields(struct inputs *in, enum kind kind) {
    uint32_t fields[LCD_FIELDS];
    uint64_t way = below(8), one = below(LCD_FIELDS);
    for (int name = 0; name < LCD_FIELDS; name++)
        fields[name] = way == 0 ? random64() : way == 1 ? model_limit(name) : below(model_limit(name) + 1);
    if (way >= 5)
        fields[one] = model_limit(one) + 1;
    if (way == 7)
        fields[one] |= chance(50) ? UINT32_MAX : (uint32_t)1 << 31;
    if (way == 4)
        fields[one] = model_limit(one);
    lend_filled(in, kind, fields, LCD_FIELDS);
}

/* A scan that is handed in: its words, window start, pending viewport and position. */
static void lend_scan(struct inputs *in, enum kind kind) {
    in->state[LCD_WINDOW_START] = in->numbers[WINDOW_START];
    some_view(in, in->state + LCD_PENDING_LCDSADDR1);
    in->state[LCD_POSITION] = some_position(in->state);
    lend_filled(in, kind, in->state, LCD_SCAN_ENTRIES);
}

static void lend_row(struct inputs *in, enum kind kind) {
    lend_entries(in, kind, columns_of(in->state), sizeof(uint32_t));
}

/* A picture in colours; of STN words none is drawn. */
static void lend_picture(struct inputs *in, enum kind kind) {
    uint64_t pixels = columns_of(in->state) * rows_of(in->state);
    bool drawn = in->sound && !is_on_stn(in->state);
    lend_entries(in, kind, drawn || pixels < WORTH ? pixels : below(100), sizeof(uint32_t));
}

/* The bytes of an STN drawing: mostly as many as it needs, also none, and far more. */
static void lend_bytes(struct inputs *in, enum kind kind) {
    uint64_t needed = columns_of(in->state) / 8 * rows_of(in->state), way = below(16);
    if (!in->sound && needed > WORTH)
        needed = below(100);
    if (way < 2)
        lend(&in->slices[kind], way == 0 ? 0 : 2 * needed + 1000, sizeof(uint8_t));
    else
        lend_entries(in, kind, needed, sizeof(uint8_t));
}

/* What a load finds: all bits 0 or all 1, the new words, another panel's words with some of the new before them as a cut left them,
 * another panel's alone, or any numbers. */
static void lend_stored(struct inputs *in, enum kind kind) {
    uint32_t stored[LCD_REGISTERS];
    uint64_t way = below(8), loaded = 1 + below(LCD_REGISTERS);
    make_panel(stored, MOSTLY_SMALL);
    switch (way) {
    case 0: memset(stored, 0, sizeof stored); break;
    case 1: memset(stored, 0xff, sizeof stored); break;
    case 2: memcpy(stored, in->state, sizeof stored); break;
    case 3: case 4:
        memcpy(stored, in->state, loaded * sizeof *stored);
        put(stored, LCD_ENVID, 0);
        break;
    default: break;
    }
    lend_entries(in, kind, LCD_REGISTERS, sizeof *stored);
    if (way < 7)
        set_entries(&in->slices[kind], stored, LCD_REGISTERS);
}

/* ---- numbers */

/* A row or a column: in the panel, its last one, one past it, or far outside. */
static uint32_t some_index(uint64_t count) {
    switch (below(10)) {
    case 0: return count;
    case 1: return count - 1;
    case 2: return chance(50) ? UINT32_MAX : random64();
    default: return below(count);
    }
}

static void pick_row(struct inputs *in, enum kind kind) {
    in->numbers[kind] = some_index(rows_of(in->state));
}

static void pick_column(struct inputs *in, enum kind kind) {
    in->numbers[kind] = some_index(columns_of(in->state));
}

/* A frame: one of the first, any, or one of the last: with some rows and columns added, past 32 bits. */
static void pick_frame(struct inputs *in, enum kind kind) {
    uint64_t way = below(8);
    if (way < 3)
        in->numbers[kind] = way < 2 ? way : below(500);
    else if (way < 6)
        in->numbers[kind] = UINT32_MAX - (way == 3 ? 0 : below(rows_of(in->state) + columns_of(in->state)));
    else
        in->numbers[kind] = (uint32_t)random64();
}

/* A rule edition: mostly 1 or 2; else a number beside them, one of them with a higher bit set too, or any. */
static void pick_edition(struct inputs *in, enum kind kind) {
    static const uint32_t beside[] = {0, 3, UINT32_MAX};
    uint64_t way = below(16), edition = 1 + below(2), higher_bit = (uint64_t)1 << (2 + below(30));
    if (way < 10)
        in->numbers[kind] = edition;
    else if (way < 13)
        in->numbers[kind] = beside[way - 10];
    else
        in->numbers[kind] = way < 15 ? edition + higher_bit : (uint32_t)random64();
}

static void pick_hclk(struct inputs *in, enum kind kind) {
    static const uint32_t typical[] = {0, 1, UINT32_MAX, 100000000, 60000000, 50000000};
    uint64_t way = below(8);
    in->numbers[kind] = way < 6 ? typical[way] : (uint32_t)random64();
}

static void pick_clocks(struct inputs *in, enum kind kind) {
    bool few = in->in_list && chance(50);
    in->numbers[kind] = few ? below(40) : some_clocks(in->state, in->state[LCD_POSITION]);
}

/* After how many stores a load is cut: mostly 0 to all of them; else one more, the most, one of these with a higher bit set too, or any. */
static void pick_cut(struct inputs *in, enum kind kind) {
    uint64_t way = below(16), cut = below(LCD_STORES + 1), higher_bit = (uint64_t)1 << (4 + below(28));
    if (way < 10)
        in->numbers[kind] = cut;
    else if (way < 12)
        in->numbers[kind] = way == 10 ? LCD_STORES + 1 : UINT32_MAX;
    else
        in->numbers[kind] = way < 15 ? cut + higher_bit : (uint32_t)random64();
}

/* Both words of a new viewport. */
static void pick_view(struct inputs *in, enum kind kind) {
    uint32_t view[2];
    some_view(in, view);
    in->numbers[kind] = view[0];
    in->numbers[kind + 1] = view[1];
}

/* ---- the kinds */

/* A kind's name, and how it is made; of a slice that is only filled by chance, how many entries its call needs, and their bytes.
 * Memory and window start are made where a case begins, LCDSADDR2 with LCDSADDR1. */
static const struct {
    const char *name;
    void (*make)(struct inputs *, enum kind);
    size_t entries, bytes;
} kinds[KINDS] = {
    [WORDS] = {.name = "words", .make = lend_words},
    [TIMED_WORDS] = {.name = "words", .make = lend_words},
    [ANY_WORDS] = {.name = "words", .make = lend_words},
    [VIDEO] = {.name = "video"},
    [PALETTE] = {.name = "palette", .make = lend_palette},
    [FIELDS] = {.name = "fields", .make = lend_fields},
    [SCAN] = {.name = "scan", .make = lend_scan},
    [NEW_SCAN] = {.name = "scan", .entries = LCD_SCAN_ENTRIES, .bytes = 4},
    [CLOCK] = {.name = "clock", .entries = LCD_CLOCK_ENTRIES, .bytes = 4},
    [TAKEN] = {.name = "taken", .entries = 1, .bytes = 4},
    [COUNTS] = {.name = "counts", .entries = 3, .bytes = 8},
    [PIXEL_COLOUR] = {.name = "out", .entries = 1, .bytes = 4},
    [ROW_COLOURS] = {.name = "out", .make = lend_row},
    [PICTURE] = {.name = "picture", .make = lend_picture},
    [LIT_BYTES] = {.name = "out", .make = lend_bytes},
    [FIELDS_READ] = {.name = "fields", .entries = LCD_FIELDS, .bytes = 4},
    [WORDS_WRITTEN] = {.name = "words", .entries = LCD_REGISTERS, .bytes = 4},
    [SIZES] = {.name = "sizes", .entries = LCD_SIZES, .bytes = 4},
    [STORED] = {.name = "stored", .make = lend_stored},
    [WINDOW_START] = {.name = "window_start"},
    [EDITION] = {.name = "edition", .make = pick_edition},
    [HCLK] = {.name = "hclk", .make = pick_hclk},
    [ROW] = {.name = "row", .make = pick_row},
    [COLUMN] = {.name = "column", .make = pick_column},
    [FRAME] = {.name = "frame", .make = pick_frame},
    [CLOCKS] = {.name = "clocks", .make = pick_clocks},
    [NEW_LCDSADDR1] = {.name = "lcdsaddr1", .make = pick_view},
    [NEW_LCDSADDR2] = {.name = "lcdsaddr2"},
    [CUT] = {.name = "cut", .make = pick_cut},
};

const char *kind_name(enum kind kind) {
    return kinds[kind].name;
}

bool is_slice(enum kind kind) {
    return kind < NUMBERS;
}

void supply(struct inputs *in, enum kind kind) {
    if (is_slice(kind) && is_lent(&in->slices[kind]))
        return;
    if (kinds[kind].bytes > 0)
        lend_entries(in, kind, kinds[kind].entries, kinds[kind].bytes);
    else if (kinds[kind].make != NULL)
        kinds[kind].make(in, kind);
}

/* ---- cases */

void begin_single_calls(struct inputs *in) {
    uint64_t way = below(100);
    int faults = way < 50 ? 0 : way < 82 ? 1 : way < 97 ? 2 : 3;
    memset(in, 0, sizeof *in);
    in->sound = faults == 0;
    make_panel(in->state, some_size());
    for (int i = 0; i < faults; i++)
        damage(in->state);
    lend_window(in);
}

void begin_list(struct inputs *in) {
    memset(in, 0, sizeof *in);
    in->sound = in->in_list = true;
    make_words(in->state, ON_TFT, SMALL);
    lend_window(in);
}

/* Words, memory and palette stay for all calls of a case. */
void end_call(struct inputs *in) {
    for (enum kind kind = 0; kind < NUMBERS; kind++)
        if (kind != WORDS && kind != VIDEO && kind != PALETTE)
            take_back(&in->slices[kind]);
}

void end_case(struct inputs *in) {
    for (enum kind kind = 0; kind < KINDS; kind++)
        take_back(&in->slices[kind]);
}

void go_on_with_scan(struct inputs *in) {
    in->slices[SCAN] = in->slices[NEW_SCAN];
    memset(&in->slices[NEW_SCAN], 0, sizeof in->slices[NEW_SCAN]);
}

void begin_call_of_list(struct inputs *in) {
    uint32_t lent[LCD_SCAN_ENTRIES];
    memcpy(in->state, in->slices[SCAN].before, sizeof in->state);
    memcpy(lent, in->state, sizeof lent);
    if (chance(3))
        prefill(&in->slices[VIDEO]);
    in->harmed = chance(4);
    if (in->harmed && chance(10))
        put(lent, LCD_PNRMODE, ON_STN);
    else if (in->harmed)
        flip_bit(lent, LCD_SCAN_ENTRIES);
    set_entries(&in->slices[SCAN], lent, LCD_SCAN_ENTRIES);
}

void end_call_of_list(struct inputs *in) {
    if (in->harmed && chance(90))
        set_entries(&in->slices[SCAN], in->state, LCD_SCAN_ENTRIES);
}
