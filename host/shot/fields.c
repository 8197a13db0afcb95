/* The registers and their fields. The names and the words for their numbers are the tool's; where a field lies, which bits are reserved,
 * the numbers and the panel's sizes are asked of the library. */
#include "fields.h"
#include <inttypes.h>
#include <stdio.h>
#include <string.h>

const char *const register_names[LCD_REGISTERS] = {"LCDCON1",   "LCDCON2",   "LCDCON3",   "LCDCON4", "LCDCON5",
                                                   "LCDSADDR1", "LCDSADDR2", "LCDSADDR3", "TPAL"};

/* ---- names: a field's number is a size of the panel with its unit, or has a sentence of its own, or a text by `special_meaning`; on
 * STN it may have another, by `stn_meaning` */

struct field_text {
    const char *name;
    int size;                /* of lcd_size, or -1 */
    const char *one, *more;  /* the size's unit, for 1 and for more */
    const char *number[4];
};

static const struct field_text texts[LCD_FIELDS] = {
    [LCD_CLKVAL] = {"CLKVAL", -1, NULL, NULL, {0}},
    [LCD_MMODE] = {"MMODE", -1, NULL, NULL, {"VM toggles each frame (STN only)", "VM toggles by MVAL (STN only)"}},
    [LCD_PNRMODE] = {"PNRMODE", -1, NULL, NULL,
                     {"STN, 4-bit dual scan", "STN, 4-bit single scan", "STN, 8-bit single scan", "TFT"}},
    [LCD_BPPMODE] = {"BPPMODE", -1, NULL, NULL, {0}},
    [LCD_ENVID] = {"ENVID", -1, NULL, NULL, {"video off", "video on"}},
    [LCD_VBPD] = {"VBPD", LCD_SIZE_VBACK, "line of back porch", "lines of back porch", {0}},
    [LCD_LINEVAL] = {"LINEVAL", LCD_SIZE_HEIGHT, "row, the height", "rows, the height", {0}},
    [LCD_VFPD] = {"VFPD", LCD_SIZE_VFRONT, "line of front porch", "lines of front porch", {0}},
    [LCD_VSPW] = {"VSPW", LCD_SIZE_VSYNC, "line of VSYNC", "lines of VSYNC", {0}},
    [LCD_HBPD] = {"HBPD", LCD_SIZE_HBACK, "clock of back porch", "clocks of back porch", {0}},
    [LCD_HOZVAL] = {"HOZVAL", LCD_SIZE_WIDTH, "pixel a row, the width", "pixels a row, the width", {0}},
    [LCD_HFPD] = {"HFPD", LCD_SIZE_HFRONT, "clock of front porch", "clocks of front porch", {0}},
    [LCD_MVAL] = {"MVAL", -1, NULL, NULL, {0}},
    [LCD_HSPW] = {"HSPW", LCD_SIZE_HSYNC, "clock of HSYNC", "clocks of HSYNC", {0}},
    [LCD_BPP24BL] = {"BPP24BL", -1, NULL, NULL,
                     {"24 bits lie in bits 23..0 of the word", "24 bits lie in bits 31..8 of the word"}},
    [LCD_FRM565] = {"FRM565", -1, NULL, NULL, {"16 bits are 5:5:5:1", "16 bits are 5:6:5"}},
    [LCD_INVVCLK] = {"INVVCLK", -1, NULL, NULL, {"data taken at VCLK's falling edge", "data taken at VCLK's rising edge"}},
    [LCD_INVVLINE] = {"INVVLINE", -1, NULL, NULL, {"HSYNC is 1 when active", "HSYNC is 0 when active"}},
    [LCD_INVVFRAME] = {"INVVFRAME", -1, NULL, NULL, {"VSYNC is 1 when active", "VSYNC is 0 when active"}},
    [LCD_INVVD] = {"INVVD", -1, NULL, NULL, {"data lines as they are", "data lines complemented"}},
    [LCD_INVVDEN] = {"INVVDEN", -1, NULL, NULL, {"VDEN is 1 when active", "VDEN is 0 when active"}},
    [LCD_INVPWREN] = {"INVPWREN", -1, NULL, NULL, {"LCD_PWREN as it is", "LCD_PWREN inverted"}},
    [LCD_INVLEND] = {"INVLEND", -1, NULL, NULL, {"LEND as it is", "LEND inverted"}},
    [LCD_PWREN] = {"PWREN", -1, NULL, NULL, {"LCD_PWREN off", "LCD_PWREN on"}},
    [LCD_ENLEND] = {"ENLEND", -1, NULL, NULL, {"LEND off", "LEND on"}},
    [LCD_BSWP] = {"BSWP", -1, NULL, NULL, {"bytes in their order", "the four bytes of a word reversed"}},
    [LCD_HWSWP] = {"HWSWP", -1, NULL, NULL, {"half-words in their order", "the halves of a word exchanged"}},
    [LCD_LCDBANK] = {"LCDBANK", -1, NULL, NULL, {0}},
    [LCD_LCDBASEU] = {"LCDBASEU", -1, NULL, NULL, {0}},
    [LCD_LCDBASEL] = {"LCDBASEL", -1, NULL, NULL, {0}},
    [LCD_OFFSIZE] = {"OFFSIZE", -1, NULL, NULL, {0}},
    [LCD_PAGEWIDTH] = {"PAGEWIDTH", -1, NULL, NULL, {0}},
    [LCD_TPALEN] = {"TPALEN", -1, NULL, NULL, {"temporary palette off", "temporary palette on: one colour everywhere"}},
    [LCD_TPALVAL] = {"TPALVAL", -1, NULL, NULL, {0}},
};

const char *field_name(int field) { return texts[field].name; }

const char *stn_field_name(int field) {
    switch (field) {
    case LCD_WDLY: return "WDLY";
    case LCD_LINEBLANK: return "LINEBLANK";
    case LCD_WLH: return "WLH";
    default: return texts[field].name;
    }
}

/* The read-only fields, in the order of the words and from the highest bits down, with their widths: the library tells no more than
 * that reading ignores their bits. */
static const struct {
    const char *name;
    int width;
} read_only[] = {{"LINECNT", 10}, {"VSTATUS", 2}, {"HSTATUS", 2}};

/* ---- the layout */

/* The field that a bit of plain words changes. */
static int owner_of(const uint32_t *plain, int word, int bit) {
    uint32_t words[LCD_REGISTERS], before[LCD_FIELDS], after[LCD_FIELDS];
    memcpy(words, plain, sizeof words);
    words[word] ^= (uint32_t)1 << bit;
    lcd_read_fields(plain, LCD_REGISTERS, before, LCD_FIELDS);
    if (lcd_read_fields(words, LCD_REGISTERS, after, LCD_FIELDS))
        return RESERVED;
    for (int f = 0; f < LCD_FIELDS; f++)
        if (before[f] != after[f])
            return f;
    return READ_ONLY;
}

static void add_part(struct layout *l, int word, int high, int low, int field, const char *name) {
    l->parts[word][l->count[word]++] = (struct part){high, low, field, name};
    if (field == RESERVED)
        l->reserved[word] |= (uint32_t)(((uint64_t)2 << high) - ((uint64_t)1 << low));
    if (field < 0)
        return;
    l->word[field] = word;
    l->low[field] = low;
    l->most[field] = ((uint64_t)2 << (high - low)) - 1;
}

/* A stretch of read-only bits: its fields come from `read_only`, from number `next` on. Returns the next number. */
static int add_read_only(struct layout *l, int word, int high, int low, int next) {
    while (high >= low) {
        int end = high - read_only[next].width + 1;
        add_part(l, word, high, end, READ_ONLY, read_only[next].name);
        high = end - 1;
        next++;
    }
    return next;
}

static int ask_word(struct layout *l, const uint32_t *plain, int word, int next_read_only) {
    for (int high = WORD_BITS - 1, low; high >= 0; high = low - 1) {
        int owner = owner_of(plain, word, high);
        for (low = high; low > 0 && owner_of(plain, word, low - 1) == owner; low--)
            ;
        if (owner == READ_ONLY)
            next_read_only = add_read_only(l, word, high, low, next_read_only);
        else
            add_part(l, word, high, low, owner, owner < 0 ? NULL : l->stn ? stn_field_name(owner) : field_name(owner));
    }
    return next_read_only;
}

/* Asks for the layout of a panel, once. */
static const struct layout *ask_layout(struct layout *l, bool stn) {
    uint32_t fields[LCD_FIELDS] = {[LCD_PNRMODE] = stn ? PANEL_STN : PANEL_TFT}, plain[LCD_REGISTERS] = {0};
    int next_read_only = 0;
    if (l->count[LCD_REGISTERS - 1])
        return l;
    l->stn = stn;
    lcd_write_fields(fields, LCD_FIELDS, plain, LCD_REGISTERS);
    for (int word = 0; word < LCD_REGISTERS; word++)
        next_read_only = ask_word(l, plain, word, next_read_only);
    return l;
}

const struct layout *layout_asked(void) {
    static struct layout tft;
    return ask_layout(&tft, false);
}

const struct layout *layout_of(const uint32_t *words) {
    static struct layout stn;
    return is_stn(words) ? ask_layout(&stn, true) : layout_asked();
}

bool is_stn(const uint32_t *words) {
    const struct layout *l = layout_asked();
    return (words[l->word[LCD_PNRMODE]] >> l->low[LCD_PNRMODE] & l->most[LCD_PNRMODE]) == PANEL_STN;
}

uint32_t part_number(const struct part *p, uint32_t word) {
    return word >> p->low & (uint32_t)(((uint64_t)2 << (p->high - p->low)) - 1);
}

void put_field(uint32_t *words, int field, uint32_t number) {
    const struct layout *l = layout_asked();
    uint32_t *word = &words[l->word[field]];
    *word = (*word & ~(l->most[field] << l->low[field])) | number << l->low[field];
}

void words_cleared(const uint32_t *words, uint32_t *cleared) {
    const struct layout *l = layout_of(words);
    for (int word = 0; word < LCD_REGISTERS; word++)
        cleared[word] = words[word] & ~l->reserved[word];
}

/* ---- numbers and meanings */

void readings_ask(struct readings *r, const struct dump *d) {
    uint32_t words[LCD_REGISTERS];
    r->dump = d;
    words_cleared(d->words, words);
    lcd_read_fields(words, LCD_REGISTERS, r->fields, LCD_FIELDS);
    lcd_read_sizes(words, LCD_REGISTERS, r->sizes, LCD_SIZES);
}

uint64_t millihertz_of(uint32_t hclk, uint64_t ticks) { return (uint64_t)hclk * 1000 / ticks; }

/* A number of thousandths of the third unit, in the largest of three that it has one of; each is a thousand of the next. */
static void scaled_text(uint64_t number, const char *const *units, char *to) {
    uint64_t one = 1000000000;
    int k = 0;
    for (; k < 2 && number < one; k++)
        one /= 1000;
    snprintf(to, MEANING, "%" PRIu64 ".%03" PRIu64 " %s", number / one, number % one / (one / 1000), units[k]);
}

void rate_text(uint64_t millihertz, char *to) {
    static const char *const units[] = {"MHz", "kHz", "Hz"};
    scaled_text(millihertz, units, to);
}

void time_text(uint64_t nanoseconds, char *to) {
    static const char *const units[] = {"s", "ms", "us"};
    scaled_text(nanoseconds, units, to);
}

static bool reads_stn(const struct readings *r) { return r->fields[LCD_PNRMODE] == PANEL_STN; }

/* ---- HCLK ticks */

/* The ticks beside the clocks of an STN line with these numbers, by a rule edition: the library is asked for a panel of one line and
 * one clock, and the clock's ticks are taken off. */
static uint64_t pauses(uint32_t edition, uint32_t wlh, uint32_t wdly, uint32_t lineblank) {
    uint32_t fields[LCD_FIELDS] = {[LCD_PNRMODE] = PANEL_STN, [LCD_BPPMODE] = 2, [LCD_CLKVAL] = 2, [LCD_PAGEWIDTH] = 2,
                                   [LCD_LCDBASEL] = 2, [LCD_WLH] = wlh, [LCD_WDLY] = wdly, [LCD_LINEBLANK] = lineblank};
    uint32_t words[LCD_REGISTERS] = {0}, sizes[LCD_SIZES] = {0};
    uint64_t counts[3] = {0};
    lcd_write_fields(fields, LCD_FIELDS, words, LCD_REGISTERS);
    lcd_read_sizes(words, LCD_REGISTERS, sizes, LCD_SIZES);
    lcd_counts(words, LCD_REGISTERS, edition, 0, counts, 3);
    return counts[1] - sizes[LCD_SIZE_TICKS];
}

/* WLH and WDLY give the same ticks where they have the same number. */
struct stn_pauses stn_pauses_of(const struct readings *r, uint32_t edition) {
    uint32_t wlh = r->fields[LCD_WLH], wdly = r->fields[LCD_WDLY];
    return (struct stn_pauses){.vline = pauses(edition, wlh, wlh, 0) / 2,
                               .delay = pauses(edition, wdly, wdly, 0) / 2,
                               .blank = pauses(edition, 0, 0, r->fields[LCD_LINEBLANK]) - pauses(edition, 0, 0, 0)};
}

uint64_t line_ticks(const struct readings *r, uint32_t edition) {
    uint64_t clocks = (uint64_t)r->sizes[LCD_SIZE_TICKS] * r->sizes[LCD_SIZE_LINE];
    return clocks + (reads_stn(r) ? pauses(edition, r->fields[LCD_WLH], r->fields[LCD_WDLY], r->fields[LCD_LINEBLANK]) : 0);
}

const char *by_edition(const struct dump *d) {
    return !is_stn(d->words) ? "" : d->edition == 1 ? " by rule edition 1" : " by rule edition 2";
}

/* ---- meanings */

bool is_neither(const struct readings *r) {
    uint32_t pnrmode = r->fields[LCD_PNRMODE];
    return pnrmode != PANEL_STN && pnrmode != PANEL_TFT;
}

void mode_meaning(const struct readings *r, char *to) {
    uint32_t stored = r->sizes[LCD_SIZE_STORED_BITS];
    bool stn = reads_stn(r);
    if (!stored)
        snprintf(to, MEANING, "no %s mode", stn ? "STN" : "TFT");
    else if (stored == 32)
        snprintf(to, MEANING, "24 bits a pixel, stored as 32");
    else
        snprintf(to, MEANING, "%" PRIu32 " bit%s a pixel%s", stored, stored == 1 ? "" : "s",
                 stored >= 16 ? "" : !stn ? ", through the palette" : stored == 1 ? ", mono" : ", 16 greys");
}

/* On STN there is no clock where CLKVAL is 0. */
static void clock_meaning(const struct readings *r, char *to) {
    char rate[MEANING];
    uint32_t ticks = r->sizes[LCD_SIZE_TICKS];
    if (!ticks) {
        snprintf(to, MEANING, "no VCLK");
        return;
    }
    rate_text(millihertz_of(r->dump->hclk, ticks), rate);
    snprintf(to, MEANING, r->dump->hclk ? "VCLK is HCLK / %" PRIu32 ": %.40s" : "VCLK is HCLK / %" PRIu32, ticks, rate);
}

/* The meaning of the fields that neither a size nor a sentence gives. */
static void special_meaning(const struct readings *r, int field, char *to) {
    uint32_t n = r->fields[field];
    switch (field) {
    case LCD_CLKVAL: clock_meaning(r, to); break;
    case LCD_BPPMODE: mode_meaning(r, to); break;
    case LCD_MVAL: snprintf(to, MEANING, "VM's rate (STN only)"); break;
    case LCD_LCDBANK: snprintf(to, MEANING, "A30..22 of the frame buffer: 0x%08" PRIx32, n << 22); break;
    case LCD_LCDBASEU: snprintf(to, MEANING, "A21..1 of the first row: bank + 0x%06" PRIx32, n << 1); break;
    case LCD_LCDBASEL: snprintf(to, MEANING, "A21..1 past the last row: bank + 0x%06" PRIx32, n << 1); break;
    case LCD_OFFSIZE: snprintf(to, MEANING, "half-word%s left out after each row", n == 1 ? "" : "s"); break;
    case LCD_PAGEWIDTH: snprintf(to, MEANING, "half-word%s a row", n == 1 ? "" : "s"); break;
    case LCD_TPALVAL: snprintf(to, MEANING, "its colour, 0x%06" PRIx32, n); break;
    }
}

/* The meaning of the fields that an STN panel has alone, or in another sense, or not at all; false where it is TFT's. */
static bool stn_meaning(const struct readings *r, int field, char *to) {
    struct stn_pauses ticks = stn_pauses_of(r, r->dump->edition);
    uint32_t n = r->fields[field], clocks = r->sizes[LCD_SIZE_LINE];
    switch (field) {
    case LCD_MMODE: snprintf(to, MEANING, "VM toggles %s", n ? "by MVAL" : "each frame"); break;
    case LCD_MVAL: snprintf(to, MEANING, "VM's rate where MMODE is 1"); break;
    case LCD_HOZVAL:
        snprintf(to, MEANING, "%" PRIu32 " pixels a row, the width: %" PRIu32 " clock%s of 8", r->sizes[LCD_SIZE_WIDTH], clocks,
                 clocks == 1 ? "" : "s");
        break;
    case LCD_WLH: snprintf(to, MEANING, "%" PRIu64 " ticks of VLINE%s", ticks.vline, by_edition(r->dump)); break;
    case LCD_WDLY: snprintf(to, MEANING, "%" PRIu64 " ticks from VLINE to VCLK%s", ticks.delay, by_edition(r->dump)); break;
    case LCD_LINEBLANK: snprintf(to, MEANING, "%" PRIu64 " ticks of blank time a line", ticks.blank); break;
    case LCD_INVVLINE: snprintf(to, MEANING, "VLINE is %d when active", !n); break;
    case LCD_INVVFRAME: snprintf(to, MEANING, "VFRAME is %d when active", !n); break;
    case LCD_VBPD: case LCD_VFPD: case LCD_VSPW: case LCD_BPP24BL: case LCD_FRM565: case LCD_INVVDEN: case LCD_INVLEND:
    case LCD_ENLEND: snprintf(to, MEANING, "TFT only"); break;
    case LCD_TPALEN: case LCD_TPALVAL: snprintf(to, MEANING, "reserved on STN"); break;
    default: return false;
    }
    return true;
}

void field_meaning(const struct readings *r, int field, char *to) {
    const struct field_text *t = &texts[field];
    if (reads_stn(r) && stn_meaning(r, field, to))
        return;
    if (t->size >= 0)
        snprintf(to, MEANING, "%" PRIu32 " %s", r->sizes[t->size], r->sizes[t->size] == 1 ? t->one : t->more);
    else if (t->number[0])
        snprintf(to, MEANING, "%s", t->number[r->fields[field]]);
    else
        special_meaning(r, field, to);
}
