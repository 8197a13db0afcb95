/* JSON: a small writer, and the facts of a dump as objects. Numbers are numbers; words, addresses and colours are texts in
 * hexadecimal, as the account has them. */
#include "json.h"
#include <inttypes.h>
#include <stdio.h>
#include <string.h>
#include "account.h"
#include "animation.h"

/* ---- the writer */

static int depth;
static bool begun; /* whether something stands before in the same brackets */

/* A new member or element: a comma behind the last one, a line of its own where it is not deep inside, and its key. */
static void member(const char *key) {
    if (begun)
        say(",");
    if (depth <= 3)
        say("\n%*s", 2 * depth, "");
    else if (begun)
        say(" ");
    if (key)
        say("\"%s\": ", key);
    begun = true;
}

static void open(const char *key, const char *bracket) {
    member(key);
    say("%s", bracket);
    depth++;
    begun = false;
}

static void close(const char *bracket) {
    depth--;
    if (begun && depth <= 2)
        say("\n%*s", 2 * depth, "");
    say("%s", bracket);
    begun = true;
}

/* How many bytes the UTF-8 character has that begins here; 0 where none does. */
static int character(const uint8_t *p) {
    static const uint32_t least[4] = {0, 0x80, 0x800, 0x10000};
    int more = p[0] < 0x80 ? 0 : (p[0] & 0xe0) == 0xc0 ? 1 : (p[0] & 0xf0) == 0xe0 ? 2 : (p[0] & 0xf8) == 0xf0 ? 3 : -1;
    uint32_t code = more < 1 ? p[0] : p[0] & (0x3f >> more);
    if (more < 0)
        return 0;
    for (int i = 1; i <= more; i++) {
        if ((p[i] & 0xc0) != 0x80)
            return 0;
        code = code << 6 | (p[i] & 0x3f);
    }
    return code < least[more] || code > 0x10ffff || (code >= 0xd800 && code < 0xe000) ? 0 : more + 1;
}

/* A text between quotation marks; bytes that are no UTF-8 become U+FFFD. */
static void put_text(const char *text) {
    say("\"");
    for (const uint8_t *p = (const uint8_t *)text; *p;) {
        int length = character(p);
        if (!length)
            say("\\ufffd");
        else if (*p < 0x20 || *p == 0x7f)
            say("\\u%04x", *p);
        else
            say("%s%.*s", *p == '"' || *p == '\\' ? "\\" : "", length, (const char *)p);
        p += length ? length : 1;
    }
    say("\"");
}

static void text(const char *key, const char *value) {
    member(key);
    if (value)
        put_text(value);
    else
        say("null");
}

static void number(const char *key, uint64_t value) {
    member(key);
    say("%" PRIu64, value);
}

static void truth(const char *key, bool value) {
    member(key);
    say(value ? "true" : "false");
}

static void hexadecimal(const char *key, uint64_t value, int digits) {
    member(key);
    say("\"0x%0*" PRIx64 "\"", digits, value);
}

/* ---- a dump */

static void put_changes(const char *key, const struct cure *c) {
    open(key, "{");
    for (int i = 0; i < c->count; i++)
        number(field_name(c->changes[i].field), c->changes[i].number);
    close("}");
}

static void put_fault(const struct fault *f) {
    open(NULL, "{");
    number("refusal", f->refusal);
    text("text", lcd_refusal_text(f->refusal));
    text("numbers", f->numbers);
    put_changes("judged_with", &f->with);
    truth("reserved_bits_cleared", f->cleared);
    truth("needed_memory_given", f->lent);
    number("hangs_on", f->hangs);
    if (f->refusal == 1)
        number("then_cleared", f->then);
    open("lifted_by", "[");
    for (int i = 0; i < f->cures.count; i++) {
        open(NULL, "{");
        put_changes("set", &f->cures.at[i]);
        number("then", f->cures.at[i].then);
        close("}");
    }
    close("]");
    close("}");
}

static void put_faults(const struct faults *f) {
    open("faults", "[");
    for (int i = 0; i < f->count; i++)
        put_fault(&f->at[i]);
    close("]");
}

/* The rule edition of what stands beside it, where there are two. */
static void put_edition(const struct dump *d) {
    if (is_stn(d->words))
        number("edition", d->edition);
}

static void put_counts(const struct shot *s) {
    uint64_t counts[3];
    if (lcd_counts(s->dump.words, LCD_REGISTERS, s->dump.edition, s->dump.hclk, counts, 3)) {
        text("counts", NULL);
        return;
    }
    open("counts", "{");
    number("clocks", counts[0]);
    number("hclk", counts[1]);
    number("mhz", counts[2]);
    put_edition(&s->dump);
    close("}");
}

static void put_sizes(const struct readings *r) {
    static const char *const names[LCD_SIZES] = {"width",       "height", "stored_bits", "ticks",   "hsync",       "hback_porch",
                                                 "hfront_porch", "line",   "vsync",       "vback_porch", "vfront_porch", "frame"};
    open("sizes", "{");
    for (int i = 0; i < LCD_SIZES; i++)
        number(names[i], r->sizes[i]);
    close("}");
}

/* In millihertz, rounded down. On STN there may be no clock, and then no rates. */
static void put_rate(const char *key, const struct readings *r, uint64_t ticks) {
    if (r->sizes[LCD_SIZE_TICKS])
        number(key, millihertz_of(r->dump->hclk, ticks));
    else
        text(key, NULL);
}

static void put_rates(const struct readings *r) {
    const uint32_t *s = r->sizes;
    uint64_t line = line_ticks(r, r->dump->edition);
    open("millihertz", "{");
    put_rate("vclk", r, s[LCD_SIZE_TICKS]);
    put_rate("line", r, line);
    put_rate("frame", r, line * s[LCD_SIZE_FRAME]);
    close("}");
}

/* An STN line in HCLK ticks and in time, which is null without HCLK or a clock. */
static void put_line(const struct readings *r) {
    struct stn_pauses ticks = stn_pauses_of(r, r->dump->edition);
    uint64_t line = line_ticks(r, r->dump->edition);
    open("stn_line", "{");
    number("ticks", line);
    number("vline", ticks.vline);
    number("delay", ticks.delay);
    number("blank", ticks.blank);
    if (r->dump->hclk && r->sizes[LCD_SIZE_TICKS])
        number("nanoseconds", line * 1000000000 / r->dump->hclk);
    else
        text("nanoseconds", NULL);
    put_edition(r->dump);
    close("}");
}

/* The number of the frame that an STN panel was drawn as; null where it is what the eye sees, or nothing is drawn. */
static void put_frame(const struct shot *s) {
    if (s->dump.one_frame && s->picture.colours)
        number("frame", s->dump.frame);
    else
        text("frame", NULL);
}

/* And for an animation how many frames from that one on, and the seconds of each as a fraction. */
static void put_frames(const struct shot *s) {
    struct delay each;
    put_frame(s);
    if (!s->dump.frames || !s->picture.colours) {
        text("frames", NULL);
        text("frame_delay", NULL);
        return;
    }
    each = animation_delay(&s->dump);
    number("frames", s->dump.frames);
    open("frame_delay", "[");
    number(NULL, each.over);
    number(NULL, each.under);
    close("]");
}

static void put_memory(const struct dump *d) {
    uint32_t words[LCD_REGISTERS], first, last;
    open("memory", "{");
    if (d->source != WORDS_ALONE) {
        hexadecimal("start", d->window_start, 8);
        number("bytes", 4 * (uint64_t)d->video_len);
    }
    words_cleared(d->words, words);
    if (memory_needed(words, &first, &last)) {
        hexadecimal("needed_first", first, 8);
        hexadecimal("needed_last", last, 8);
    }
    close("}");
}

static void put_part(const struct shot *s, int word, const struct part *p) {
    char meaning[MEANING] = "read-only, ignored";
    open(NULL, "{");
    text("name", p->name);
    number("high", p->high);
    number("low", p->low);
    number("number", part_number(p, s->dump.words[word]));
    if (p->field >= 0)
        field_meaning(&s->readings, p->field, meaning);
    text("meaning", meaning);
    close("}");
}

static void put_register(const struct shot *s, int word) {
    const struct layout *l = layout_of(s->dump.words);
    uint32_t value = s->dump.words[word];
    open(NULL, "{");
    text("name", register_names[word]);
    hexadecimal("word", value, 8);
    hexadecimal("reserved_bits_set", value & l->reserved[word], 8);
    truth("bank_bits_left", bank_bits_left(s->dump.words, word));
    open("fields", "[");
    for (int i = 0; i < l->count[word]; i++)
        if (l->parts[word][i].field != RESERVED)
            put_part(s, word, &l->parts[word][i]);
    close("]");
    close("}");
}

static void put_neighbours(const struct comparison *c) {
    open("neighbours", "[");
    for (int i = 0; i < MOST_NEIGHBOURS; i++) {
        if (!c->neighbours[i].name[0])
            continue;
        open(NULL, "{");
        text("name", c->neighbours[i].name);
        number("refusal", c->neighbours[i].refusal);
        truth("equal", c->neighbours[i].equal);
        close("}");
    }
    close("]");
}

static void put_comparison(const struct shot *s) {
    const struct comparison *c = &s->comparison;
    open("comparison", "{");
    truth("equal", comparison_equal(c));
    if (is_stn(s->dump.words))
        put_frame(s);
    number("golden_width", c->width);
    number("golden_height", c->height);
    if (c->same_size) {
        number("pixels", c->all);
        number("differ", c->differ);
        number("tolerance", c->tolerance);
        number("largest_distance", c->largest);
    }
    if (c->differ) {
        number("first_row", c->first / c->width);
        number("first_column", c->first % c->width);
        hexadecimal("golden_first", c->golden_first, 6);
        hexadecimal("here_first", c->here_first, 6);
        number("top", c->top);
        number("bottom", c->bottom);
        number("left", c->left);
        number("right", c->right);
        put_neighbours(c);
    }
    close("}");
}

/* ---- against another dump */

static void put_difference(const struct difference *d) {
    open(NULL, "{");
    text("register", *d->where ? d->where : NULL);
    text("name", d->name);
    number("old", d->old);
    text("old_meaning", d->old_meaning);
    number("new", d->now);
    text("new_meaning", d->now_meaning);
    truth("counts", d->counts);
    close("}");
}

static void put_palette(const struct shot *old, const struct shot *now) {
    open("palette", "[");
    for (int i = 0; i < LCD_PALETTE_ENTRIES; i++) {
        if (!palette_differs(old, now, i))
            continue;
        open(NULL, "{");
        number("entry", (uint64_t)i);
        hexadecimal("old", old->dump.palette[i], 4);
        hexadecimal("new", now->dump.palette[i], 4);
        close("}");
    }
    close("]");
}

static void put_against(const struct against *a, const struct shot *old, const struct shot *now) {
    open("against", "{");
    text("name", old->name);
    truth("differs", a->any);
    open("fields", "[");
    for (int i = 0; i < a->field_count; i++)
        put_difference(&a->fields[i]);
    close("]");
    put_palette(old, now);
    open("memory", "{");
    number("words_compared", a->common);
    number("words_differ", a->words);
    number("old_alone", a->old_only);
    number("new_alone", a->now_only);
    if (a->words) {
        hexadecimal("first", a->first, 8);
        hexadecimal("old_first", a->old_word, 8);
        hexadecimal("new_first", a->now_word, 8);
    }
    close("}");
    close("}");
}

/* ---- the document */

void json_begin(void) {
    say("{");
    depth = 1;
    begun = false;
    text("version", LCD_VERSION);
    open("dumps", "[");
}

/* The kind of panel; null where PNRMODE selects none. */
static const char *panel_of(const struct readings *r) {
    uint32_t pnrmode = r->fields[LCD_PNRMODE];
    return pnrmode == PANEL_STN ? "STN" : pnrmode == PANEL_TFT ? "TFT" : NULL;
}

static void put_facts(const struct shot *s) {
    uint32_t stored = s->readings.sizes[LCD_SIZE_STORED_BITS];
    text("panel", panel_of(&s->readings));
    number("width", s->readings.sizes[LCD_SIZE_WIDTH]);
    number("height", s->readings.sizes[LCD_SIZE_HEIGHT]);
    number("bits", stored == 32 ? 24 : stored);
    number("hclk_hz", s->dump.hclk);
    put_counts(s);
    put_faults(&s->faults);
    text("glass", account_glass(&s->readings));
    put_sizes(&s->readings);
    put_rates(&s->readings);
    if (is_stn(s->dump.words)) {
        put_line(&s->readings);
        put_frames(s);
    }
    put_memory(&s->dump);
    open("registers", "[");
    for (int word = 0; word < LCD_REGISTERS; word++)
        put_register(s, word);
    close("]");
    if (s->compared)
        put_comparison(s);
    if (s->golden_error)
        text("golden_error", s->golden_error);
}

void json_shot(const struct shot *s, const struct shot *old, const struct against *a) {
    open(NULL, "{");
    text("name", s->name);
    if (s->error) {
        text("error", s->error);
    } else {
        truth("accepted", !s->refusal);
        number("refusal", s->refusal);
        text("refusal_text", s->refusal ? lcd_refusal_text(s->refusal) : NULL);
        if (s->dump.source == FROM_FILE)
            number("bytes", s->bytes);
        if (s->refusal != 14)
            put_facts(s);
    }
    if (a)
        put_against(a, old, s);
    close("}");
}

void json_end(int status) {
    close("]");
    number("status", (uint64_t)status);
    depth = 0;
    say("\n}\n");
}
