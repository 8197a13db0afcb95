/* Two pictures side by side. */
#include "compare.h"
#include <inttypes.h>
#include <string.h>
#include "fields.h"
#include "screen.h"

/* The largest distance of the three parts of two colours. */
static uint32_t distance(uint32_t a, uint32_t b) {
    uint32_t most = 0;
    for (int shift = 0; shift < 24; shift += 8) {
        uint32_t x = a >> shift & 0xff, y = b >> shift & 0xff, by = x < y ? y - x : x - y;
        most = by > most ? by : most;
    }
    return most;
}

static void count_pixel(struct comparison *c, size_t i, uint32_t golden, uint32_t here) {
    uint32_t row = i / c->width, column = i % c->width;
    if (!c->differ++) {
        c->first = i;
        c->golden_first = golden, c->here_first = here;
        c->top = row, c->left = c->right = column;
    }
    c->bottom = row;
    c->left = column < c->left ? column : c->left;
    c->right = column > c->right ? column : c->right;
}

void compare(struct comparison *c, const struct picture *golden, const struct picture *here, uint32_t tolerance) {
    memset(c, 0, sizeof *c);
    c->width = golden->width, c->height = golden->height;
    c->tolerance = tolerance;
    c->same_size = golden->width == here->width && golden->height == here->height;
    c->all = (size_t)here->width * here->height;
    for (size_t i = 0; c->same_size && i < c->all; i++) {
        uint32_t by = distance(golden->colours[i], here->colours[i]);
        c->largest = by > c->largest ? by : c->largest;
        if (by > tolerance)
            count_pixel(c, i, golden->colours[i], here->colours[i]);
    }
}

bool comparison_equal(const struct comparison *c) { return c->same_size && !c->differ; }

struct picture comparison_picture(const struct comparison *c, const struct picture *golden, const struct picture *here) {
    struct picture p = picture_new(here->width, here->height);
    for (size_t i = 0; i < c->all; i++) {
        bool far = distance(golden->colours[i], here->colours[i]) > c->tolerance;
        p.colours[i] = far ? 0xffffff : here->colours[i] >> 2 & 0x3f3f3f;
    }
    return p;
}

/* ---- neighbours */

static void try_neighbour(const struct comparison *c, const struct dump *d, const uint32_t *words, const struct picture *golden,
                          struct neighbour *n) {
    struct picture p;
    struct comparison other;
    n->refusal = screen_draw(d, words, &p);
    if (n->refusal)
        return;
    compare(&other, golden, &p, c->tolerance);
    n->equal = comparison_equal(&other);
    picture_free(&p);
}

static void try_flag(struct comparison *c, const struct readings *r, const struct picture *golden, int field, struct neighbour *n) {
    uint32_t words[LCD_REGISTERS];
    memcpy(words, r->dump->words, sizeof words);
    put_field(words, field, !r->fields[field]);
    snprintf(n->name, NEIGHBOUR, "%s %d", field_name(field), !r->fields[field]);
    try_neighbour(c, r->dump, words, golden, n);
}

/* The viewport a row up or down: LCDBASEU and, since the library refuses it otherwise (6), LCDBASEL by as much. There is none outside
 * the bank. */
static void try_row(struct comparison *c, const struct readings *r, const struct picture *golden, bool up, struct neighbour *n) {
    uint32_t words[LCD_REGISTERS], pitch = r->fields[LCD_PAGEWIDTH] + r->fields[LCD_OFFSIZE], by = up ? -pitch : pitch;
    uint32_t base = r->fields[LCD_LCDBASEU] + by, end = (r->fields[LCD_LCDBASEL] + by) & layout_asked()->most[LCD_LCDBASEL];
    if (base > layout_asked()->most[LCD_LCDBASEU])
        return;
    memcpy(words, r->dump->words, sizeof words);
    put_field(words, LCD_LCDBASEU, base);
    put_field(words, LCD_LCDBASEL, end);
    snprintf(n->name, NEIGHBOUR, "LCDBASEU %" PRIu32 " and LCDBASEL %" PRIu32 " (a row %s)", base, end, up ? "less" : "more");
    try_neighbour(c, r->dump, words, golden, n);
}

void compare_neighbours(struct comparison *c, const struct dump *d, const struct picture *golden) {
    static const int flags[] = {LCD_HWSWP, LCD_BSWP, LCD_BPP24BL, LCD_FRM565};
    struct readings r;
    readings_ask(&r, d);
    for (int i = 0; i < 4; i++)
        if (!is_stn(d->words) || flags[i] == LCD_BSWP)
            try_flag(c, &r, golden, flags[i], &c->neighbours[i]);
    try_row(c, &r, golden, true, &c->neighbours[4]);
    try_row(c, &r, golden, false, &c->neighbours[5]);
}

/* ---- in words */

static const char *pixels(size_t count) { return count == 1 ? "pixel" : "pixels"; }

/* The neighbours that give an equal picture; where none does, those that were drawn and those that could not be. */
static void say_neighbours(const struct comparison *c) {
    bool any = false;
    for (int i = 0; i < MOST_NEIGHBOURS; i++)
        if (c->neighbours[i].equal) {
            say("equal with %s\n", c->neighbours[i].name);
            any = true;
        }
    for (int i = 0; i < MOST_NEIGHBOURS && !any; i++)
        if (!c->neighbours[i].name[0])
            continue;
        else if (c->neighbours[i].refusal)
            say("not drawn with %s: refused %" PRIu32 "\n", c->neighbours[i].name, c->neighbours[i].refusal);
        else
            say("not equal with %s\n", c->neighbours[i].name);
}

static void say_differences(const struct comparison *c) {
    say("differs: %zu of %zu %s, first at row %zu, column %zu: golden %06" PRIx32 ", here %06" PRIx32 "\n", c->differ, c->all,
        pixels(c->all), c->first / c->width, c->first % c->width, c->golden_first, c->here_first);
    say("within rows %" PRIu32 " to %" PRIu32 " and columns %" PRIu32 " to %" PRIu32 ", largest distance %" PRIu32 " of 255", c->top,
        c->bottom, c->left, c->right, c->largest);
    if (c->tolerance)
        say(", tolerance %" PRIu32, c->tolerance);
    say("\n");
    say_neighbours(c);
}

void comparison_say(const struct comparison *c, const struct picture *here) {
    if (!c->same_size)
        say("differs in size: golden %" PRIu32 " by %" PRIu32 ", here %" PRIu32 " by %" PRIu32 "\n", c->width, c->height, here->width,
            here->height);
    else if (c->differ)
        say_differences(c);
    else if (c->largest)
        say("equal: %zu %s within a tolerance of %" PRIu32 ", largest distance %" PRIu32 "\n", c->all, pixels(c->all), c->tolerance,
            c->largest);
    else
        say("equal: %zu %s\n", c->all, pixels(c->all));
}
