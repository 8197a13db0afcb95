/* The test card's dump: registers with porches for the size, a palette for the mode, and the card's picture in video memory as
 * software on the chip stores it, first pixel at the lowest address. A word's first pixel is in its highest bits (docs/REFERENCE.md,
 * §4.1), so 16 bits need HWSWP and fewer need BSWP. An STN panel has neither porches nor a palette. */
#include "testcard.h"
#include <inttypes.h>
#include <stdio.h>
#include <stdlib.h>
#include <string.h>
#include "card.h"
#include "fields.h"

enum { HCLK = 100000000, START = 0x30000000, BANK = START >> 22, USUAL_MILLIHERTZ = 60000 };

/* ---- sync widths and porches, counted from 1 */

struct timing {
    uint32_t width, height, hsync, hback, hfront, vsync, vback, vfront;
};

/* Panels of a known size. The first is the TD035STED4 with the numbers of T8 (§13.1); the others have usual numbers for such panels:
 * LQ035Q1DG06, LQ043T3DX02, LQ64D343, AT070TN83. */
static const struct timing panels[] = {
    {240, 320, 10, 20, 10, 2, 2, 2},   {320, 240, 4, 68, 66, 9, 4, 4},    {480, 272, 41, 2, 2, 10, 2, 2},
    {640, 480, 96, 48, 16, 2, 33, 10}, {800, 480, 48, 40, 40, 3, 29, 13},
};

static uint32_t within(uint32_t n, uint32_t most) { return n < 1 ? 1 : n < most ? n : most; }

/* The panel's numbers, or for any other size some that grow with it. */
static struct timing timing_for(uint32_t width, uint32_t height) {
    for (size_t i = 0; i < sizeof panels / sizeof *panels; i++)
        if (panels[i].width == width && panels[i].height == height)
            return panels[i];
    return (struct timing){width,  height, within(width / 16, 256), within(width / 16, 128), within(width / 32, 256),
                           2,      within(height / 32, 256), within(height / 64, 256)};
}

/* ---- the registers */

static const uint32_t modes[6] = {1, 2, 4, 8, 16, 24};

static uint32_t mode_of(uint32_t bits) {
    uint32_t i = 0;
    while (i < 6 && modes[i] != bits)
        i++;
    return i;
}

static void set_timing(uint32_t *fields, const struct timing *t) {
    fields[LCD_HOZVAL] = t->width - 1, fields[LCD_LINEVAL] = t->height - 1;
    fields[LCD_HSPW] = t->hsync - 1, fields[LCD_HBPD] = t->hback - 1, fields[LCD_HFPD] = t->hfront - 1;
    fields[LCD_VSPW] = t->vsync - 1, fields[LCD_VBPD] = t->vback - 1, fields[LCD_VFPD] = t->vfront - 1;
}

static void set_tft(uint32_t *fields, uint32_t width, uint32_t height, uint32_t bits) {
    struct timing t = timing_for(width, height);
    set_timing(fields, &t);
    fields[LCD_PNRMODE] = PANEL_TFT, fields[LCD_BPPMODE] = 8 + mode_of(bits);
    fields[LCD_FRM565] = fields[LCD_INVVLINE] = fields[LCD_INVVFRAME] = 1;
}

/* Eight pixels a clock; usual pulses and, as blank time, what the chip's manual takes for its example. */
static void set_stn(uint32_t *fields, uint32_t width, uint32_t height, uint32_t bits) {
    fields[LCD_PNRMODE] = PANEL_STN, fields[LCD_BPPMODE] = bits == 1 ? 0 : 2;
    fields[LCD_HOZVAL] = width / 8 - 1, fields[LCD_LINEVAL] = height - 1;
    fields[LCD_WLH] = fields[LCD_WDLY] = 3, fields[LCD_LINEBLANK] = 10;
}

static void set_fields(uint32_t *fields, uint32_t width, uint32_t height, const struct card_mode *mode) {
    uint32_t bits = mode->bits, stored = bits == 24 ? 32 : bits;
    memset(fields, 0, sizeof *fields * LCD_FIELDS);
    if (mode->stn)
        set_stn(fields, width, height, bits);
    else
        set_tft(fields, width, height, bits);
    fields[LCD_ENVID] = fields[LCD_PWREN] = 1;
    fields[LCD_HWSWP] = bits == 16, fields[LCD_BSWP] = bits < 16;
    fields[LCD_LCDBANK] = BANK;
    fields[LCD_PAGEWIDTH] = (uint64_t)width * stored / 16;
    fields[LCD_LCDBASEL] = (uint64_t)fields[LCD_PAGEWIDTH] * height % (1 << 21);
}

static uint64_t apart(uint64_t a, uint64_t b) { return a < b ? b - a : a - b; }

/* CLKVAL for the rate nearest to 60 Hz, on STN from 2 on and by a rule edition; the TD035STED4 has 4, as in T8. Returns the number of
 * the refusal of the words. */
static uint32_t set_clock(uint32_t *fields, uint32_t *words, uint32_t edition) {
    uint64_t counts[3], best = UINT64_MAX;
    uint32_t chosen = 4, refusal;
    bool stn = fields[LCD_PNRMODE] == PANEL_STN;
    bool known = !stn && fields[LCD_HOZVAL] == panels[0].width - 1 && fields[LCD_LINEVAL] == panels[0].height - 1;
    for (uint32_t clkval = stn ? 2 : 0; clkval < 1024 && !known; clkval++) {
        fields[LCD_CLKVAL] = clkval;
        if ((refusal = lcd_write_fields(fields, LCD_FIELDS, words, LCD_REGISTERS)) ||
            (refusal = lcd_counts(words, LCD_REGISTERS, edition, HCLK, counts, 3)))
            return refusal;
        if (apart(counts[2], USUAL_MILLIHERTZ) < best)
            best = apart(counts[2], USUAL_MILLIHERTZ), chosen = clkval;
    }
    fields[LCD_CLKVAL] = chosen;
    if ((refusal = lcd_write_fields(fields, LCD_FIELDS, words, LCD_REGISTERS)))
        return refusal;
    return lcd_counts(words, LCD_REGISTERS, edition, HCLK, counts, 3);
}

/* ---- the palette */

static uint32_t grey(uint32_t level, uint32_t levels) { return level * 255 / (levels - 1) * 0x010101; }

/* The colour of an entry: black and white, four greys, the bars' colours and eight greys, or a cube of 6 by 6 by 6 and 40 greys. */
static uint32_t palette_colour(uint32_t bits, uint32_t i) {
    if (bits < 4)
        return grey(i, 1 << bits);
    if (bits == 4)
        return i < 8 ? (i >> 2 & 1) * 0xff0000 + (i >> 1 & 1) * 0xff00 + (i & 1) * 0xff : i == 8 ? 0x000040 : grey(i - 8, 8);
    if (i < 216)
        return (i / 36 * 51) << 16 | (i / 6 % 6 * 51) << 8 | i % 6 * 51;
    return grey(i - 216, 40);
}

static uint16_t as_565(uint32_t colour) { return (colour >> 8 & 0xf800) | (colour >> 5 & 0x7e0) | (colour >> 3 & 0x1f); }

static void set_palette(struct dump *d, const struct card_mode *mode) {
    memset(d->palette, 0, sizeof d->palette);
    for (uint32_t i = 0; !mode->stn && mode->bits <= 8 && i < 1u << mode->bits; i++)
        d->palette[i] = as_565(palette_colour(mode->bits, i));
}

static uint32_t distance(uint32_t a, uint32_t b) {
    uint32_t sum = 0;
    for (int shift = 0; shift < 24; shift += 8) {
        int32_t by = (int32_t)(a >> shift & 0xff) - (int32_t)(b >> shift & 0xff);
        sum += by * by;
    }
    return sum;
}

/* The palette's entry nearest to a colour. */
static uint32_t nearest(uint32_t bits, uint32_t colour) {
    uint32_t best = 0, least = distance(palette_colour(bits, 0), colour);
    for (uint32_t i = 1; i < 1u << bits; i++) {
        uint32_t away = distance(palette_colour(bits, i), colour);
        if (away < least)
            least = away, best = i;
    }
    return best;
}

/* What is stored for a colour: the colour itself, its 16 bits, or its entry; on STN its level. */
static uint32_t number_for(const struct card_mode *mode, uint32_t colour) {
    uint32_t bits = mode->bits;
    if (mode->stn)
        return colour & ((1u << bits) - 1);
    return bits == 24 ? colour : bits == 16 ? as_565(colour) : nearest(bits, colour);
}

/* ---- the frame buffer, byte by byte, low byte of a number first */

static void put_byte(struct dump *d, size_t at, uint32_t byte) { d->video[at / 4] |= byte << 8 * (at % 4); }

/* The number of pixel i of the card, stored in its bytes; pixels smaller than a byte fill it from its highest bits down. */
static void put_pixel(struct dump *d, size_t i, uint32_t bits, uint32_t number) {
    uint32_t bytes = bits == 24 ? 4 : bits / 8;
    if (bits < 8)
        put_byte(d, i * bits / 8, number << (8 - bits - i * bits % 8));
    for (uint32_t k = 0; k < bytes; k++)
        put_byte(d, i * bytes + k, number >> 8 * k & 0xff);
}

/* A number is looked up where the colour changes, which is seldom. */
static void fill_video(struct dump *d, uint32_t width, uint32_t height, const struct card_mode *mode) {
    struct picture card = picture_new(width, height);
    uint32_t number = 0;
    card_draw(&card, mode);
    memset(d->video, 0, sizeof *d->video * d->video_len);
    for (size_t i = 0; i < (size_t)width * height; i++) {
        if (i == 0 || card.colours[i] != card.colours[i - 1])
            number = number_for(mode, card.colours[i]);
        put_pixel(d, i, mode->bits, number);
    }
    picture_free(&card);
}

/* ---- what can't be made, and what is seen */

static bool outside(const char *what, uint32_t n, uint32_t most, char *why) {
    bool is = n < 1 || n > most;
    if (is)
        snprintf(why, CARD_FAULT, "%s %" PRIu32 " is outside 1 to %" PRIu32, what, n, most);
    return is;
}

/* Sizes and mode that no fields can be made for. */
static bool no_fields(uint32_t width, uint32_t height, const struct card_mode *mode, char *why) {
    const struct layout *l = layout_asked();
    uint32_t bits = mode->bits, page = (uint64_t)width * (bits == 24 ? 32 : bits) / 16;
    if (outside("width", width, (l->most[LCD_HOZVAL] + 1) * (mode->stn ? 8 : 1), why) ||
        outside("height", height, l->most[LCD_LINEVAL] + 1, why))
        return true;
    if (mode_of(bits) == 6)
        snprintf(why, CARD_FAULT, "BPP %" PRIu32 " is none of " CARD_MODES, bits);
    else if (page > l->most[LCD_PAGEWIDTH])
        snprintf(why, CARD_FAULT, "width %" PRIu32 " at %" PRIu32 " bits needs PAGEWIDTH %" PRIu32 ", above %" PRIu32, width, bits, page,
                 l->most[LCD_PAGEWIDTH]);
    else
        return false;
    return true;
}

/* A row is made of whole words. */
static void explain(uint32_t refusal, uint32_t width, uint32_t bits, char *why) {
    if (refusal == 5)
        snprintf(why, CARD_FAULT, "width %" PRIu32 " at %" PRIu32 " bit%s is no multiple of %" PRIu32, width, bits,
                 bits == 1 ? "" : "s", bits == 24 ? 1 : 32 / bits);
    else
        snprintf(why, CARD_FAULT, "refused %" PRIu32 ", %.90s", refusal, lcd_refusal_text(refusal));
}

void testcard_mode_text(const struct card_mode *mode, char *to) {
    if (mode->stn)
        snprintf(to, CARD_FAULT, "on STN in %s", mode->bits == 1 ? "mono" : "16 greys");
    else
        snprintf(to, CARD_FAULT, "at %" PRIu32 " bit%s", mode->bits, mode->bits == 1 ? "" : "s");
}

const char *testcard_shows(const struct card_mode *mode) {
    if (mode->stn && mode->bits == 1)
        return "in white on black: a border, stripes and squares 1 to 8 pixels wide, the size in figures, the polar diagram";
    if (mode->stn)
        return "a border, a ramp of 16 greys, the size in figures, the polar diagram";
    switch (mode->bits) {
    case 1: return "in white on black: a border, the eight bars (the light colours white), a ramp of two steps, the size, the diagram";
    case 2: return "in four greys: a border, the eight bars, a ramp of four steps, the size in figures, the polar diagram";
    case 4: return "a border, eight colour bars, a ramp of eight greys, the size in figures, the polar diagram in red and green";
    default: return "a border, eight colour bars, a grey ramp, the size in figures, the polar diagram in red and green";
    }
}

/* What the library says of the card that is made; 5 where an STN row, of eight pixels a clock, would not have the width. */
static uint32_t make(struct dump *d, uint32_t width, uint32_t height, const struct card_mode *mode) {
    uint32_t fields[LCD_FIELDS], refusal = mode->stn && width % 8 ? 5 : 0;
    set_fields(fields, width, height, mode);
    if (!refusal)
        refusal = set_clock(fields, d->words, d->edition);
    if (refusal)
        return refusal;
    d->video_len = (size_t)fields[LCD_PAGEWIDTH] / 2 * height;
    d->video = grow(NULL, sizeof *d->video * d->video_len);
    set_palette(d, mode);
    fill_video(d, width, height, mode);
    return lcd_check(d->words, LCD_REGISTERS, START, d->video, d->video_len);
}

bool testcard_make(struct dump *d, uint32_t width, uint32_t height, const struct card_mode *mode, uint32_t edition, char *why) {
    uint32_t refusal;
    *d = (struct dump){.hclk = HCLK, .window_start = START, .edition = edition};
    if (no_fields(width, height, mode, why))
        return false;
    refusal = make(d, width, height, mode);
    if (refusal)
        explain(refusal, width, mode->bits, why);
    return !refusal;
}
