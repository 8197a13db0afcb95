/* The picture on the test card. What it is for: a missing last column or row takes a side of the border away; a wrong pitch shears
 * the border and the circles; exchanged pixels move the border's left side inward and fray every slanted line; a wrong colour format
 * shows in the bars, a lost bit in the ramp; exchanged bits or bytes of a mono STN panel show in stripes and squares of 1 to 8 pixels.
 * Whole numbers only, so that the card is the same everywhere. */
#include "card.h"
#include <stdlib.h>
#include <string.h>

enum { WHITE = 0xffffff };

/* What the card is drawn with: its ground, the diagram's rings, rays and curves. */
struct inks {
    uint32_t sea, rings, wind, port, starboard;
};

/* In fewer than 4 bits there is no red and no green. On STN level 7 is the half light; mono has black and white alone. */
static struct inks inks_for(const struct card_mode *mode) {
    if (mode->stn && mode->bits == 1)
        return (struct inks){0, WHITE, WHITE, WHITE, WHITE};
    if (mode->stn)
        return (struct inks){0, card_grey(7), card_grey(12), card_grey(10), WHITE};
    return (struct inks){0x000040, 0x808080, 0xffff00, mode->bits < 4 ? WHITE : 0xff0000, mode->bits < 4 ? WHITE : 0x00ff00};
}

/* The gap between the border and what lies inside, so that the border stands out. */
enum { GAP = 3 };

static void dot(struct picture *p, long column, long row, uint32_t colour) {
    if (column >= 0 && row >= 0 && column < (long)p->width && row < (long)p->height)
        p->colours[row * p->width + column] = colour;
}

static void line(struct picture *p, long x, long y, long to_x, long to_y, uint32_t colour) {
    long dx = labs(to_x - x), dy = -labs(to_y - y), step_x = x < to_x ? 1 : -1, step_y = y < to_y ? 1 : -1, error = dx + dy;
    dot(p, x, y, colour);
    while (x != to_x || y != to_y) {
        long twice = 2 * error;
        if (twice >= dy)
            error += dy, x += step_x;
        if (twice <= dx)
            error += dx, y += step_y;
        dot(p, x, y, colour);
    }
}

static void border(struct picture *p) {
    long right = (long)p->width - 1, bottom = (long)p->height - 1;
    line(p, 0, 0, right, 0, WHITE);
    line(p, 0, bottom, right, bottom, WHITE);
    line(p, 0, 0, 0, bottom, WHITE);
    line(p, right, 0, right, bottom, WHITE);
}

/* ---- bars and ramp, or what stands for them: the upper quarter */

static uint32_t bar(uint32_t column, uint32_t row, uint32_t width) {
    static const uint32_t colours[8] = {0xffffff, 0xffff00, 0x00ffff, 0x00ff00, 0xff00ff, 0xff0000, 0x0000ff, 0x000000};
    (void)row;
    return colours[column * 8 / width];
}

static uint32_t grey(uint32_t column, uint32_t row, uint32_t width) {
    (void)row;
    return column * 256 / width * 0x010101;
}

/* The 16 greys of an STN panel. */
static uint32_t step(uint32_t column, uint32_t row, uint32_t width) {
    (void)row;
    return card_grey(column * 16 / width);
}

/* Four fields of stripes 1, 2, 4 and 8 pixels wide, and of squares as large. */
static uint32_t stripe(uint32_t column, uint32_t row, uint32_t width) {
    (void)row;
    return (column >> column * 4 / width & 1) * WHITE;
}

static uint32_t square(uint32_t column, uint32_t row, uint32_t width) {
    return ((column ^ row) >> column * 4 / width & 1) * WHITE;
}

/* Rows of a pattern, inside the gap. */
static void band(struct picture *p, uint32_t from, uint32_t to, uint32_t (*colour)(uint32_t column, uint32_t row, uint32_t width)) {
    for (uint32_t row = from; row < to; row++)
        for (uint32_t column = GAP; column + GAP < p->width; column++)
            dot(p, column, row, colour(column - GAP, row - from, p->width - 2 * GAP));
}

/* Returns the row behind them. */
static uint32_t bands(struct picture *p, const struct card_mode *mode) {
    uint32_t upper_end = p->height / 6, end = p->height / 4;
    bool mono = mode->bits == 1;
    band(p, GAP, upper_end, !mode->stn ? bar : mono ? stripe : step);
    band(p, upper_end, end, !mode->stn ? grey : mono ? square : step);
    return end;
}

/* ---- the polar diagram: a boat's speed by the angle to the wind, which blows from above */

/* The sine of 0, 10, .. 90 degrees, in thousandths. */
static const long sines[10] = {0, 174, 342, 500, 643, 766, 866, 940, 985, 1000};

/* A boat's speed at 0, 10, .. 180 degrees to the wind, in thousandths of the best. */
static const long speeds[19] = {0,   60,  180, 420, 620, 720, 790, 840, 880, 920,
                                960, 990, 1000, 960, 880, 780, 690, 640, 620};

struct polar {
    long x, y, radius;
};

/* The point at so many tens of degrees from the wind, to port where `side` is -1, and so many thousandths of the radius out. */
static void place(const struct polar *o, int tens, int side, long out, long *x, long *y) {
    long across = tens <= 9 ? sines[tens] : sines[18 - tens], up = tens <= 9 ? sines[9 - tens] : -sines[tens - 9];
    *x = o->x + side * (o->radius * out * across + 500000) / 1000000;
    *y = o->y - o->radius * out * up / 1000000;
}

static void ring(struct picture *p, const struct polar *o, long radius, uint32_t colour) {
    for (long y = -radius; y <= radius; y++)
        for (long x = -radius; x <= radius; x++) {
            long square = x * x + y * y;
            if (square <= radius * radius + radius && square > radius * radius - radius)
                dot(p, o->x + x, o->y + y, colour);
        }
}

static void curve(struct picture *p, const struct polar *o, int side, uint32_t colour) {
    long x = o->x, y = o->y, next_x, next_y;
    for (int tens = 1; tens <= 18; tens++) {
        place(o, tens, side, speeds[tens], &next_x, &next_y);
        line(p, x, y, next_x, next_y, colour);
        x = next_x, y = next_y;
    }
}

static void polar(struct picture *p, uint32_t from, const struct inks *inks) {
    long wide = (long)p->width, high = (long)p->height - from, x, y;
    struct polar o = {wide / 2, from + high / 2, (wide < high ? wide : high) / 2 - GAP - 1};
    for (int k = 1; k <= 4; k++)
        ring(p, &o, o.radius * k / 4, inks->rings);
    for (int tens = 0; tens <= 18; tens += 3)
        for (int side = -1; side <= 1; side += 2) {
            place(&o, tens, side, 1000, &x, &y);
            line(p, o.x, o.y, x, y, tens == 0 ? inks->wind : inks->rings);
        }
    curve(p, &o, -1, inks->port);
    curve(p, &o, 1, inks->starboard);
}

/* ---- the size in figures, as "240x320x16" */

/* 5 by 7 dots a figure, a row a byte, the leftmost dot in bit 4; the eleventh is the x. */
static const uint8_t figures[11][7] = {
    {14, 17, 19, 21, 25, 17, 14}, {4, 12, 4, 4, 4, 4, 14},    {14, 17, 1, 2, 4, 8, 31},     {31, 2, 4, 2, 1, 17, 14},
    {2, 6, 10, 18, 31, 2, 2},     {31, 16, 30, 1, 1, 17, 14}, {6, 8, 16, 30, 17, 17, 14},   {31, 1, 2, 4, 8, 8, 8},
    {14, 17, 17, 14, 17, 17, 14}, {14, 17, 17, 15, 1, 2, 12}, {0, 0, 17, 10, 4, 10, 17},
};

static long figure(struct picture *p, long x, long y, int which) {
    for (int row = 0; row < 7; row++)
        for (int column = 0; column < 5; column++)
            if (figures[which][row] >> (4 - column) & 1)
                dot(p, x + column, y + row, WHITE);
    return x + 6;
}

static long number(struct picture *p, long x, long y, uint32_t n) {
    if (n >= 10)
        x = number(p, x, y, n / 10);
    return figure(p, x, y, n % 10);
}

static void caption(struct picture *p, long y, uint32_t bits) {
    long x = number(p, GAP, y, p->width);
    x = number(p, figure(p, x, y, 10), y, p->height);
    number(p, figure(p, x, y, 10), y, bits);
}

void card_draw(struct picture *p, const struct card_mode *mode) {
    struct inks inks = inks_for(mode);
    uint32_t end;
    for (size_t i = 0; i < (size_t)p->width * p->height; i++)
        p->colours[i] = inks.sea;
    end = bands(p, mode);
    caption(p, end + GAP, mode->bits);
    polar(p, end, &inks);
    border(p);
}
