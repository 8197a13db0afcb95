/* Speed of picture and row drawing: the library beside a plain C loop for each mode, in one run of one program; of STN pictures in
 * the same way; and of the scanout: runs and steps beside a plain C scan, and single pixels.
 * Both draw the same frame buffer into buffers of their own; the results are compared first. For each mode the two are timed in turn,
 * many rounds, and the fastest round of each counts: this machine's best time, not a promise.
 * The C loops get their numbers ready made and check nothing; the library's calls judge words, memory, palette and picture. */
#define _POSIX_C_SOURCE 199309L
#include <stdint.h>
#include <stdio.h>
#include <stdlib.h>
#include <string.h>
#include <time.h>
#include "lcd.h"

enum { ROUNDS = 400, START = 0x30000000, TPALEN = 1 << 24, TPALVAL = 0x123456 };

static uint16_t palette[256];
static uint32_t *video, *ours, *theirs;

/* ---- the plain loops: n pixels from a row's words on */

static inline uint32_t swap_bytes(uint32_t x) { return __builtin_bswap32(x); }
static inline uint32_t swap_halves(uint32_t x) { return x << 16 | x >> 16; }
static inline uint32_t keep(uint32_t x) { return x; }

static inline uint32_t c565(uint32_t v) { return (v & 0xf800) << 8 | (v & 0x7e0) << 5 | (v & 0x1f) << 3; }
static inline uint32_t c5551(uint32_t v) {
    return (v & 0xf800) << 8 | (v & 0x7c0) << 5 | (v & 0x3e) << 2 | (v & 1) * 0x40404;
}

#define INDEXED(name, bits, order, colour)                                                                       \
    static void name(const uint32_t *restrict in, const uint16_t *restrict pal, size_t n, uint32_t *restrict out) { \
        for (size_t i = 0; i < n / (32 / bits); i++) {                                                           \
            uint32_t x = order(in[i]);                                                                           \
            for (unsigned k = 0; k < 32 / bits; k++)                                                             \
                out[i * (32 / bits) + k] = colour(pal[x >> (32 - bits * (k + 1)) & ((1u << bits) - 1)]);         \
        }                                                                                                        \
    }                                                                                                            \
    static uint32_t name##_pixel(const uint32_t *in, const uint16_t *pal, size_t c) {                            \
        uint32_t x = order(in[c / (32 / bits)]);                                                                 \
        return colour(pal[x >> (32 - bits * (c % (32 / bits) + 1)) & ((1u << bits) - 1)]);                       \
    }
#define DIRECT16(name, order, colour)                                                                            \
    static void name(const uint32_t *restrict in, const uint16_t *restrict pal, size_t n, uint32_t *restrict out) { \
        (void)pal;                                                                                               \
        for (size_t i = 0; i < n / 2; i++) {                                                                     \
            uint32_t x = order(in[i]);                                                                           \
            out[2 * i] = colour(x >> 16);                                                                        \
            out[2 * i + 1] = colour(x & 0xffff);                                                                 \
        }                                                                                                        \
    }                                                                                                            \
    static uint32_t name##_pixel(const uint32_t *in, const uint16_t *pal, size_t c) {                            \
        (void)pal;                                                                                               \
        return colour(order(in[c / 2]) >> (c % 2 ? 0 : 16) & 0xffff);                                            \
    }
#define DIRECT24(name, cut)                                                                                      \
    static void name(const uint32_t *restrict in, const uint16_t *restrict pal, size_t n, uint32_t *restrict out) { \
        (void)pal;                                                                                               \
        for (size_t i = 0; i < n; i++)                                                                           \
            out[i] = cut;                                                                                        \
    }                                                                                                            \
    static uint32_t name##_pixel(const uint32_t *in, const uint16_t *pal, size_t i) {                            \
        (void)pal;                                                                                               \
        return cut;                                                                                              \
    }

INDEXED(c1, 1, keep, c565)
INDEXED(c1s, 1, swap_bytes, c5551)
INDEXED(c2, 2, keep, c565)
INDEXED(c2s, 2, swap_bytes, c5551)
INDEXED(c4, 4, keep, c565)
INDEXED(c4s, 4, swap_bytes, c5551)
INDEXED(c8, 8, keep, c565)
INDEXED(c8s, 8, swap_bytes, c5551)
DIRECT16(c16, keep, c565)
DIRECT16(c16s, swap_halves, c565)
DIRECT16(c16i, keep, c5551)
DIRECT16(c16is, swap_halves, c5551)
DIRECT24(c24, in[i] & 0xffffff)
DIRECT24(c24b, in[i] >> 8)
DIRECT24(cfill, ((void)in, (void)i, TPALVAL))

/* ---- the modes */

struct mode {
    const char *name;
    unsigned bppmode, bits, lcdcon5, tpal;
    void (*row)(const uint32_t *, const uint16_t *, size_t, uint32_t *);
    uint32_t (*pixel)(const uint32_t *, const uint16_t *, size_t);
};

static const struct mode modes[] = {
    {"1 bit, 5:6:5", 8, 1, 0x800, 0, c1, c1_pixel},
    {"1 bit, 5:5:5:1, BSWP", 8, 1, 0x2, 0, c1s, c1s_pixel},
    {"2 bits, 5:6:5", 9, 2, 0x800, 0, c2, c2_pixel},
    {"2 bits, 5:5:5:1, BSWP", 9, 2, 0x2, 0, c2s, c2s_pixel},
    {"4 bits, 5:6:5", 10, 4, 0x800, 0, c4, c4_pixel},
    {"4 bits, 5:5:5:1, BSWP", 10, 4, 0x2, 0, c4s, c4s_pixel},
    {"8 bits, 5:6:5", 11, 8, 0x800, 0, c8, c8_pixel},
    {"8 bits, 5:5:5:1, BSWP", 11, 8, 0x2, 0, c8s, c8s_pixel},
    {"16 bits, 5:6:5", 12, 16, 0x800, 0, c16, c16_pixel},
    {"16 bits, 5:6:5, HWSWP", 12, 16, 0x801, 0, c16s, c16s_pixel},
    {"16 bits, 5:5:5:1", 12, 16, 0, 0, c16i, c16i_pixel},
    {"16 bits, 5:5:5:1, HWSWP", 12, 16, 0x1, 0, c16is, c16is_pixel},
    {"24 bits", 13, 32, 0, 0, c24, c24_pixel},
    {"24 bits, BPP24BL", 13, 32, 0x1000, 0, c24b, c24b_pixel},
    {"8 bits, TPALEN", 11, 8, 0x800, TPALEN | TPALVAL, cfill, cfill_pixel},
};

struct panel {
    unsigned width, height;
    uint32_t words[9];
    size_t stride; /* words from row to row */
    const struct mode *mode;
    const struct stn_mode *stn; /* or one of these */
};

static void describe(struct panel *p, const struct mode *m, unsigned width, unsigned height) {
    unsigned pagewidth = width * m->bits / 16;
    uint32_t words[9] = {0x61 | m->bppmode << 1, (height - 1) << 14, (width - 1) << 8, 0, m->lcdcon5, 0x18000000,
                         pagewidth * height, pagewidth, m->tpal};
    memcpy(p->words, words, sizeof words);
    p->width = width, p->height = height, p->stride = pagewidth / 2, p->mode = m;
}

/* ---- what is timed */

static void refuse(uint32_t n) {
    if (n) {
        printf("refused %u\n", n);
        exit(1);
    }
}

static void our_picture(const struct panel *p) {
    refuse(lcd_draw_picture(p->words, 9, START, video, p->stride * p->height, palette, 256, ours, p->width * p->height));
}

static void our_rows(const struct panel *p) {
    for (unsigned r = 0; r < p->height; r++)
        refuse(lcd_draw_row(p->words, 9, START, video, p->stride * p->height, palette, 256, r, ours + r * p->width, p->width));
}

static void their_picture(const struct panel *p) {
    for (unsigned r = 0; r < p->height; r++)
        p->mode->row(video + r * p->stride, palette, p->width, theirs + r * p->width);
}

static double seconds(void) {
    struct timespec t;
    clock_gettime(CLOCK_MONOTONIC, &t);
    return t.tv_sec + t.tv_nsec * 1e-9;
}

static double once(void (*draw)(const struct panel *), const struct panel *p) {
    double from = seconds();
    draw(p);
    return seconds() - from;
}

static void check_equal(const struct panel *p, const char *what) {
    if (memcmp(ours, theirs, sizeof *ours * p->width * p->height)) {
        printf("%s, %s: the pictures differ\n", p->mode->name, what);
        exit(1);
    }
}

static void keep_fastest(double *best, const double *t, int n) {
    for (int k = 0; k < n; k++)
        if (t[k] < best[k])
            best[k] = t[k];
}

static void measure(const struct panel *p, double best[3]) {
    memset(ours, 0, sizeof *ours * p->width * p->height);
    their_picture(p), our_picture(p), check_equal(p, "picture");
    memset(ours, 0, sizeof *ours * p->width * p->height);
    our_rows(p), check_equal(p, "rows");
    best[0] = best[1] = best[2] = 1e9;
    for (int i = 0; i < ROUNDS; i++) {
        double t[3] = {once(their_picture, p), once(our_picture, p), once(our_rows, p)};
        keep_fastest(best, t, 3);
    }
    for (int k = 0; k < 3; k++)
        best[k] *= 1e9 / (p->width * p->height);
}

static void table(unsigned width, unsigned height) {
    size_t n = sizeof modes / sizeof *modes;
    double sum[2] = {0, 0};
    printf("\n%u by %u, ns a pixel\n\n| mode | C | picture | ratio | rows | ratio |\n|---|---|---|---|---|---|\n", width, height);
    for (size_t i = 0; i < n; i++) {
        struct panel p;
        double best[3];
        describe(&p, &modes[i], width, height);
        measure(&p, best);
        sum[0] += best[1] / best[0], sum[1] += best[2] / best[0];
        printf("| %s | %.3f | %.3f | %.2f | %.3f | %.2f |\n", modes[i].name, best[0], best[1], best[1] / best[0], best[2],
               best[2] / best[0]);
    }
    printf("| average | | | %.2f | | %.2f |\n", sum[0] / n, sum[1] / n);
}

/* ---- STN pictures: the n words of a row to bytes of eight pixels, the formula (docs/REFERENCE.md, §5.9) worked out for each grey
 * one. `sum` is the row and the frame modulo 420, which every d divides: so the division of 32 bits does, which is the faster one */

static const struct {
    uint32_t n, d;
} duties[16] = {{0, 1}, {1, 7}, {1, 5}, {1, 4}, {1, 3}, {2, 5}, {3, 7}, {1, 2},
                {4, 7}, {3, 5}, {2, 3}, {5, 7}, {3, 4}, {4, 5}, {6, 7}, {1, 1}};

static inline uint32_t lit(uint32_t sum, uint32_t level) { return sum * duties[level].n % duties[level].d < duties[level].n; }

#define GREYS(name, order)                                                                                       \
    static void name(const uint32_t *restrict in, size_t n, uint32_t sum, uint8_t *restrict out) {               \
        for (size_t i = 0; i < n; i++) {                                                                         \
            uint32_t x = order(in[i]);                                                                           \
            uint8_t byte = 0;                                                                                    \
            for (unsigned k = 0; k < 8; k++)                                                                     \
                byte = byte << 1 | lit(sum + 8 * i + k, x >> (28 - 4 * k) & 15);                                 \
            out[i] = byte;                                                                                       \
        }                                                                                                        \
    }
#define MONO(name, order)                                                                                        \
    static void name(const uint32_t *restrict in, size_t n, uint32_t sum, uint8_t *restrict out) {               \
        (void)sum;                                                                                               \
        for (size_t i = 0; i < n; i++) {                                                                         \
            uint32_t x = order(in[i]);                                                                           \
            for (unsigned b = 0; b < 4; b++) {                                                                   \
                uint8_t byte = 0;                                                                                \
                for (unsigned k = 0; k < 8; k++)                                                                 \
                    byte = byte << 1 | (x >> (31 - 8 * b - k) & 1);                                              \
                out[4 * i + b] = byte;                                                                           \
            }                                                                                                    \
        }                                                                                                        \
    }

MONO(mono, keep)
MONO(monos, swap_bytes)
GREYS(greys, keep)
GREYS(greyss, swap_bytes)

struct stn_mode {
    const char *name;
    unsigned bppmode, bits, lcdcon5;
    void (*row)(const uint32_t *, size_t, uint32_t, uint8_t *);
};

static const struct stn_mode stn_modes[] = {
    {"mono", 0, 1, 0, mono},
    {"mono, BSWP", 0, 1, 0x2, monos},
    {"16 greys", 2, 4, 0, greys},
    {"16 greys, BSWP", 2, 4, 0x2, greyss},
};

static uint32_t frame_number;

static void describe_stn(struct panel *p, const struct stn_mode *m, unsigned width, unsigned height) {
    unsigned pagewidth = width * m->bits / 16;
    uint32_t words[9] = {0x241 | m->bppmode << 1, (height - 1) << 14, (width / 8 - 1) << 8, 0, m->lcdcon5, 0x18000000,
                         pagewidth * height, pagewidth, 0};
    memcpy(p->words, words, sizeof words);
    p->width = width, p->height = height, p->stride = pagewidth / 2, p->stn = m;
}

static void our_stn(const struct panel *p) {
    refuse(lcd_draw_stn(p->words, 9, START, video, p->stride * p->height, frame_number, (uint8_t *)ours, p->width * p->height / 8));
}

static void their_stn(const struct panel *p) {
    for (unsigned r = 0; r < p->height; r++)
        p->stn->row(video + r * p->stride, p->stride, frame_number % 420 + r, (uint8_t *)theirs + r * p->width / 8);
}

/* Every round draws another frame, to the last one that there is. */
static void measure_stn(const struct panel *p, double best[2]) {
    best[0] = best[1] = 1e9;
    for (int i = 0; i < ROUNDS; i++) {
        frame_number = UINT32_MAX - ROUNDS + 1 + i;
        memset(ours, 0, p->width * p->height / 8);
        double t[2] = {once(their_stn, p), once(our_stn, p)};
        if (memcmp(ours, theirs, p->width * p->height / 8)) {
            printf("%s, frame %u: the pictures differ\n", p->stn->name, frame_number);
            exit(1);
        }
        keep_fastest(best, t, 2);
    }
}

static void stn_row(const struct stn_mode *m, unsigned width, unsigned height) {
    struct panel p;
    double best[2], each = 1e9 / (width * height);
    describe_stn(&p, m, width, height);
    measure_stn(&p, best);
    printf("| %s | %.3f | %.3f | %.2f |\n", m->name, best[0] * each, best[1] * each, best[1] / best[0]);
}

static void stn_table(unsigned width, unsigned height) {
    printf("\n%u by %u, STN, ns a pixel\n\n| mode | C | picture | ratio |\n|---|---|---|---|\n", width, height);
    for (size_t i = 0; i < sizeof stn_modes / sizeof *stn_modes; i++)
        stn_row(&stn_modes[i], width, height);
}

/* ---- the scanout, with the porches of T8 (docs/REFERENCE.md, §13.1) */

enum { HSPW = 9, HBPD = 19, HFPD = 9, VSPW = 1, VBPD = 1, VFPD = 1, CLKVAL = 4, SLOW_ROUNDS = 40 };
enum { CLOCKS_BEFORE = HSPW + 1 + HBPD + 1, CLOCKS_AFTER = HFPD + 1, LINES_BEFORE = VSPW + 1 + VBPD + 1, LINES_AFTER = VFPD + 1 };

static uint32_t scan[LCD_SCAN_ENTRIES], levels[LCD_CLOCK_ENTRIES], taken;

static unsigned line_clocks(const struct panel *p) { return CLOCKS_BEFORE + p->width + CLOCKS_AFTER; }
static unsigned frame_lines(const struct panel *p) { return LINES_BEFORE + p->height + LINES_AFTER; }
static unsigned frame_clocks(const struct panel *p) { return frame_lines(p) * line_clocks(p); }

/* ---- the plain scan: two counters, no check; not inlined, since the library's calls are not */

static struct {
    unsigned line, clock;
    uint32_t vsync, hsync, vden, vd;
} plain;

static void plain_advance(const struct panel *p, unsigned clocks) {
    plain.clock += clocks;
    if (plain.clock < line_clocks(p))
        return;
    plain.clock = 0;
    if (++plain.line == frame_lines(p))
        plain.line = 0;
}

__attribute__((noinline)) static void plain_step(const struct panel *p) {
    unsigned row = plain.line - LINES_BEFORE, column = plain.clock - CLOCKS_BEFORE;
    plain.vsync = plain.line < VSPW + 1;
    plain.hsync = plain.clock < HSPW + 1;
    plain.vden = row < p->height && column < p->width;
    plain.vd = plain.vden ? p->mode->pixel(video + row * p->stride, palette, column) : 0;
    plain_advance(p, 1);
}

/* The active clocks of one line's stretch. */
static void plain_stretch(const struct panel *p, unsigned row, unsigned from, unsigned to) {
    const uint32_t *in = video + row * p->stride;
    uint32_t *out = theirs + row * p->width;
    if (from == 0 && to == p->width)
        p->mode->row(in, palette, p->width, out);
    else
        for (unsigned c = from; c < to; c++)
            out[c] = p->mode->pixel(in, palette, c);
}

__attribute__((noinline)) static void plain_run(const struct panel *p, uint64_t clocks) {
    uint64_t left = (uint64_t)(frame_lines(p) - plain.line) * line_clocks(p) - plain.clock;
    if (clocks > left)
        clocks = left;
    while (clocks) {
        unsigned row = plain.line - LINES_BEFORE, end = line_clocks(p);
        unsigned to = clocks < end - plain.clock ? plain.clock + clocks : end, taken = to - plain.clock;
        unsigned last = to < CLOCKS_BEFORE + p->width ? to : CLOCKS_BEFORE + p->width;
        unsigned first = plain.clock > CLOCKS_BEFORE ? plain.clock : CLOCKS_BEFORE;
        if (row < p->height && first < last)
            plain_stretch(p, row, first - CLOCKS_BEFORE, last - CLOCKS_BEFORE);
        plain_advance(p, taken);
        clocks -= taken;
    }
}

static void start(struct panel *p) {
    p->words[0] |= CLKVAL << 8;
    p->words[1] |= (uint32_t)VBPD << 24 | VFPD << 6 | VSPW;
    p->words[2] |= HBPD << 19 | HFPD;
    p->words[3] = HSPW;
    refuse(lcd_start(p->words, 9, START, video, p->stride * p->height, scan, LCD_SCAN_ENTRIES));
    memset(&plain, 0, sizeof plain);
}

/* ---- what both do: a run, a step, a pixel */

static void run(const struct panel *p, uint64_t clocks) {
    refuse(lcd_run(scan, LCD_SCAN_ENTRIES, video, p->stride * p->height, palette, 256, clocks, ours, p->width * p->height, &taken,
                   1));
}

static void step(const struct panel *p) {
    refuse(lcd_step(scan, LCD_SCAN_ENTRIES, video, p->stride * p->height, palette, 256, levels, LCD_CLOCK_ENTRIES));
}

typedef void runner(const struct panel *, uint64_t);
typedef void stepper(const struct panel *);

static void runs(const struct panel *p, runner *run_by, unsigned clocks) {
    for (unsigned i = 0; i < frame_clocks(p); i += clocks)
        run_by(p, clocks);
}

static void frame_run(const struct panel *p) { runs(p, run, frame_clocks(p)); }
static void line_runs(const struct panel *p) { runs(p, run, line_clocks(p)); }
static void runs_of_1(const struct panel *p) { runs(p, run, 1); }
static void plain_frame_run(const struct panel *p) { runs(p, plain_run, frame_clocks(p)); }
static void plain_line_runs(const struct panel *p) { runs(p, plain_run, line_clocks(p)); }
static void plain_runs_of_1(const struct panel *p) { runs(p, plain_run, 1); }

static void our_pixels(const struct panel *p) {
    for (unsigned r = 0; r < p->height; r++)
        for (unsigned c = 0; c < p->width; c++)
            refuse(lcd_draw_pixel(p->words, 9, START, video, p->stride * p->height, palette, 256, r, c,
                                  ours + r * p->width + c, 1));
}

static void their_pixels(const struct panel *p) {
    for (unsigned r = 0; r < p->height; r++)
        for (unsigned c = 0; c < p->width; c++)
            theirs[r * p->width + c] = p->mode->pixel(video + r * p->stride, palette, c);
}

static double steps(const struct panel *p, stepper *step_by, unsigned n) {
    double from = seconds();
    while (n--)
        step_by(p);
    return seconds() - from;
}

/* A frame step by step: seconds over its active clocks and over its blank ones. */
static void frame_steps(const struct panel *p, stepper *step_by, double spent[2]) {
    spent[0] = 0;
    spent[1] = steps(p, step_by, LINES_BEFORE * line_clocks(p));
    for (unsigned r = 0; r < p->height; r++) {
        spent[1] += steps(p, step_by, CLOCKS_BEFORE);
        spent[0] += steps(p, step_by, p->width);
        spent[1] += steps(p, step_by, CLOCKS_AFTER);
    }
    spent[1] += steps(p, step_by, LINES_AFTER * line_clocks(p));
}

/* ---- that both do the same */

static void differ(const struct panel *p, const char *what) {
    printf("%s, %s: the two differ\n", p->mode->name, what);
    exit(1);
}

static void check_scan(const struct panel *p, stepper *our, stepper *their, const char *what) {
    memset(ours, 0, sizeof *ours * p->width * p->height);
    memset(theirs, 0xff, sizeof *theirs * p->width * p->height);
    our(p), their(p), check_equal(p, what);
    if (scan[LCD_POSITION] != plain.line * line_clocks(p) + plain.clock)
        differ(p, what);
}

static void check_steps(const struct panel *p) {
    for (unsigned i = 0; i < frame_clocks(p); i++) {
        step(p), plain_step(p);
        if (levels[LCD_VSYNC] != plain.vsync || levels[LCD_HSYNC] != plain.hsync || levels[LCD_VDEN] != plain.vden ||
            levels[LCD_VD] != plain.vd)
            differ(p, "steps");
    }
}

/* ---- the times: of each pair first the plain one's, then the library's */

static void least(double *best, double t) {
    if (t < *best)
        *best = t;
}

enum { FRAME, LINES, ONES, ACTIVE = ONES, BLANK, RUN_OF_1, PIXEL, PAIRS, SCANNED = 3 };

static void measure_pairs(const struct panel *p, double best[PAIRS][2]) {
    double pixels = p->width * p->height, clocks = frame_clocks(p);
    static stepper *const runs_by[2][2] = {{plain_frame_run, frame_run}, {plain_line_runs, line_runs}};
    static stepper *const calls_by[3][2] = {{plain_step, step}, {their_pixels, our_pixels}, {plain_runs_of_1, runs_of_1}};
    for (int i = 0; i < ROUNDS; i++)
        for (int k = 0; k < 2; k++) {
            least(&best[FRAME][k], once(runs_by[0][k], p) / pixels);
            least(&best[LINES][k], once(runs_by[1][k], p) / pixels);
        }
    for (int i = 0; i < SLOW_ROUNDS; i++)
        for (int k = 0; k < 2; k++) {
            double spent[2];
            frame_steps(p, calls_by[0][k], spent);
            least(&best[ACTIVE][k], spent[0] / pixels), least(&best[BLANK][k], spent[1] / (clocks - pixels));
            least(&best[PIXEL][k], once(calls_by[1][k], p) / pixels);
            least(&best[RUN_OF_1][k], once(calls_by[2][k], p) / clocks);
        }
}

static void measure_scan(const struct panel *p, double best[PAIRS][2]) {
    check_scan(p, frame_run, plain_frame_run, "a run of a frame");
    check_scan(p, line_runs, plain_line_runs, "runs of a line");
    check_scan(p, runs_of_1, plain_runs_of_1, "runs of one clock");
    check_scan(p, our_pixels, their_pixels, "pixels");
    check_steps(p);
    for (int k = 0; k < PAIRS; k++)
        best[k][0] = best[k][1] = 1e9;
    measure_pairs(p, best);
}

/* A table of some of the pairs, for the modes that were measured. */
static void print_pairs(const char *title, const char *head, const int *chosen, double t[][PAIRS][2], int from, int to) {
    printf("\n%s\n\n| mode |%s\n|---|", title, head);
    for (int k = from; k < to; k++)
        printf("---|---|---|");
    putchar('\n');
    for (int i = 0; i < SCANNED; i++) {
        printf("| %s |", modes[chosen[i]].name);
        for (int k = from; k < to; k++)
            printf(k < ONES ? " %.3f | %.3f | %.2f |" : " %.1f | %.1f | %.1f |", t[i][k][0] * 1e9, t[i][k][1] * 1e9,
                   t[i][k][1] / t[i][k][0]);
        putchar('\n');
    }
}

static void scan_tables(unsigned width, unsigned height) {
    static const int chosen[SCANNED] = {6, 8, 12}; /* of `modes`: 8, 16 and 24 bits */
    double t[SCANNED][PAIRS][2];
    char title[100];
    for (int i = 0; i < SCANNED; i++) {
        struct panel p;
        describe(&p, &modes[chosen[i]], width, height);
        start(&p);
        measure_scan(&p, t[i]);
    }
    snprintf(title, sizeof title, "%u by %u, runs: ns a pixel", width, height);
    print_pairs(title, " a frame, C | library | ratio | a line, C | library | ratio |", chosen, t, FRAME, ONES);
    snprintf(title, sizeof title, "%u by %u, single clocks and pixels: ns a call", width, height);
    print_pairs(title, " active step, C | library | ratio | blank step, C | library | ratio | run of 1 clock, C | library | ratio |"
                       " pixel, C | library | ratio |", chosen, t, ONES, PAIRS);
}

int main(void) {
    enum { MOST = 640 * 480 };
    video = malloc(MOST * sizeof *video), ours = malloc(MOST * sizeof *ours), theirs = malloc(MOST * sizeof *theirs);
    if (!video || !ours || !theirs)
        return 1;
    uint32_t x = 1;
    for (int i = 0; i < MOST; i++)
        video[i] = x = x * 1664525 + 1013904223;
    for (int i = 0; i < 256; i++)
        palette[i] = (x = x * 1664525 + 1013904223) >> 16;
    table(320, 240);
    table(640, 480);
    stn_table(320, 240);
    stn_table(640, 480);
    scan_tables(320, 240);
    scan_tables(640, 480);
    return 0;
}
