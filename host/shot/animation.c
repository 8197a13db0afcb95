/* Animated PNGs: the chunks of PNG, and acTL, fcTL and fdAT beside them. libpng knows nothing of these, but writes any chunk with its
 * length and checksum. It compresses each frame as a PNG of its own, from which the data is taken. */
#include "animation.h"
#include <png.h>
#include <stdlib.h>
#include <string.h>
#include "outputs.h"

/* ---- how long a frame is shown */

/* The convergents of a continued fraction come nearer and nearer, the last is the number itself; the last one that fits is taken. */
struct delay animation_delay(const struct dump *d) {
    uint64_t counts[3] = {0}, ticks, hclk = d->hclk, over = 1, under = 0, last_over = 0, last_under = 1;
    if (!hclk)
        return (struct delay){1, 60};
    lcd_counts(d->words, LCD_REGISTERS, d->edition, d->hclk, counts, 3);
    ticks = counts[1];
    while (hclk) {
        uint64_t whole = ticks / hclk, rest = ticks % hclk;
        uint64_t next_over = whole * over + last_over, next_under = whole * under + last_under;
        if (next_over > UINT16_MAX || next_under > UINT16_MAX)
            break;
        last_over = over, last_under = under;
        over = next_over, under = next_under;
        ticks = hclk, hclk = rest;
    }
    if (!under)
        return (struct delay){UINT16_MAX, 1};
    return over ? (struct delay){over, under} : (struct delay){1, UINT16_MAX};
}

/* ---- libpng, to memory */

struct sink {
    struct bytes bytes;
    size_t room;
};

static void append(png_structp png, png_bytep from, size_t length) {
    struct sink *s = png_get_io_ptr(png);
    if (s->bytes.length + length > s->room)
        s->bytes.at = grow(s->bytes.at, s->room = 2 * (s->bytes.length + length));
    memcpy(s->bytes.at + s->bytes.length, from, length);
    s->bytes.length += length;
}

static void flush(png_structp png) { (void)png; }

static void give_up(png_structp png, png_const_charp message) { fail(png_get_error_ptr(png), message); }

static void pass_warning(png_structp png, png_const_charp message) { (void)png, (void)message; }

/* A writer of PNGs of 1 bit a pixel, and their signature and head. */
struct writer {
    png_structp png;
    png_infop info;
};

static struct writer begin(struct sink *to, uint32_t width, uint32_t height, const char *path) {
    struct writer w = {.png = png_create_write_struct(PNG_LIBPNG_VER_STRING, (char *)path, give_up, pass_warning)};
    w.info = w.png ? png_create_info_struct(w.png) : NULL;
    if (!w.info)
        fail("memory", "none left");
    png_set_write_fn(w.png, to, append, flush);
    png_set_IHDR(w.png, w.info, width, height, 1, PNG_COLOR_TYPE_GRAY, PNG_INTERLACE_NONE, PNG_COMPRESSION_TYPE_BASE,
                 PNG_FILTER_TYPE_BASE);
    png_write_info(w.png, w.info);
    return w;
}

/* A frame as a PNG: the library's bytes are its rows as they are. */
static void write_frame(struct sink *to, uint32_t width, uint32_t height, const uint8_t *bits, const char *path) {
    struct writer w = begin(to, width, height, path);
    for (uint32_t row = 0; row < height; row++)
        png_write_row(w.png, bits + (size_t)row * (width / 8));
    png_write_end(w.png, NULL);
    png_destroy_write_struct(&w.png, &w.info);
}

/* ---- the animation's chunks */

struct animation {
    struct writer writer;
    uint32_t width, height, sequence; /* the number of the next chunk that has one */
    struct delay delay;
};

static void put_control(struct animation *a, uint32_t frames) {
    uint8_t body[8];
    png_save_uint_32(body, frames);
    png_save_uint_32(body + 4, 0); /* for ever */
    png_write_chunk(a->writer.png, (png_const_bytep)"acTL", body, sizeof body);
}

/* The frame covers the whole picture and replaces what was there. */
static void put_frame_control(struct animation *a) {
    uint8_t body[26] = {0};
    png_save_uint_32(body, a->sequence++);
    png_save_uint_32(body + 4, a->width);
    png_save_uint_32(body + 8, a->height);
    png_save_uint_16(body + 20, a->delay.over);
    png_save_uint_16(body + 22, a->delay.under);
    png_write_chunk(a->writer.png, (png_const_bytep)"fcTL", body, sizeof body);
}

static void put_data(struct animation *a, const uint8_t *data, uint32_t length, bool first_frame) {
    uint8_t number[4];
    if (first_frame) {
        png_write_chunk(a->writer.png, (png_const_bytep)"IDAT", data, length);
        return;
    }
    png_save_uint_32(number, a->sequence++);
    png_write_chunk_start(a->writer.png, (png_const_bytep)"fdAT", length + 4);
    png_write_chunk_data(a->writer.png, number, 4);
    png_write_chunk_data(a->writer.png, data, length);
    png_write_chunk_end(a->writer.png);
}

/* Takes the data out of a frame's PNG: behind the signature each chunk is its length, its name, so many bytes and a checksum. */
static void put_frame(struct animation *a, const struct bytes *png, bool first_frame) {
    put_frame_control(a);
    for (size_t at = 8; at < png->length;) {
        uint32_t length = png_get_uint_32(png->at + at);
        if (!memcmp(png->at + at + 4, "IDAT", 4))
            put_data(a, png->at + at + 8, length, first_frame);
        at += length + (size_t)12;
    }
}

void animation_write(const struct dump *d, uint32_t first, uint32_t count, const char *path) {
    uint32_t sizes[LCD_SIZES] = {0};
    struct sink whole = {{NULL, 0}, 0}, frame = {{NULL, 0}, 0};
    struct animation a = {.delay = animation_delay(d)};
    size_t length;
    uint8_t *bits;
    lcd_read_sizes(d->words, LCD_REGISTERS, sizes, LCD_SIZES);
    a.width = sizes[LCD_SIZE_WIDTH], a.height = sizes[LCD_SIZE_HEIGHT];
    length = (size_t)a.width / 8 * a.height;
    bits = grow(NULL, length);
    a.writer = begin(&whole, a.width, a.height, path);
    put_control(&a, count);
    for (uint32_t i = 0; i < count; i++) {
        lcd_draw_stn(d->words, LCD_REGISTERS, d->window_start, d->video, d->video_len, first + i, bits, length);
        frame.bytes.length = 0;
        write_frame(&frame, a.width, a.height, bits, path);
        put_frame(&a, &frame.bytes, i == 0);
    }
    png_write_chunk(a.writer.png, (png_const_bytep)"IEND", NULL, 0);
    png_destroy_write_struct(&a.writer.png, &a.writer.info);
    output_write(path, &whole.bytes);
    free(bits);
    free(frame.bytes.at);
    free(whole.bytes.at);
}
