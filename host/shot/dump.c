/* Dumps as bytes, low byte first: nine words, HCLK and window start, 4 bytes each; 256 palette entries of 2 bytes; then the video words
 * of 4 (docs/REFERENCE.md, §11.1). */
#include "dump.h"
#include <stdlib.h>
#include "outputs.h"

enum { PALETTE_AT = (LCD_REGISTERS + 2) * 4, HEAD = PALETTE_AT + LCD_PALETTE_ENTRIES * 2 };

static uint32_t word_at(const uint8_t *p) { return p[0] | p[1] << 8 | p[2] << 16 | (uint32_t)p[3] << 24; }

static void put_word(uint8_t *p, uint32_t word) {
    for (int i = 0; i < 4; i++)
        p[i] = word >> 8 * i & 0xff;
}

bool dump_take_memory(struct dump *d, const struct bytes *b) {
    if (b->length % 4)
        return false;
    d->video_len = b->length / 4;
    d->video = grow(NULL, b->length);
    for (size_t i = 0; i < d->video_len; i++)
        d->video[i] = word_at(b->at + 4 * i);
    return true;
}

bool dump_take_palette(struct dump *d, const struct bytes *b, size_t step) {
    if (b->length != step * LCD_PALETTE_ENTRIES)
        return false;
    for (size_t i = 0; i < LCD_PALETTE_ENTRIES; i++)
        d->palette[i] = b->at[step * i] | b->at[step * i + 1] << 8;
    return true;
}

static bool take_tail(struct dump *d, const struct bytes *b) {
    struct bytes palette = {b->at + PALETTE_AT, HEAD - PALETTE_AT}, memory = {b->at + HEAD, b->length - HEAD};
    return dump_take_palette(d, &palette, 2) && dump_take_memory(d, &memory);
}

uint32_t dump_take(struct dump *d, const struct bytes *b) {
    d->video = NULL;
    d->source = FROM_FILE;
    d->no_palette = d->no_hclk = false;
    if (b->length < HEAD || !take_tail(d, b))
        return 14;
    for (int i = 0; i < LCD_REGISTERS; i++)
        d->words[i] = word_at(b->at + 4 * i);
    d->hclk = word_at(b->at + 4 * LCD_REGISTERS);
    d->window_start = word_at(b->at + 4 * LCD_REGISTERS + 4);
    return 0;
}

static void put_head(const struct dump *d, uint8_t *p) {
    for (int i = 0; i < LCD_REGISTERS; i++)
        put_word(p + 4 * i, d->words[i]);
    put_word(p + 4 * LCD_REGISTERS, d->hclk);
    put_word(p + 4 * LCD_REGISTERS + 4, d->window_start);
    for (int i = 0; i < LCD_PALETTE_ENTRIES; i++) {
        p[PALETTE_AT + 2 * i] = d->palette[i] & 0xff;
        p[PALETTE_AT + 2 * i + 1] = d->palette[i] >> 8;
    }
}

void dump_write(const struct dump *d, const char *path) {
    struct bytes b = {NULL, HEAD + 4 * d->video_len};
    b.at = grow(NULL, b.length);
    put_head(d, b.at);
    for (size_t i = 0; i < d->video_len; i++)
        put_word(b.at + HEAD + 4 * i, d->video[i]);
    output_write(path, &b);
    free(b.at);
}

void dump_free(struct dump *d) { free(d->video); }
