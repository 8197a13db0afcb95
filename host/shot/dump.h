/* A dump: the bench's input (docs/REFERENCE.md, §11.1), with a video memory of any length. */
#ifndef DUMP_H
#define DUMP_H

#include <stdbool.h>
#include <stddef.h>
#include <stdint.h>
#include "../lcd.h"
#include "files.h"

struct dump {
    uint32_t words[LCD_REGISTERS], hclk, window_start;
    uint16_t palette[LCD_PALETTE_ENTRIES];
    uint32_t *video;
    size_t video_len;
    enum { FROM_FILE, FROM_WORDS, WORDS_ALONE } source; /* a dump; words with a memory; words without one, so none is judged */
    bool no_palette, no_hclk;                           /* none was given with the words */
    bool one_frame; /* whether an STN panel is drawn as the bits of `frame`; else as the eye sees it */
    uint32_t frame;
    uint32_t frames; /* how many from `frame` on are written as an animation; 0 where none is asked for */
    uint32_t edition; /* the rule edition, 1 or 2, by which an STN panel's ticks and rate are told */
};

/* Takes a dump apart. Returns 0, or 14 if it has fewer than 556 bytes or its video memory is no multiple of 4 bytes. */
uint32_t dump_take(struct dump *d, const struct bytes *b);

/* Takes a memory of 4 bytes a word, low byte first. Returns false where its length is no multiple of 4. */
bool dump_take_memory(struct dump *d, const struct bytes *b);

/* Takes 256 palette entries, low byte first, each in the first two of `step` bytes. Returns false where the length is another. */
bool dump_take_palette(struct dump *d, const struct bytes *b, size_t step);

void dump_write(const struct dump *d, const char *path);

void dump_free(struct dump *d);

#endif
