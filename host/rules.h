/* The rules that the model (host/model.c) judges and answers by: words, memory, colours and clocks (docs/REFERENCE.md, §1 to §6).
 * Written from the rules alone, not from the crates: each pixel by its address and bits, each clock by the formula from its position,
 * and all arithmetic in 64 bits. */
#ifndef RULES_H
#define RULES_H

#include <stdbool.h>
#include "model.h"

/* The nine words in order (§1.1). */
enum { LCDCON1, LCDCON2, LCDCON3, LCDCON4, LCDCON5, LCDSADDR1, LCDSADDR2, LCDSADDR3, TPAL };

/* A field's number: its word shifted down and masked (§1.2). */
static inline uint64_t field(const uint32_t *words, int name) {
    return (words[model_fields[name].word] >> model_fields[name].low) & model_limit(name);
}

/* Whether the words are an STN panel's (§2.3). The rules of TFT are for all others. */
bool is_stn(const uint32_t *words);

/* Whether a panel has a field: one of TFT lacks three of them, one of STN five (§1.7). */
bool has_field(const uint32_t *words, int name);

/* In pixels (§2.1, §2.3). */
uint64_t width(const uint32_t *words);
uint64_t height(const uint32_t *words);

/* Stored bits of a pixel (§2.2, §2.3); 0 where BPPMODE is no mode of the panel. */
uint64_t stored_bits(const uint32_t *words);

/* The lent words, and the byte address of the first: the window start (§3.1). */
struct memory {
    uint64_t start;
    const uint32_t *words;
    uint64_t len;
};

/* Whether the four bytes of the word at a byte address are all lent; addresses do not wrap. */
bool is_lent_word(const struct memory *memory, uint64_t address);

/* The byte address of a row (§3.2). */
uint64_t row_start(const uint32_t *words, uint64_t row);

/* The colour of a pixel, before INVVD (§5.5). */
uint32_t colour(const uint32_t *words, const struct memory *memory, const uint16_t *palette, uint64_t row, uint64_t column);

/* Whether a pixel of an STN panel is lit in a frame (§5.9). */
bool is_lit(const uint32_t *words, const struct memory *memory, uint64_t frame, uint64_t row, uint64_t column);

/* In HCLK ticks (§6.3, §6.8). */
uint64_t clock_ticks(const uint32_t *words);

/* In clocks (§6.1), in lines (§6.2), in clocks and in HCLK ticks (§6.3), in millihertz (§6.4); all of an STN panel by §6.8, where ticks
 * and rate follow the rule edition, 1 or 2. */
uint64_t line_length(const uint32_t *words);
uint64_t frame_height(const uint32_t *words);
uint64_t frame_clocks(const uint32_t *words);
uint64_t frame_ticks(const uint32_t *words, uint32_t edition);
uint64_t rate(const uint32_t *words, uint32_t edition, uint64_t hclk);

/* What one clock shows before the INV bits invert it: which signals are active, and the pixel where VDEN is. */
struct clock {
    bool vsync, hsync, vden;
    uint64_t row, column;
    uint32_t colour;
};

/* The clock at a position of a TFT panel's frame (§6.5, §6.6), with no colour yet. */
struct clock clock_at(const uint32_t *words, uint64_t position);

#endif
