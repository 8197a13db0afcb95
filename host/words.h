/* The nine control words of a case: well-formed ones of TFT and STN panels, of all modes and sizes, and faults for each number of
 * refusal. */
#ifndef WORDS_H
#define WORDS_H

#include <stdbool.h>
#include <stddef.h>
#include <stdint.h>

/* A bank in half-words: LCDBASEU has 21 bits. */
enum { BANK = 1 << 21 };

/* How large a panel is in its rows, columns and porches: small, mostly small, any, and as large as can be. */
enum size { SMALL, MOSTLY_SMALL, LARGE, LARGEST };

/* Mostly small; now and then one of the larger. */
enum size some_size(void);

/* PNRMODE of the two kinds of panel. */
enum panel { ON_STN = 2, ON_TFT = 3 };

/* Words that no call for such a panel refuses; the fields that don't matter for this are any, and the read-only ones too. */
void make_words(uint32_t *words, enum panel panel, enum size size);

/* Any fields, and no reserved bit. */
void make_any_words(uint32_t *words);

/* A fault for each of 1 to 7, 9 and 17, most of them alone, or damage anywhere. */
void damage(uint32_t *words);

void set_reserved_bit(uint32_t *words);

void flip_bit(uint32_t *entries, size_t n);

/* A field by its name in lcd.h or model.h. */
uint64_t get(const uint32_t *words, int name);

/* Sets a field to a number, cut to the field's width. */
void put(uint32_t *words, int name, uint64_t number);

bool is_on_stn(const uint32_t *words);

/* Columns of the panel: HOZVAL + 1, on STN eight times as many. */
uint64_t columns_of(const uint32_t *words);

/* Sets LCDBASEL as 6 wants it. */
void fit_lcdbasel(uint32_t *words);

/* Half-words from the first row's start to the last row's end, OFFSIZE after it left out. */
uint64_t extent(const uint32_t *words);

uint64_t smaller(uint64_t a, uint64_t b);

#endif
