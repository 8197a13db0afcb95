/* The arithmetic of a refusal: its condition (docs/REFERENCE.md, §9.1) with a dump's numbers put in. It explains what the library said,
 * and decides nothing. */
#ifndef NUMBERS_H
#define NUMBERS_H

#include <stdbool.h>
#include <stddef.h>
#include <stdint.h>
#include "asking.h"

enum { NUMBERS = 2048 };

/* What a refusal of 1 to 9 or 17 is about, in at most NUMBERS characters, of the words as they are judged; for 6 as they were
 * given. */
void refusal_numbers(const struct judging *j, const struct readings *given, uint32_t refusal, char *to);

/* The right side of 6: where the picture of these fields ends, in half-words of the bank. */
uint32_t picture_end(const uint32_t *fields);

/* What is wrong with a word that has reserved bits set, in at most NUMBERS characters; false where it has none. */
bool reserved_text(const uint32_t *words, int word, char *to);

/* Whether the reserved bits that are set in this word are the bank of the picture's end, as Linux's driver writes it into LCDSADDR2:
 * LCDBANK's bits, or the next bank's where the picture ends with its own. */
bool bank_bits_left(const uint32_t *words, int word);

#endif
