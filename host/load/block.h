/* The nine words of a settings file: what a load makes of them store by store, and the state that they are in. The library judges, and
 * says what each store writes. */
#ifndef BLOCK_H
#define BLOCK_H

#include <stdbool.h>
#include <stddef.h>
#include <stdint.h>
#include "../lcd.h"

enum { BLOCK_BYTES = 4 * LCD_REGISTERS };

/* ---- words and bytes */

struct block {
    uint32_t words[LCD_REGISTERS];
    size_t count; /* of the words that are there: fewer than nine where the file is too short */
    size_t bytes; /* that the file has, or BLOCK_BYTES of them where it has more */
};

/* The words that a file's bytes begin with, low byte first. */
struct block block_of(const uint8_t *bytes, size_t length);

/* A word's four bytes, and the bytes of nine words. */
void word_to_bytes(uint32_t word, uint8_t *to);
void words_to_bytes(const uint32_t *words, uint8_t *to);

/* ---- a load, store by store */

/* The board's video memory: the byte address of its first word, and how many there are. Its contents are never looked at. */
struct memory {
    uint32_t start;
    const uint32_t *words;
    size_t length;
};

/* So many words of memory, which take no room. */
struct memory memory_of(uint32_t start, size_t length);

/* A block after 0, 1, .. and all ten stores. */
struct images {
    uint32_t after[LCD_STORES + 1][LCD_REGISTERS];
};

/* Asks the library for all of them. Returns 0, or the number of the refusal. Ends the program where a store would change more than its
 * own entry, which can't be. */
uint32_t images_ask(struct images *i, const struct block *old, const struct block *wanted, const struct memory *m);

/* The entry that a store sets; they are counted from 1. */
int store_entry(uint32_t store);

/* ---- the state */

enum state { WHOLE, OFF, MIXTURE, TOO_SHORT };

/* The state of a block, and the number of 1 to 7, 10 or 17 that its words draw without a memory; 0 where they draw none. */
enum state block_state(const struct block *b, uint32_t *refusal);

#endif
