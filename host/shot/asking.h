/* What the library says of nine words: whether they are accepted, and which memory they need. */
#ifndef ASKING_H
#define ASKING_H

#include <stdbool.h>
#include <stdint.h>
#include "dump.h"
#include "fields.h"

/* A dump as it is judged, with its readings; its words may have been changed. */
struct judging {
    struct dump dump;
    struct readings now;
};

/* What drawing the dump with these words gives, 0 or 1 to 9; for words alone what counting gives, 0 or 1 to 7. On STN also 17;
 * never 27, since the dump has a rule edition. */
uint32_t judge(const struct dump *d, const uint32_t *words);

/* The first and the last byte of the picture in memory, as the library judges it; false where 1 to 7 refuse the words. */
bool memory_needed(const uint32_t *words, uint32_t *first, uint32_t *last);

/* Gives a dump a memory that holds the picture of its words; false where 1 to 7 refuse them. */
bool lend_needed(struct dump *d);

#endif
