/* Two dumps side by side: what differs in the registers, the palette and the memory. */
#ifndef AGAINST_H
#define AGAINST_H

#include <stdbool.h>
#include <stddef.h>
#include <stdint.h>
#include "shot.h"

/* A number that differs, in both dumps, with what it means. */
struct difference {
    const char *where, *name; /* the register, or "" for what is no field of one; the field */
    uint32_t old, now;
    char old_meaning[MEANING], now_meaning[MEANING];
    bool counts; /* read-only bits don't: the chip changes them by itself */
};

enum { MOST_DIFFERENCES = LCD_FIELDS + 3 + LCD_REGISTERS + 4 };

struct against {
    struct difference fields[MOST_DIFFERENCES];
    int field_count;
    size_t common;     /* words of memory that both have by their addresses */
    size_t words;      /* those of them that differ, and the first one's address and contents */
    uint64_t first;
    uint32_t old_word, now_word;
    size_t old_only, now_only; /* words that one of them has alone */
    bool any;                  /* whether anything counts */
};

void against_find(struct against *a, const struct shot *old, const struct shot *now);

/* The palette means nothing on STN, and is no difference of two such dumps. */
bool palette_differs(const struct shot *old, const struct shot *now, int entry);

void against_say(const struct against *a, const struct shot *old, const struct shot *now);

#endif
