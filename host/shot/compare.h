/* A picture beside the golden one: how much differs and where, and whether a neighbouring setting would give the golden one. */
#ifndef COMPARE_H
#define COMPARE_H

#include <stdbool.h>
#include <stddef.h>
#include <stdint.h>
#include "dump.h"
#include "picture.h"

enum { MOST_NEIGHBOURS = 6, NEIGHBOUR = 80 };

/* A setting that differs in one field, and what comes of it. */
struct neighbour {
    char name[NEIGHBOUR]; /* empty where there is no such setting */
    uint32_t refusal;     /* where it can't be drawn */
    bool equal;           /* to the golden picture */
};

struct comparison {
    uint32_t width, height;               /* of the golden picture */
    bool same_size;                       /* the rest is set where this holds */
    uint32_t tolerance;                   /* a colour differs where one of its three parts is further away than this */
    size_t all, differ, first;            /* pixels, how many differ, the first that does */
    uint32_t golden_first, here_first;    /* and its colours */
    uint32_t top, bottom, left, right;    /* the rows and columns that hold all that differ */
    uint32_t largest;                     /* the largest distance of a part, 0 to 255, of any pixel */
    struct neighbour neighbours[MOST_NEIGHBOURS]; /* where pixels differ */
};

void compare(struct comparison *c, const struct picture *golden, const struct picture *here, uint32_t tolerance);

bool comparison_equal(const struct comparison *c);

/* Tries the settings that differ from the dump's in one field: HWSWP, BSWP, BPP24BL, FRM565, and LCDBASEU by a row. Of the flags an
 * STN panel has BSWP alone. */
void compare_neighbours(struct comparison *c, const struct dump *d, const struct picture *golden);

void comparison_say(const struct comparison *c, const struct picture *here);

/* The picture of the differences: white where the two differ, else the second one's colour at a quarter of its light. */
struct picture comparison_picture(const struct comparison *c, const struct picture *golden, const struct picture *here);

#endif
