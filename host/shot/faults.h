/* What is wrong with refused words: every condition that holds, of 1 to 9 and 17, its arithmetic, and the numbers that lift it. */
#ifndef FAULTS_H
#define FAULTS_H

#include <stdbool.h>
#include <stdint.h>
#include "cures.h"
#include "numbers.h"

enum { MOST_FAULTS = 10 };

struct fault {
    uint32_t refusal;
    char numbers[NUMBERS]; /* the condition's arithmetic */
    struct cure with;      /* the cures of the faults before it, with which this one is judged */
    bool cleared, lent;    /* whether reserved bits were cleared for it too, and whether the memory that is needed was given */
    uint32_t hangs;        /* on an earlier fault, whose cure moves what it is about: it has no cures before that one is lifted; or 0 */
    struct cures cures;    /* of 1 only where the bits are reserved on STN alone */
    uint32_t then;         /* of 1: what follows where the reserved bits are cleared */
};

struct faults {
    struct fault at[MOST_FAULTS];
    int count;
};

/* Finds every fault with its cures, or the first alone and without them. */
void faults_find(struct faults *f, const struct dump *d, bool all);

#endif
