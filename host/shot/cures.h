/* The numbers that lift a refusal, each asked of the library. */
#ifndef CURES_H
#define CURES_H

#include <stdbool.h>
#include <stdint.h>
#include "asking.h"

struct change {
    int field;
    uint32_t number;
};

enum { MOST_CHANGES = 12, MOST_CURES = 5 };

/* Fields set to other numbers, and what the library says then: 0, or the next refusal. */
struct cure {
    struct change changes[MOST_CHANGES];
    int count;
    uint32_t then;
    uint32_t beyond; /* where the swaps are refused next: what follows without them */
};

/* Those that end in 0 first, else those that go furthest. */
struct cures {
    struct cure at[MOST_CURES];
    int count;
};

/* The cures of the refusal that the words draw: of each field that its condition names the nearest number that goes furthest; where
 * no field alone will do, several together. 1 has one, by PNRMODE, where the bits are reserved on STN alone. */
void cures_find(struct cures *c, const struct judging *j, uint32_t refusal);

/* Whether an answer of the library is nearer to an acceptance than another. */
bool answer_beats(uint32_t then, uint32_t other);

/* The cure with which the next condition is asked for: by fields that no later condition is about, where that will do. Where numbers are
 * odd, a row has no length or the picture leaves its bank, those are moved no further than needed, and LCDBASEL along, so that 6 holds as
 * before; `moved` says so. */
struct cure cure_quietly(const struct cures *c, const struct judging *j, uint32_t refusal, bool *moved);

/* The cure that begins with this field, or NULL. */
const struct cure *cure_by(const struct cures *c, int field);

/* Whether a cure sets this field. */
bool cure_sets(const struct cure *c, int field);

void cure_apply(const struct cure *c, uint32_t *words);

#endif
