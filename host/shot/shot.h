/* All that is known of one dump: what it holds, what the library says of it, its picture, and that beside the golden one. */
#ifndef SHOT_H
#define SHOT_H

#include <stdbool.h>
#include <stdint.h>
#include "compare.h"
#include "dump.h"
#include "faults.h"
#include "fields.h"
#include "picture.h"

struct shot {
    const char *name;
    const char *error;   /* why the dump can't be read; nothing else is set then but the name */
    size_t bytes;        /* of the dump's file */
    uint32_t refusal;    /* 0, 1 to 9, 17, or 14, and then the rest is not set */
    struct dump dump;
    struct readings readings;
    struct faults faults;
    struct picture picture; /* where it is accepted and has a memory */
    bool compared;
    const char *golden_error; /* why the golden picture can't be used */
    struct picture golden;
    struct comparison comparison;
};

/* Takes a dump apart, judges and draws it; `all_faults` as for faults_find. */
void shot_take(struct shot *s, const struct bytes *b, bool all_faults);

/* Judges and draws the dump that the shot has already. */
void shot_judge(struct shot *s, bool all_faults);

/* Compares the picture, if there is one, with a golden one. */
void shot_compare(struct shot *s, const struct bytes *golden, uint32_t tolerance);

/* The exit status that the shot asks for: 0, 1 or 2. */
int shot_status(const struct shot *s);

void shot_free(struct shot *s);

#endif
