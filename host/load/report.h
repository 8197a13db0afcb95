/* What lcdload says: a file's state, a refusal, and what a load has done. */
#ifndef REPORT_H
#define REPORT_H

#include <stdbool.h>
#include <stdint.h>
#include "block.h"

/* The line of a file's state, with what is to be done about it; after a load that was not cut there is nothing. Returns the exit status
 * that the state asks for, 0 or 1. */
int report_state(const char *name, const struct block *b, bool loaded);

/* A load: the names of the files, what is in them, and the memory that the new settings are judged with. */
struct load {
    const char *settings, *from;
    struct block old, wanted;
    struct memory memory;
    struct images images;
};

/* Why the new settings are refused. */
void report_refusal(const struct load *l, uint32_t refusal);

/* What was judged, and which words so many stores have changed. */
void report_load(const struct load *l, uint32_t stores);

/* What was judged, of a file that is new. */
void report_made(const struct load *l);

#endif
