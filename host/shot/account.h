/* The account of a dump's registers (`lcdshot --registers`), and what is said of a dump in a line or two. */
#ifndef ACCOUNT_H
#define ACCOUNT_H

#include <stdbool.h>
#include <stdint.h>
#include "dump.h"
#include "faults.h"
#include "fields.h"

/* The counts as the bench prints them, and in plain units. */
void account_counts(const struct readings *r);

/* Which memory the picture needs; nothing where the words are refused for more than reserved bits. */
void account_needed(const struct dump *d);

/* What the glass does with the picture where that is not to show it: a text, or NULL. */
const char *account_glass(const struct readings *r);

/* The number of the refusal, its text and its arithmetic. */
void account_refusal(const struct faults *f);

/* The number of the refusal, and every fault with its arithmetic and its cures. */
void account_faults(const struct faults *f);

/* Every field by register and name with its meaning, for refused words too, and a mark at each that lifts a fault. Of an STN panel the
 * lengths and rates by the dump's rule edition, and where they differ by both. */
void account_registers(const struct readings *r, const struct faults *f);

/* A cure's changes: "PAGEWIDTH 240 and LCDBASEL 0". */
void cure_text(const struct cure *c, char *to, size_t room);

#endif
