/* The slices that a call is lent: one block for the archive, one for the model, and what both held before. */
#ifndef SLICES_H
#define SLICES_H

#include <stdbool.h>
#include <stddef.h>
#include <stdint.h>

/* Entries on either side of a slice that no call may touch. With EXACT there are none: a block is then as large as its slice, and a
 * tool that watches memory sees every access beside it. */
#ifdef EXACT
enum { GUARD = 0 };
#else
enum { GUARD = 2 };
#endif

enum side { ARCHIVE, MODEL };

/* So many entries of so many bytes (1, 2, 4 or 8). */
struct slice {
    size_t len, bytes;
    void *lent[2], *before;
};

/* Makes the blocks of a slice, filled by chance. */
void lend(struct slice *slice, size_t len, size_t bytes);

bool is_lent(const struct slice *slice);

void take_back(struct slice *slice);

/* Fills a slice by chance. */
void prefill(struct slice *slice);

/* Sets the first entries of a slice of 32-bit entries, as far as it has them. */
void set_entries(struct slice *slice, const uint32_t *entries, size_t n);

/* What the archive left is what the next call gets, on both sides. */
void hand_on(struct slice *slice);

/* Entry i of one of the slice's blocks; those of the guard have numbers below 0 and from the length on. */
uint64_t entry_of(const struct slice *slice, const void *block, ptrdiff_t i);

/* Whether two blocks of the slice differ, their guards too, and the first entry that does. */
bool blocks_differ(const struct slice *slice, const void *one, const void *other, ptrdiff_t *first);

#endif
