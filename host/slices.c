/* The blocks of a lent slice: see slices.h. */
#include <stdio.h>
#include <stdlib.h>
#include <string.h>
#include "chance.h"
#include "slices.h"

static size_t size_of(const struct slice *slice) {
    return (slice->len + 2 * GUARD) * slice->bytes;
}

/* Where a block begins, the guard before the first entry with it. */
static char *begin_of(const struct slice *slice, const void *block) {
    return (char *)block - GUARD * slice->bytes;
}

static void *new_block(const struct slice *slice) {
    char *made = malloc(size_of(slice));
    if (made == NULL) {
        puts("differential: no memory");
        exit(1);
    }
    return made + GUARD * slice->bytes;
}

static void free_block(const struct slice *slice, void *block) {
    free(begin_of(slice, block));
}

static void copy_block(const struct slice *slice, void *to, const void *from) {
    memcpy(begin_of(slice, to), begin_of(slice, from), size_of(slice));
}

static void hand_over(struct slice *slice) {
    copy_block(slice, slice->lent[ARCHIVE], slice->before);
    copy_block(slice, slice->lent[MODEL], slice->before);
}

/* The guards have fixed bytes, so that a case is the same with them and without. */
void prefill(struct slice *slice) {
    size_t size = slice->len * slice->bytes;
    memset(begin_of(slice, slice->before), 0xa5, size_of(slice));
    for (size_t at = 0; at < size; at += 8) {
        uint64_t filling = random64();
        memcpy((char *)slice->before + at, &filling, size - at < 8 ? size - at : 8);
    }
    hand_over(slice);
}

void lend(struct slice *slice, size_t len, size_t bytes) {
    slice->len = len;
    slice->bytes = bytes;
    slice->before = new_block(slice);
    slice->lent[ARCHIVE] = new_block(slice);
    slice->lent[MODEL] = new_block(slice);
    prefill(slice);
}

bool is_lent(const struct slice *slice) {
    return slice->before != NULL;
}

void take_back(struct slice *slice) {
    if (!is_lent(slice))
        return;
    free_block(slice, slice->before);
    free_block(slice, slice->lent[ARCHIVE]);
    free_block(slice, slice->lent[MODEL]);
    memset(slice, 0, sizeof *slice);
}

void set_entries(struct slice *slice, const uint32_t *entries, size_t n) {
    memcpy(slice->before, entries, (n < slice->len ? n : slice->len) * sizeof *entries);
    hand_over(slice);
}

void hand_on(struct slice *slice) {
    copy_block(slice, slice->before, slice->lent[ARCHIVE]);
    copy_block(slice, slice->lent[MODEL], slice->before);
}

uint64_t entry_of(const struct slice *slice, const void *block, ptrdiff_t i) {
    switch (slice->bytes) {
    case 1: return ((const uint8_t *)block)[i];
    case 2: return ((const uint16_t *)block)[i];
    case 4: return ((const uint32_t *)block)[i];
    default: return ((const uint64_t *)block)[i];
    }
}

bool blocks_differ(const struct slice *slice, const void *one, const void *other, ptrdiff_t *first) {
    *first = -GUARD;
    if (memcmp(begin_of(slice, one), begin_of(slice, other), size_of(slice)) == 0)
        return false;
    while (entry_of(slice, one, *first) == entry_of(slice, other, *first))
        ++*first;
    return true;
}
