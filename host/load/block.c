/* The nine words of a settings file. */
#define _DEFAULT_SOURCE
#include "block.h"
#include <endian.h>
#include <errno.h>
#include <string.h>
#include <sys/mman.h>
#include "../shot/fields.h"
#include "../shot/files.h"

/* ---- words and bytes */

struct block block_of(const uint8_t *bytes, size_t length) {
    struct block b = {.bytes = length < BLOCK_BYTES ? length : BLOCK_BYTES};
    b.count = b.bytes / 4;
    for (size_t i = 0; i < b.count; i++) {
        uint32_t low_first;
        memcpy(&low_first, bytes + 4 * i, 4);
        b.words[i] = le32toh(low_first);
    }
    return b;
}

void word_to_bytes(uint32_t word, uint8_t *to) {
    uint32_t low_first = htole32(word);
    memcpy(to, &low_first, 4);
}

void words_to_bytes(const uint32_t *words, uint8_t *to) {
    for (int i = 0; i < LCD_REGISTERS; i++)
        word_to_bytes(words[i], to + 4 * i);
}

/* ---- a load, store by store */

/* Pages that are never read or written are never made. A memory of no words has an address too. */
struct memory memory_of(uint32_t start, size_t length) {
    void *pages = mmap(NULL, length ? 4 * length : 4, PROT_READ, MAP_PRIVATE | MAP_ANONYMOUS | MAP_NORESERVE, -1, 0);
    if (pages == MAP_FAILED)
        fail("memory", strerror(errno));
    return (struct memory){start, pages, length};
}

static const int entries[LCD_STORES] = LCD_STORE_ENTRIES;

int store_entry(uint32_t store) { return entries[store - 1]; }

static bool alike(const uint32_t *a, const uint32_t *b) { return !memcmp(a, b, BLOCK_BYTES); }

/* Whether two blocks are alike but for this entry. */
static bool alike_but(const uint32_t *a, const uint32_t *b, int entry) {
    uint32_t other[LCD_REGISTERS];
    memcpy(other, b, sizeof other);
    other[entry] = a[entry];
    return alike(a, other);
}

/* Whether the stores lead from the old block to the new one, each by its own entry. */
static bool images_lead(const struct images *i, const struct block *old, const struct block *wanted) {
    for (uint32_t store = 1; store <= LCD_STORES; store++)
        if (!alike_but(i->after[store - 1], i->after[store], store_entry(store)))
            return false;
    return alike(i->after[0], old->words) && alike(i->after[LCD_STORES], wanted->words);
}

uint32_t images_ask(struct images *i, const struct block *old, const struct block *wanted, const struct memory *m) {
    for (uint32_t cut = 0; cut <= LCD_STORES; cut++) {
        uint32_t refusal;
        memcpy(i->after[cut], old->words, BLOCK_BYTES);
        refusal = lcd_load(i->after[cut], old->count, wanted->words, wanted->count, m->start, m->words, m->length, cut);
        if (refusal)
            return refusal;
    }
    if (!images_lead(i, old, wanted))
        fail("lcd_load", "an error in the library: a store would change another word than its own; nothing is written");
    return 0;
}

/* ---- the state */

static bool video_on(const struct block *b) {
    struct dump d = {.edition = 1};
    struct readings r;
    memcpy(d.words, b->words, BLOCK_BYTES);
    readings_ask(&r, &d);
    return r.fields[LCD_ENVID];
}

enum state block_state(const struct block *b, uint32_t *refusal) {
    uint64_t counts[3];
    *refusal = lcd_counts(b->words, b->count, 1, 1, counts, 3);
    if (*refusal == 10)
        return TOO_SHORT;
    if (!video_on(b))
        return OFF;
    return *refusal == 0 || *refusal == 17 ? WHOLE : MIXTURE;
}
