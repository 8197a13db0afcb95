/* What the library says of nine words. */
#include "asking.h"
#include <stdlib.h>
#include "files.h"

/* A drawing into no bytes is refused by 1 to 9, and else by 10: then 17 is left, which the check gives. */
static uint32_t judge_stn(const struct dump *d, const uint32_t *words) {
    uint8_t none;
    uint32_t refusal = lcd_draw_stn(words, LCD_REGISTERS, d->window_start, d->video, d->video_len, 0, &none, 0);
    return refusal == 10 ? lcd_check(words, LCD_REGISTERS, d->window_start, d->video, d->video_len) : refusal;
}

uint32_t judge(const struct dump *d, const uint32_t *words) {
    uint64_t counts[3];
    uint32_t colour;
    if (d->source == WORDS_ALONE)
        return lcd_counts(words, LCD_REGISTERS, d->edition, 0, counts, 3);
    if (is_stn(words))
        return judge_stn(d, words);
    return lcd_draw_pixel(words, LCD_REGISTERS, d->window_start, d->video, d->video_len, d->palette, LCD_PALETTE_ENTRIES, 0, 0,
                          &colour, 1);
}

/* A memory of two banks for asking: its contents are never looked at. */
enum { BANK_BYTES = 1 << 22, PROBE_WORDS = 2 * BANK_BYTES / 4 };

static uint32_t *probe(void) {
    static uint32_t *words;
    if (!words && !(words = calloc(PROBE_WORDS, 4)))
        fail("memory", "none left");
    return words;
}

/* 17 comes behind 8, so the picture lies in the memory there too. */
static bool lies_in(const uint32_t *words, uint32_t start, size_t length) {
    uint32_t refusal = lcd_check(words, LCD_REGISTERS, start, probe(), length);
    return refusal == 0 || refusal == 17;
}

/* How many words of memory from `start` on hold the picture; or by how many words a start is too high that begins at `start`. */
static uint32_t least(const uint32_t *words, uint32_t start, bool by_length) {
    uint32_t low = 0, high = PROBE_WORDS;
    while (low < high) {
        uint32_t middle = low + (high - low) / 2;
        bool enough = by_length ? lies_in(words, start, middle) : !lies_in(words, start + 4 * middle, PROBE_WORDS);
        if (enough)
            high = middle;
        else
            low = middle + 1;
    }
    return low;
}

bool memory_needed(const uint32_t *words, uint32_t *first, uint32_t *last) {
    uint64_t start = 0;
    while (start <= UINT32_MAX && !lies_in(words, start, PROBE_WORDS))
        start += BANK_BYTES;
    if (start > UINT32_MAX)
        return false;
    *first = start + 4 * (least(words, start, false) - 1);
    *last = *first + 4 * least(words, *first, true) - 1;
    return true;
}

bool lend_needed(struct dump *d) {
    uint32_t last;
    d->video = probe();
    d->video_len = PROBE_WORDS;
    return memory_needed(d->words, &d->window_start, &last);
}
