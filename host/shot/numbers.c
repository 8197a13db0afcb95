/* The arithmetic of a refusal. */
#include "numbers.h"
#include <inttypes.h>
#include <stdarg.h>
#include <stdio.h>
#include <string.h>

static void add_text(char *to, size_t room, const char *format, ...) {
    size_t at = strlen(to);
    va_list arguments;
    va_start(arguments, format);
    vsnprintf(to + at, room - at, format, arguments);
    va_end(arguments);
}

/* The bits of a mask by number: "bits 28..27, 3 are", "bit 5 is". */
static void add_bits(char *to, uint32_t mask) {
    bool one = !(mask & (mask - 1)), first = true;
    add_text(to, NUMBERS, "bit%s ", one ? "" : "s");
    for (int high = WORD_BITS - 1, low; high >= 0; high = low - 1) {
        for (low = high; low > 0 && (mask >> low & 1) && (mask >> (low - 1) & 1); low--)
            ;
        if (!(mask >> high & 1))
            continue;
        add_text(to, NUMBERS, high == low ? "%s%d" : "%s%d..%d", first ? "" : ", ", high, low);
        first = false;
    }
    add_text(to, NUMBERS, one ? " is" : " are");
}

bool bank_bits_left(const uint32_t *words, int word) {
    const struct layout *l = layout_asked();
    uint32_t set = words[word] & l->reserved[word], low = l->low[LCD_LCDBANK];
    uint32_t bank = words[l->word[LCD_LCDBANK]] >> low & l->most[LCD_LCDBANK];
    bool at_end = !(words[l->word[LCD_LCDBASEL]] & l->most[LCD_LCDBASEL]);
    return word == l->word[LCD_LCDBASEL] && set && (set == bank << low || (at_end && set == (bank + 1) << low));
}

/* Why bits are reserved where TFT has a field. */
static const char *stn_text(const uint32_t *words, int word) {
    const struct layout *tft = layout_asked();
    if (!(words[word] & layout_of(words)->reserved[word] & ~tft->reserved[word]))
        return "";
    if (word == tft->word[LCD_HBPD])
        return "; of HBPD's bits an STN panel (PNRMODE 2) has WDLY's alone";
    if (word == tft->word[LCD_HSPW])
        return "; of HSPW's bits an STN panel (PNRMODE 2) has WLH's alone";
    return "; an STN panel (PNRMODE 2) has no temporary palette";
}

bool reserved_text(const uint32_t *words, int word, char *to) {
    uint32_t set = words[word] & layout_of(words)->reserved[word];
    *to = 0;
    if (!set)
        return false;
    add_text(to, NUMBERS, "reserved ");
    add_bits(to, set);
    add_text(to, NUMBERS, " set (0x%08" PRIx32 "); cleared, the word is 0x%08" PRIx32 "%s%s", set, words[word] & ~set,
             bank_bits_left(words, word) ? "; it is the bank, as Linux's driver leaves it" : "", stn_text(words, word));
    return true;
}

static void reserved_numbers(const uint32_t *words, char *to) {
    char text[NUMBERS];
    for (int word = 0; word < LCD_REGISTERS; word++)
        if (reserved_text(words, word, text))
            add_text(to, NUMBERS, "%s%s: %s", *to ? "; " : "", register_names[word], text);
}

uint32_t picture_end(const uint32_t *f) {
    uint64_t pitch = f[LCD_PAGEWIDTH] + f[LCD_OFFSIZE];
    return (f[LCD_LCDBASEU] + pitch * (f[LCD_LINEVAL] + 1)) & layout_asked()->most[LCD_LCDBASEL];
}

static void row_numbers(const struct readings *r, char *to) {
    static const int even[] = {LCD_LCDBASEU, LCD_PAGEWIDTH, LCD_OFFSIZE};
    uint64_t page = 16 * (uint64_t)r->fields[LCD_PAGEWIDTH];
    uint64_t row = (uint64_t)r->sizes[LCD_SIZE_WIDTH] * r->sizes[LCD_SIZE_STORED_BITS];
    if (page != row)
        add_text(to, NUMBERS, "16 x PAGEWIDTH = %" PRIu64 ", W x S = %" PRIu64, page, row);
    for (int i = 0; i < 3; i++)
        if (r->fields[even[i]] % 2)
            add_text(to, NUMBERS, "%s%s = %" PRIu32 " is odd", *to ? "; " : "", field_name(even[i]), r->fields[even[i]]);
}

static void bank_numbers(const struct readings *r, char *to) {
    const uint32_t *f = r->fields;
    uint64_t end = f[LCD_LCDBASEU] + (uint64_t)f[LCD_LINEVAL] * (f[LCD_PAGEWIDTH] + f[LCD_OFFSIZE]) + f[LCD_PAGEWIDTH];
    uint64_t bank = (uint64_t)layout_asked()->most[LCD_LCDBASEU] + 1;
    add_text(to, NUMBERS, "LCDBASEU + (H - 1) x (PAGEWIDTH + OFFSIZE) + PAGEWIDTH = %" PRIu64 ", 2^21 = %" PRIu64 ": %" PRIu64
             " half-words too far", end, bank, end - bank);
}

static const char *bytes_are(uint64_t count) { return count == 1 ? "byte is" : "bytes are"; }

static void add_missing(char *to, uint64_t count, const char *side) {
    if (count)
        add_text(to, NUMBERS, ", %" PRIu64 " %s missing %s", count, bytes_are(count), side);
}

/* 8: what the picture needs beside what there is. */
static void memory_numbers(const struct dump *d, char *to) {
    const char *what = d->source == FROM_FILE ? "the dump's video memory" : "the memory given";
    uint64_t from = d->window_start, past = from + 4 * (uint64_t)d->video_len, needed_past;
    uint32_t first = 0, last = 0;
    if (d->window_start % 4)
        add_text(to, NUMBERS, "%s starts at 0x%08" PRIx64 ", which is no multiple of 4; ", what, from);
    memory_needed(d->words, &first, &last);
    needed_past = (uint64_t)last + 1;
    add_text(to, NUMBERS, "the picture needs 0x%08" PRIx32 " to 0x%08" PRIx32, first, last);
    if (!d->video_len) {
        add_text(to, NUMBERS, ", %s has no bytes, %" PRIu64 " are missing", what, needed_past - first);
        return;
    }
    add_text(to, NUMBERS, ", %s is 0x%08" PRIx64 " to 0x%08" PRIx64, what, from, past - 1);
    add_missing(to, first < from ? (needed_past < from ? needed_past : from) - first : 0, "before its start");
    add_missing(to, needed_past > past ? needed_past - (first > past ? first : past) : 0, "behind its end");
}

void refusal_numbers(const struct judging *j, const struct readings *given, uint32_t refusal, char *to) {
    const struct readings *r = &j->now;
    const uint32_t *f = r->fields;
    char meaning[MEANING];
    switch (refusal) {
    case 1: reserved_numbers(j->dump.words, to); break;
    case 2:
    case 3:
    case 9: {
        int field = refusal == 2 ? LCD_PNRMODE : refusal == 3 ? LCD_BPPMODE : LCD_ENVID;
        field_meaning(r, field, meaning);
        add_text(to, NUMBERS, "%s = %" PRIu32 ", %s", field_name(field), f[field], meaning);
        break;
    }
    case 4:
        mode_meaning(r, meaning);
        add_text(to, NUMBERS, "BSWP = %" PRIu32 ", HWSWP = %" PRIu32 " with %s", f[LCD_BSWP], f[LCD_HWSWP], meaning);
        break;
    case 5: row_numbers(r, to); break;
    case 6:
        add_text(to, NUMBERS, "LCDBASEL = %" PRIu32 ", LCDBASEU + (PAGEWIDTH + OFFSIZE) x H = %" PRIu32 " modulo 2^21",
                 given->fields[LCD_LCDBASEL], picture_end(given->fields));
        break;
    case 7: bank_numbers(r, to); break;
    case 8: memory_numbers(&j->dump, to); break;
    case 17: add_text(to, NUMBERS, "CLKVAL = %" PRIu32, f[LCD_CLKVAL]); break;
    }
}
