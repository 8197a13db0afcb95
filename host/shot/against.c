/* Two dumps side by side. */
#include "against.h"
#include <inttypes.h>
#include <stdio.h>
#include <string.h>

/* ---- fields */

static struct difference *add(struct against *a, const char *where, const char *name, uint32_t old, uint32_t now) {
    struct difference *d = &a->fields[a->field_count];
    if (old == now)
        return NULL;
    *d = (struct difference){.where = where, .name = name, .old = old, .now = now, .counts = true};
    a->field_count++;
    return d;
}

/* What a field means in a dump. Where an STN panel beside a TFT one has another field in its bits, that is named. */
static void part_meaning(const struct shot *s, const struct part *p, char *to) {
    const char *name = is_stn(s->dump.words) ? stn_field_name(p->field) : field_name(p->field);
    char meaning[MEANING];
    field_meaning(&s->readings, p->field, meaning);
    if (strcmp(name, p->name))
        snprintf(to, MEANING, "%s %" PRIu32 ": %.90s", name, s->readings.fields[p->field], meaning);
    else
        memcpy(to, meaning, MEANING);
}

static void add_part(struct against *a, const struct shot *old, const struct shot *now, int word, const struct part *p) {
    struct difference *d = add(a, register_names[word], p->name ? p->name : "reserved bits",
                               part_number(p, old->dump.words[word]), part_number(p, now->dump.words[word]));
    if (!d)
        return;
    if (p->field >= 0) {
        part_meaning(old, p, d->old_meaning);
        part_meaning(now, p, d->now_meaning);
    } else if (p->field == READ_ONLY) {
        d->counts = false;
        snprintf(d->now_meaning, MEANING, "read-only, not counted");
    } else {
        snprintf(d->old_meaning, MEANING, "bits %d..%d", p->high, p->low);
        snprintf(d->now_meaning, MEANING, "bits %d..%d", p->high, p->low);
    }
}

/* HCLK that was not given with words is no difference. */
static void add_clock(struct against *a, const struct shot *old, const struct shot *now) {
    struct difference *d = now->dump.no_hclk ? NULL : add(a, "", "HCLK", old->dump.hclk, now->dump.hclk);
    if (!d)
        return;
    rate_text((uint64_t)old->dump.hclk * 1000, d->old_meaning);
    rate_text((uint64_t)now->dump.hclk * 1000, d->now_meaning);
}

static void add_start(struct against *a, const struct shot *old, const struct shot *now) {
    struct difference *d = add(a, "", "window start", old->dump.window_start, now->dump.window_start);
    if (!d)
        return;
    snprintf(d->old_meaning, MEANING, "0x%08" PRIx32, old->dump.window_start);
    snprintf(d->now_meaning, MEANING, "0x%08" PRIx32, now->dump.window_start);
}

/* What the library says of the two. */
static void add_refusal(struct against *a, const struct shot *old, const struct shot *now) {
    struct difference *d = add(a, "", "refusal", old->refusal, now->refusal);
    if (!d)
        return;
    snprintf(d->old_meaning, MEANING, "%s", old->refusal ? "refused" : "accepted");
    snprintf(d->now_meaning, MEANING, "%s", now->refusal ? "refused" : "accepted");
}

/* By the layout that both have, or by TFT's. */
static void find_fields(struct against *a, const struct shot *old, const struct shot *now) {
    const struct layout *l = layout_of(is_stn(old->dump.words) ? now->dump.words : old->dump.words);
    for (int word = 0; word < LCD_REGISTERS; word++)
        for (int i = 0; i < l->count[word]; i++)
            add_part(a, old, now, word, &l->parts[word][i]);
    add_clock(a, old, now);
}

/* ---- memory, by its addresses */

static void find_words(struct against *a, const struct dump *old, const struct dump *now) {
    uint64_t old_from = old->window_start, now_from = now->window_start;
    uint64_t old_past = old_from + 4 * (uint64_t)old->video_len, now_past = now_from + 4 * (uint64_t)now->video_len;
    uint64_t from = old_from > now_from ? old_from : now_from, past = old_past < now_past ? old_past : now_past;
    if ((old_from - now_from) % 4 == 0 && from < past)
        a->common = (past - from) / 4;
    a->old_only = old->video_len - a->common;
    a->now_only = now->video_len - a->common;
    for (size_t i = 0; i < a->common; i++) {
        uint32_t was = old->video[(from - old_from) / 4 + i], is = now->video[(from - now_from) / 4 + i];
        if (was != is && !a->words++)
            a->first = from + 4 * (uint64_t)i, a->old_word = was, a->now_word = is;
    }
}

bool palette_differs(const struct shot *old, const struct shot *now, int entry) {
    if (now->dump.no_palette || (is_stn(old->dump.words) && is_stn(now->dump.words)))
        return false;
    return old->dump.palette[entry] != now->dump.palette[entry];
}

/* Words alone have registers and nothing else to compare. */
void against_find(struct against *a, const struct shot *old, const struct shot *now) {
    memset(a, 0, sizeof *a);
    find_fields(a, old, now);
    if (now->dump.source != WORDS_ALONE) {
        add_start(a, old, now);
        add_refusal(a, old, now);
        find_words(a, &old->dump, &now->dump);
    }
    for (int i = 0; i < a->field_count; i++)
        a->any |= a->fields[i].counts;
    for (int i = 0; i < LCD_PALETTE_ENTRIES; i++)
        a->any |= palette_differs(old, now, i);
    a->any |= a->words || a->old_only || a->now_only;
}

/* ---- in words */

static void say_difference(const struct difference *d) {
    say("  %-9s %-12s %" PRIu32 "%s%s  ->  %" PRIu32 "%s%s\n", d->where, d->name, d->old, *d->old_meaning ? ", " : "", d->old_meaning,
        d->now, *d->now_meaning ? ", " : "", d->now_meaning);
}

static void say_only(const char *name, size_t words, const char *which) {
    if (words)
        say("  %-22s %zu word%s in the %s dump alone\n", name, words, words == 1 ? "" : "s", which);
}

void against_say(const struct against *a, const struct shot *old, const struct shot *now) {
    say("%s %s\n", a->any ? "differs from" : "no difference from", old->name);
    for (int i = 0; i < a->field_count; i++)
        say_difference(&a->fields[i]);
    for (int i = 0; i < LCD_PALETTE_ENTRIES; i++)
        if (palette_differs(old, now, i))
            say("  palette   entry %-6d 0x%04x  ->  0x%04x\n", i, old->dump.palette[i], now->dump.palette[i]);
    if (a->words)
        say("  memory                 %zu of %zu words, first at 0x%08" PRIx64 ": 0x%08" PRIx32 "  ->  0x%08" PRIx32 "\n", a->words,
            a->common, a->first, a->old_word, a->now_word);
    say_only("memory", a->old_only, "old");
    say_only("memory", a->now_only, "new");
}
