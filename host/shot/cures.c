/* Cures. Every number of a field is put in and the library asked what it says then. */
#include "cures.h"
#include <string.h>
#include "numbers.h"

/* The fields that a number's condition names, or that may lift it. */
static const struct {
    int count, fields[5];
} named[] = {
    [1] = {1, {LCD_PNRMODE}},
    [2] = {1, {LCD_PNRMODE}},
    [3] = {2, {LCD_BPPMODE, LCD_PNRMODE}},
    [4] = {3, {LCD_BSWP, LCD_HWSWP, LCD_BPPMODE}},
    [5] = {5, {LCD_PAGEWIDTH, LCD_HOZVAL, LCD_BPPMODE, LCD_LCDBASEU, LCD_OFFSIZE}},
    [6] = {5, {LCD_LCDBASEL, LCD_LCDBASEU, LCD_PAGEWIDTH, LCD_OFFSIZE, LCD_LINEVAL}},
    [7] = {4, {LCD_LCDBASEU, LCD_LINEVAL, LCD_PAGEWIDTH, LCD_OFFSIZE}},
    [8] = {1, {LCD_LCDBANK}},
    [9] = {1, {LCD_ENVID}},
    [17] = {1, {LCD_CLKVAL}},
};

const struct cure *cure_by(const struct cures *c, int field) {
    for (int i = 0; i < c->count; i++)
        if (c->at[i].changes[0].field == field)
            return &c->at[i];
    return NULL;
}

bool cure_sets(const struct cure *c, int field) {
    bool sets = false;
    for (int i = 0; i < c->count; i++)
        sets |= c->changes[i].field == field;
    return sets;
}

/* How far an answer goes: an acceptance furthest. */
static uint32_t reach(uint32_t then) { return then ? then : UINT32_MAX; }

bool answer_beats(uint32_t then, uint32_t other) { return reach(then) > reach(other); }

/* Sets one field more in a cure. */
static void add_change(struct cure *c, int field, uint32_t number) {
    c->changes[c->count++] = (struct change){field, number};
}

void cure_apply(const struct cure *c, uint32_t *words) {
    for (int i = 0; i < c->count; i++)
        put_field(words, c->changes[i].field, c->changes[i].number);
}

/* Of two cures that both leave the swaps refused, the one goes further that does without swaps: a mode is not chosen by them. */
static bool goes_further(const struct cure *c, const struct cure *best) {
    return reach(c->then) > reach(best->then) || (c->then == best->then && c->then == 4 && reach(c->beyond) > reach(best->beyond));
}

/* Asks what follows a cure, and keeps it where it goes further than the best so far. */
static bool try_cure(const struct judging *j, struct cure *c, struct cure *best) {
    uint32_t words[LCD_REGISTERS];
    memcpy(words, j->dump.words, sizeof words);
    cure_apply(c, words);
    c->then = judge(&j->dump, words);
    if (c->then == 4) {
        put_field(words, LCD_BSWP, 0);
        put_field(words, LCD_HWSWP, 0);
        c->beyond = judge(&j->dump, words);
    }
    if (goes_further(c, best))
        *best = *c;
    return best->then == 0;
}

/* One field at another number, and with it LCDBASEL at the picture's end where that is asked for. */
static bool try_number(const struct judging *j, int field, uint32_t number, bool end_too, struct cure *best) {
    struct cure c = {.count = 0};
    add_change(&c, field, number);
    if (end_too) {
        uint32_t fields[LCD_FIELDS];
        memcpy(fields, j->now.fields, sizeof fields);
        fields[field] = number;
        add_change(&c, LCD_LCDBASEL, picture_end(fields));
    }
    return try_cure(j, &c, best);
}

/* Looks from a field's number outward, the lower one of two first, for the nearest that goes furthest. */
static struct cure look_outward(const struct judging *j, uint32_t refusal, int field, bool end_too) {
    uint32_t now = j->now.fields[field], most = layout_asked()->most[field];
    struct cure best = {.then = refusal};
    bool done = false;
    for (uint32_t away = 1; away <= most && !done; away++) {
        done = away <= now && try_number(j, field, now - away, end_too, &best);
        done = done || (away <= most - now && try_number(j, field, now + away, end_too, &best));
    }
    return best;
}

/* The best number of a field; where 5 is about the viewport and this goes further, with LCDBASEL moved along. */
static struct cure best_of(const struct judging *j, uint32_t refusal, int field) {
    struct cure alone = look_outward(j, refusal, field, false), along;
    if (refusal != 5 || alone.then != 6 || (field != LCD_LCDBASEU && field != LCD_PAGEWIDTH && field != LCD_OFFSIZE))
        return alone;
    along = look_outward(j, refusal, field, true);
    return goes_further(&along, &alone) ? along : alone;
}

/* Keeps a cure that lifts the refusal, behind those that go as far. */
static void keep_cure(struct cures *kept, const struct cure *c) {
    int at = kept->count;
    if (!c->count || kept->count == MOST_CURES)
        return;
    while (at > 0 && reach(kept->at[at - 1].then) < reach(c->then)) {
        kept->at[at] = kept->at[at - 1];
        at--;
    }
    kept->at[at] = *c;
    kept->count++;
}

/* ---- cures of several fields, where none alone will do */

static void cure_swaps(const struct judging *j, uint32_t refusal, struct cures *kept) {
    struct cure c = {.count = 0}, best = {.then = refusal};
    add_change(&c, LCD_BSWP, 0);
    add_change(&c, LCD_HWSWP, 0);
    try_cure(j, &c, &best);
    keep_cure(kept, &best);
}

/* 5: odd numbers one lower, then the nearest width and its PAGEWIDTH. */
static bool cure_row_of_width(const struct judging *j, const struct cure *even, uint32_t hozval, struct cure *best) {
    bool lifted = false;
    for (uint32_t page = 0; page <= layout_asked()->most[LCD_PAGEWIDTH] && !lifted; page++) {
        struct cure c = *even;
        if (hozval != j->now.fields[LCD_HOZVAL])
            add_change(&c, LCD_HOZVAL, hozval);
        if (page != j->now.fields[LCD_PAGEWIDTH])
            add_change(&c, LCD_PAGEWIDTH, page);
        try_cure(j, &c, best);
        lifted = best->count;
    }
    return lifted;
}

static void cure_row(const struct judging *j, uint32_t refusal, struct cures *kept) {
    static const int odd[] = {LCD_LCDBASEU, LCD_OFFSIZE};
    uint32_t now = j->now.fields[LCD_HOZVAL], most = layout_asked()->most[LCD_HOZVAL];
    struct cure even = {.count = 0}, best = {.then = refusal};
    bool lifted = false;
    for (int i = 0; i < 2; i++)
        if (j->now.fields[odd[i]] % 2)
            add_change(&even, odd[i], j->now.fields[odd[i]] - 1);
    for (uint32_t away = 0; away <= most && !lifted; away++) {
        lifted = away <= now && cure_row_of_width(j, &even, now - away, &best);
        lifted = lifted || (away <= most - now && cure_row_of_width(j, &even, now + away, &best));
    }
    keep_cure(kept, &best);
}

/* 7: the picture moved or made smaller, LCDBASEL with it; at last both moved to 0 and without OFFSIZE. */
static void cure_bank(const struct judging *j, uint32_t refusal, struct cures *kept) {
    static const int fields[] = {LCD_LCDBASEU, LCD_OFFSIZE, LCD_LINEVAL};
    uint32_t moved[LCD_FIELDS];
    struct cure c = {.count = 0}, best = {.then = refusal};
    for (int i = 0; i < 3; i++) {
        struct cure one = look_outward(j, refusal, fields[i], true);
        keep_cure(kept, &one);
    }
    if (kept->count)
        return;
    memcpy(moved, j->now.fields, sizeof moved);
    moved[LCD_LCDBASEU] = moved[LCD_OFFSIZE] = 0;
    add_change(&c, LCD_LCDBASEU, 0);
    add_change(&c, LCD_OFFSIZE, 0);
    add_change(&c, LCD_LCDBASEL, picture_end(moved));
    try_cure(j, &c, &best);
    keep_cure(kept, &best);
}

void cures_find(struct cures *kept, const struct judging *j, uint32_t refusal) {
    kept->count = 0;
    for (int i = 0; i < named[refusal].count; i++) {
        struct cure c = best_of(j, refusal, named[refusal].fields[i]);
        keep_cure(kept, &c);
    }
    if (kept->count)
        return;
    if (refusal == 4)
        cure_swaps(j, refusal, kept);
    if (refusal == 5)
        cure_row(j, refusal, kept);
    if (refusal == 7)
        cure_bank(j, refusal, kept);
}

/* ---- the quietest cure */

/* Adds a change where the number is another one. */
static void set_field(struct cure *c, const struct judging *j, int field, uint32_t number) {
    if (j->now.fields[field] != number)
        add_change(c, field, number);
}

/* LCDBASEL by as much as the picture's end moves with the changes so far. */
static void move_end(struct cure *c, const struct judging *j) {
    uint32_t fields[LCD_FIELDS], moved;
    memcpy(fields, j->now.fields, sizeof fields);
    for (int i = 0; i < c->count; i++)
        fields[c->changes[i].field] = c->changes[i].number;
    moved = fields[LCD_LCDBASEL] + picture_end(fields) - picture_end(j->now.fields);
    set_field(c, j, LCD_LCDBASEL, moved & layout_asked()->most[LCD_LCDBASEL]);
}

/* The even number beside an odd one: above, or below where that is too wide. */
static uint32_t evened(int field, uint32_t number) {
    return number % 2 == 0 ? number : number < layout_asked()->most[field] ? number + 1 : number - 1;
}

/* A width, in this mode or without swaps in another one, with which 5 is lifted. */
static struct cure fit_width(const struct judging *j, const struct cure *moved, uint32_t mode) {
    struct cure best = {.then = 5};
    for (uint32_t hozval = 0; hozval <= layout_asked()->most[LCD_HOZVAL] && !best.count; hozval++) {
        struct cure c = *moved;
        if (mode != j->now.fields[LCD_BPPMODE]) {
            set_field(&c, j, LCD_BPPMODE, mode);
            set_field(&c, j, LCD_BSWP, 0);
            set_field(&c, j, LCD_HWSWP, 0);
        }
        set_field(&c, j, LCD_HOZVAL, hozval);
        try_cure(j, &c, &best);
    }
    return best;
}

static struct cure quiet_row(const struct judging *j, bool *has_moved) {
    uint32_t page = j->now.fields[LCD_PAGEWIDTH], offsize = j->now.fields[LCD_OFFSIZE];
    struct cure moved = {.count = 0}, best;
    set_field(&moved, j, LCD_LCDBASEU, evened(LCD_LCDBASEU, j->now.fields[LCD_LCDBASEU]));
    set_field(&moved, j, LCD_PAGEWIDTH, page ? evened(LCD_PAGEWIDTH, page) : 2);
    set_field(&moved, j, LCD_OFFSIZE, offsize - offsize % 2);
    *has_moved = moved.count;
    move_end(&moved, j);
    best = fit_width(j, &moved, j->now.fields[LCD_BPPMODE]);
    for (uint32_t mode = 0; mode <= layout_asked()->most[LCD_BPPMODE] && !best.count; mode++)
        best = fit_width(j, &moved, mode);
    return best;
}

/* The nearest viewport inside the bank. */
static struct cure quiet_view(const struct cures *c, const struct judging *j) {
    struct cure best = {.then = 7};
    for (uint32_t base = j->now.fields[LCD_LCDBASEU]; base > 0 && !best.count; base--)
        try_number(j, LCD_LCDBASEU, base - 1, true, &best);
    return best.count ? best : c->at[0];
}

struct cure cure_quietly(const struct cures *c, const struct judging *j, uint32_t refusal, bool *moved) {
    const struct cure *swap = cure_by(c, LCD_BSWP) ? cure_by(c, LCD_BSWP) : cure_by(c, LCD_HWSWP);
    *moved = refusal == 7;
    if (refusal == 4 && swap)
        return *swap;
    if (refusal == 5)
        return quiet_row(j, moved);
    if (refusal == 6 && cure_by(c, LCD_LCDBASEL))
        return *cure_by(c, LCD_LCDBASEL);
    return refusal == 7 ? quiet_view(c, j) : c->at[0];
}
