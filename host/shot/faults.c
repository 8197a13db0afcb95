/* Faults, one after the other. The library gives the lowest number, so each further one is asked for with those before it cured. */
#include "faults.h"
#include <string.h>

/* The words that are judged, and what was changed in them for the faults so far. */
struct curing {
    struct judging words;
    struct readings given; /* the words as they were */
    struct cure made;
    bool cleared, lent;
    uint32_t moved_for; /* the fault whose cure moved the viewport */
};

/* Notes a change that is made; a field that was changed before has one number still. */
static void note_change(struct cure *made, const struct change *c) {
    int at = 0;
    while (at < made->count && made->changes[at].field != c->field)
        at++;
    made->changes[at] = *c;
    made->count += at == made->count;
}

/* Sets the fields of a cure in the words that are judged. */
static void make_cure(struct curing *c, const struct cure *cure) {
    for (int i = 0; i < cure->count; i++)
        note_change(&c->made, &cure->changes[i]);
    cure_apply(cure, c->words.dump.words);
    readings_ask(&c->words.now, &c->words.dump);
}

/* Whether reserved bits are cleared for the next fault: unless they are reserved on STN alone, and another panel goes further. */
static bool clearing(const struct fault *f) {
    return f->refusal == 1 && !(f->cures.count && answer_beats(f->cures.at[0].then, f->then));
}

/* Lifts a fault, so that the next can be asked for. Returns false where there is no way. */
static bool lift(struct curing *c, const struct fault *f) {
    struct dump *d = &c->words.dump;
    struct cure quiet;
    bool moved;
    if (clearing(f)) {
        words_cleared(d->words, d->words);
        return c->cleared = true;
    }
    if (f->refusal == 8)
        return c->lent = lend_needed(d);
    quiet = cure_quietly(&f->cures, &c->words, f->refusal, &moved);
    make_cure(c, &quiet);
    if (moved)
        c->moved_for = f->refusal;
    return quiet.count;
}

/* 6 to 8 are about the viewport that a cure of 5 or 7 moves. */
static void find_cures(const struct curing *c, struct fault *f) {
    uint32_t words[LCD_REGISTERS];
    words_cleared(c->words.dump.words, words);
    if (f->refusal == 1)
        f->then = judge(&c->words.dump, words);
    cures_find(&f->cures, &c->words, f->refusal);
    f->hangs = f->refusal >= 6 && f->refusal <= 8 ? c->moved_for : 0;
}

void faults_find(struct faults *f, const struct dump *d, bool all) {
    struct curing c = {.words.dump = *d};
    uint32_t refusal;
    bool goes_on = true;
    f->count = 0;
    readings_ask(&c.given, &c.words.dump);
    c.words.now = c.given;
    while (goes_on && f->count < MOST_FAULTS && (refusal = judge(&c.words.dump, c.words.dump.words))) {
        struct fault *fault = &f->at[f->count++];
        *fault = (struct fault){.refusal = refusal, .with = c.made, .cleared = c.cleared, .lent = c.lent};
        refusal_numbers(&c.words, &c.given, refusal, fault->numbers);
        if (all)
            find_cures(&c, fault);
        goes_on = all && lift(&c, fault);
        if (fault->hangs)
            fault->cures.count = 0;
    }
}
