/* Compares the archive of lcd.h with the model of model.h, written from the rules alone (docs/REFERENCE.md): random and damaged inputs
 * (inputs.c) go through both, and the answers and every entry of every lent slice afterwards must be the same. calls.h lists the
 * calls and what each is given.
 *
 *     differential [CASES [SEED]]       so many cases
 *     differential --only CASE [SEED]   this one again
 *
 * It ends with a table of how often each call gave each number. It exits with 1 if archive and model differ, and if in 2,000 cases or
 * more a call never gave a number that it can give: then the inputs would miss what they are made for. */
#include <inttypes.h>
#include <signal.h>
#include <stdio.h>
#include <stdlib.h>
#include <string.h>
#include <unistd.h>
#include "calls.h"
#include "chance.h"
#include "inputs.h"
#include "model.h"

enum { CASES = 20000, SEED = 1, ENOUGH = 2000, FEW = 3 };

/* ---- the calls, from their table */

enum { MOST_ARGUMENTS = 12, MOST_NUMBERS = 32 };

struct argument {
    enum kind kind;
    bool written;
};

/* A call, its row of the table taken apart: `make` makes it on one side, `arguments` ends with NO_KIND. */
struct call {
    const char *name;
    uint32_t (*make)(const struct inputs *in, enum side side);
    unsigned times;
    uint32_t can_give;
    struct argument arguments[MOST_ARGUMENTS + 1];
};

#define LENT(kind) in->slices[kind].lent[side], in->slices[kind].len
#define VALUE(kind) in->numbers[kind]
#define MAKE(name, times, can_give, ...)                                                                                           \
    static uint32_t make_##name(const struct inputs *in, enum side side) {                                                         \
        return side == ARCHIVE ? lcd_##name(__VA_ARGS__) : model_##name(__VA_ARGS__);                                              \
    }
CALLS(MAKE, LENT, LENT, VALUE)

#define STAYS(kind) {kind, false}
#define WRITTEN(kind) {kind, true}
#define ROW_OF(name, times, can_give, ...) {"lcd_" #name, make_##name, times, can_give, {__VA_ARGS__}},
static const struct call calls[] = {CALLS(ROW_OF, STAYS, WRITTEN, STAYS)};

enum { NAMES = sizeof calls / sizeof *calls };

static bool writes(const struct call *call, enum kind kind) {
    for (const struct argument *a = call->arguments; a->kind != NO_KIND; a++)
        if (a->kind == kind && a->written)
            return true;
    return false;
}

/* One of the calls that write such a slice, each by its share. */
static const struct call *some_call_that_writes(enum kind kind) {
    uint64_t shares = 0;
    for (int i = 0; i < NAMES; i++)
        shares += writes(&calls[i], kind) ? calls[i].times : 0;
    uint64_t chosen = below(shares);
    for (int i = 0; i < NAMES; i++) {
        uint64_t share = writes(&calls[i], kind) ? calls[i].times : 0;
        if (chosen < share)
            return &calls[i];
        chosen -= share;
    }
    return NULL;
}

/* What is being done: for the report of a difference, or of a crash. */
static struct {
    uint64_t seed, number;
    const struct call *call;
    enum side side;
} now;

static uint32_t answer(const struct inputs *in, const struct call *call, enum side side) {
    now.call = call;
    now.side = side;
    return call->make(in, side);
}

/* ---- the numbers that the calls gave, and those that they can give */

static uint64_t met[NAMES][MOST_NUMBERS];

/* Whether some call can give a number: these are the table's columns. */
static bool is_column(int n) {
    for (int call = 0; call < NAMES; call++)
        if (calls[call].can_give & NUMBER(n))
            return true;
    return false;
}

static void print_row(int call) {
    printf("%-19s", calls[call].name);
    for (int n = 0; n < MOST_NUMBERS; n++) {
        if (calls[call].can_give & NUMBER(n))
            printf(" %7" PRIu64, met[call][n]);
        else if (is_column(n))
            printf(" %7s", "-");
    }
    printf("\n");
}

static void print_table(void) {
    printf("%-19s", "");
    for (int n = 0; n < MOST_NUMBERS; n++)
        if (is_column(n))
            printf(" %7d", n);
    printf("\n");
    for (int call = 0; call < NAMES; call++)
        print_row(call);
}

/* Whether a call gave no number that it cannot give and, after enough cases, each that it can. */
static bool number_is_good(int call, int n, bool enough) {
    bool can = calls[call].can_give & NUMBER(n), gave = met[call][n] > 0;
    if (can == gave || (can && !enough))
        return true;
    printf("differential: %s %s %d\n", calls[call].name, can ? "never gave" : "gave", n);
    return false;
}

static bool table_is_good(bool enough) {
    bool good = true;
    for (int call = 0; call < NAMES; call++)
        for (int n = 0; n < MOST_NUMBERS; n++)
            good = number_is_good(call, n, enough) && good;
    return good;
}

/* ---- differences */

enum { SHOWN = 18 };

static int differences;

static void print_slice(const char *name, const struct slice *slice) {
    printf("    %s of %zu entries:", name, slice->len);
    for (size_t i = 0; i < slice->len && i < SHOWN; i++)
        printf(" 0x%" PRIx64, entry_of(slice, slice->before, i));
    puts(slice->len > SHOWN ? " ..." : "");
}

/* What went into the calls that differ; what differs is printed before. */
static void print_inputs(const struct inputs *in, const struct call *call) {
    for (const struct argument *a = call->arguments; a->kind != NO_KIND; a++) {
        uint64_t number = in->numbers[a->kind];
        if (is_slice(a->kind))
            print_slice(kind_name(a->kind), &in->slices[a->kind]);
        else
            printf("    %s 0x%" PRIx64 ", %" PRIu64 "\n", kind_name(a->kind), number, number);
    }
    printf("    again: differential --only %" PRIu64 " %" PRIu64 "\n", now.number, now.seed);
    differences++;
}

static void print_call(const struct call *call) {
    printf("case %" PRIu64 " of seed %" PRIu64 ": %s: ", now.number, now.seed, call->name);
}

/* Compares a block of a slice with another that holds what is due. */
static bool same_entries(const struct inputs *in, const struct call *call, enum kind kind, enum side side, const void *due) {
    const struct slice *slice = &in->slices[kind];
    ptrdiff_t i;
    if (!blocks_differ(slice, slice->lent[side], due, &i))
        return true;
    print_call(call);
    printf("entry %td of %s, which has %zu: 0x%" PRIx64 " in the %s, due 0x%" PRIx64 ", before 0x%" PRIx64 "\n", i, kind_name(kind),
           slice->len, entry_of(slice, slice->lent[side], i), side == ARCHIVE ? "archive" : "model", entry_of(slice, due, i),
           entry_of(slice, slice->before, i));
    print_inputs(in, call);
    return false;
}

/* What a call reads stays, and what it writes too where it refuses; else archive and model write the same. */
static bool same_slice(const struct inputs *in, const struct call *call, enum kind kind, bool stays) {
    const struct slice *slice = &in->slices[kind];
    if (!stays)
        return same_entries(in, call, kind, ARCHIVE, slice->lent[MODEL]);
    return same_entries(in, call, kind, ARCHIVE, slice->before) && same_entries(in, call, kind, MODEL, slice->before);
}

static bool agree(const struct inputs *in, const struct call *call) {
    uint32_t archive = answer(in, call, ARCHIVE), model = answer(in, call, MODEL);
    bool same = true;
    met[call - calls][model % MOST_NUMBERS]++;
    if (archive != model) {
        print_call(call);
        printf("the archive gives %" PRIu32 ", the model %" PRIu32 "\n", archive, model);
        print_inputs(in, call);
        return false;
    }
    for (const struct argument *a = call->arguments; a->kind != NO_KIND && same; a++)
        same = !is_slice(a->kind) || same_slice(in, call, a->kind, !a->written || model != 0);
    return same;
}

/* ---- cases */

static bool make_call(struct inputs *in, const struct call *call) {
    for (const struct argument *a = call->arguments; a->kind != NO_KIND; a++)
        supply(in, a->kind);
    return agree(in, call);
}

/* One panel through every call. */
static void single_calls(void) {
    struct inputs in;
    begin_single_calls(&in);
    for (int i = 0; i < NAMES; i++)
        for (unsigned left = calls[i].times; left > 0; left--) {
            make_call(&in, &calls[i]);
            end_call(&in);
        }
    end_case(&in);
}

/* A call of a list: what it leaves is lent to the next. */
static bool call_of_list(struct inputs *in, const struct call *call) {
    bool same = make_call(in, call);
    for (const struct argument *a = call->arguments; a->kind != NO_KIND; a++)
        if (a->written)
            hand_on(&in->slices[a->kind]);
    return same;
}

/* A scan over some frames: a start, then whatever goes on with it. */
static void list_of_calls(void) {
    struct inputs in;
    begin_list(&in);
    bool same = call_of_list(&in, some_call_that_writes(NEW_SCAN));
    go_on_with_scan(&in);
    for (uint64_t left = 20 + below(100); left > 0 && same; left--) {
        begin_call_of_list(&in);
        same = call_of_list(&in, some_call_that_writes(SCAN));
        end_call_of_list(&in);
    }
    end_case(&in);
}

static void one_case(uint64_t seed, uint64_t number) {
    now.seed = seed;
    now.number = number;
    begin_chance(seed, number);
    if (below(4) == 0)
        list_of_calls();
    else
        single_calls();
}

/* ---- the program */

/* The address sanitizer says more of a crash by itself. */
#ifdef __SANITIZE_ADDRESS__
static const bool sanitized = true;
#else
static const bool sanitized = false;
#endif

/* Where a call crashes, says which, and ends the program; after a crash only plain writing is safe. */
static void crashed(int signal) {
    char text[200];
    int n = snprintf(text, sizeof text, "case %" PRIu64 " of seed %" PRIu64 ": %s: the %s crashes, signal %d\n", now.number,
                     now.seed, now.call->name, now.side == ARCHIVE ? "archive" : "model", signal);
    _Exit(write(STDOUT_FILENO, text, n) == n ? 1 : 2);
}

static bool read_number(const char *text, uint64_t *number) {
    char *end;
    *number = strtoull(text, &end, 0);
    return *text >= '0' && *text <= '9' && *end == 0;
}

/* So many cases from the first on; whether all agree, and all numbers were met that should be. */
static bool run_cases(uint64_t seed, uint64_t first, uint64_t cases) {
    for (uint64_t i = 0; i < cases && differences < FEW; i++)
        one_case(seed, first + i);
    if (differences > 0) {
        printf("differential: seed %" PRIu64 ": archive and model differ\n", seed);
        return false;
    }
    print_table();
    if (!table_is_good(cases >= ENOUGH))
        return false;
    printf("differential: %" PRIu64 " case%s, seed %" PRIu64 ": archive and model agree\n", cases, cases == 1 ? "" : "s", seed);
    return true;
}

int main(int argc, char **argv) {
    uint64_t number = CASES, seed = SEED;
    bool only = argc > 1 && strcmp(argv[1], "--only") == 0;
    argc -= 1 + only;
    argv += 1 + only;
    bool good = argc <= 2 && argc >= only;
    good = good && (argc < 1 || read_number(argv[0], &number)) && (argc < 2 || read_number(argv[1], &seed));
    if (!good) {
        puts("usage: differential [CASES [SEED]] or differential --only CASE [SEED]");
        return 2;
    }
    if (!sanitized) {
        signal(SIGSEGV, crashed);
        signal(SIGABRT, crashed);
    }
    good = only ? run_cases(seed, number, 1) : run_cases(seed, 0, number);
    return good ? 0 : 1;
}
