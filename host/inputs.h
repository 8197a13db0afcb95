/* What the calls are given, by kinds: random and damaged inputs for the comparison of host/differential.c. */
#ifndef INPUTS_H
#define INPUTS_H

#include <stdbool.h>
#include <stdint.h>
#include "lcd.h"
#include "slices.h"

/* The kinds of arguments that the rows of calls.h name. */
enum kind {
    NO_KIND,
    /* slices to read */
    WORDS,       /* of the case */
    TIMED_WORDS, /* or of a panel of which no memory is lent */
    ANY_WORDS,   /* or of any fields */
    VIDEO, PALETTE, FIELDS,
    /* slices to write, the scan also to read */
    SCAN, NEW_SCAN, CLOCK, TAKEN, COUNTS, PIXEL_COLOUR, ROW_COLOURS, PICTURE, LIT_BYTES, FIELDS_READ, WORDS_WRITTEN, SIZES, STORED,
    /* numbers */
    NUMBERS, WINDOW_START = NUMBERS, EDITION, HCLK, ROW, COLUMN, FRAME, CLOCKS, NEW_LCDSADDR1, NEW_LCDSADDR2, CUT,
    KINDS
};

/* All that the calls of a case are given. The state begins with the words of the case, or of the scan in a list of calls. */
struct inputs {
    struct slice slices[KINDS];
    uint64_t numbers[KINDS];
    uint32_t state[LCD_SCAN_ENTRIES];
    bool sound, in_list, harmed;
};

const char *kind_name(enum kind kind);

bool is_slice(enum kind kind);

/* Begins a case of single calls: a panel with up to three faults, memory and a palette. */
void begin_single_calls(struct inputs *in);

/* Begins a list of calls on one scan: a small TFT panel without a fault, and memory for several viewports. */
void begin_list(struct inputs *in);

/* Makes an argument for the next call: a number, or a slice that is not lent yet. */
void supply(struct inputs *in, enum kind kind);

/* Takes back what was lent to one single call, and all of a case. */
void end_call(struct inputs *in);
void end_case(struct inputs *in);

/* Around each call of a list: the scan is as the call before left it, sometimes with a bit changed or with PNRMODE of STN, which is
 * mostly put right after. */
void begin_call_of_list(struct inputs *in);
void end_call_of_list(struct inputs *in);

/* The list continues with the scan that it was started with. */
void go_on_with_scan(struct inputs *in);

#endif
