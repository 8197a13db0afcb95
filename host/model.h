/* A second model of the controller, in plain C: for each call of lcd.h a twin with the same parameters, answers and lent slices.
 * It is written from the rules alone (docs/REFERENCE.md), not from the crates, and shares no code with the library, so that
 * host/differential.c can compare the two. It is there to be read, not to be fast: rules.c has the words, memory, colours and
 * clocks (§1 to §6), model.c the refusals (§9), the scan (§7), the stores of a load (§1.8) and the calls. In this model's comments a
 * section such as §4.2 is one of docs/REFERENCE.md. */
#ifndef MODEL_H
#define MODEL_H

#include <stddef.h>
#include <stdint.h>
#include "calls.h"
#include "lcd.h"

enum { MODEL_WORDS = 9 };

/* Further fields, which follow the 34 writable ones of lcd.h: the read-only ones, then those that STN panels alone have (§1.7). */
enum model_further {
    MODEL_LINECNT = LCD_FIELDS, MODEL_VSTATUS, MODEL_HSTATUS,
    MODEL_WDLY, MODEL_LINEBLANK, MODEL_WLH,
    MODEL_FIELDS
};

/* Where a field lies: its word, counted from 0, and its highest and lowest bit. */
struct model_field {
    int word, high, low;
};

extern const struct model_field model_fields[MODEL_FIELDS];

/* The greatest number that fits a field: 2^n - 1 for n bits. */
uint64_t model_limit(int name);

/* The twins: lcd_check's is model_check, and so on. */
#define TWIN(name, ...) __typeof__(lcd_##name) model_##name;
#define NOTHING(kind)
CALLS(TWIN, NOTHING, NOTHING, NOTHING)
#undef TWIN
#undef NOTHING

#endif
