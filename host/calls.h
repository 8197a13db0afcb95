/* The calls of lcd.h, a row each. From these rows model.h declares a twin for each call, and differential.c compares the two.
 *
 *     CALL(name, times, numbers, arguments)
 *
 * name       of lcd_NAME in the archive and model_NAME in the model
 * times      how often a case makes the call; for a call that starts or continues a scan, also its share of a list of calls
 * numbers    those that it can give: UP_TO(n) is 0 to n, NUMBER(n) is n
 * arguments  in their order, each of a kind of inputs.h: READ is a slice that the call reads, WRITE one that it writes, VALUE a number
 *
 * A further call is a row here and its twin in model.c. If it takes an argument of a new kind, that is a name in inputs.h and a row of
 * `kinds` in inputs.c with the function that makes it. */
#ifndef CALLS_H
#define CALLS_H

#define UP_TO(n) ((2u << (n)) - 1)
#define NUMBER(n) (1u << (n))

#define CALLS(CALL, READ, WRITE, VALUE)                                                                                            \
    CALL(check, 1, UP_TO(8) | NUMBER(10) | NUMBER(17), READ(WORDS), VALUE(WINDOW_START), READ(VIDEO))                              \
    CALL(counts, 1, UP_TO(7) | NUMBER(10) | NUMBER(17) | NUMBER(27), READ(TIMED_WORDS), VALUE(EDITION), VALUE(HCLK),               \
         WRITE(COUNTS))                                                                                                            \
    CALL(draw_pixel, 1, UP_TO(11), READ(WORDS), VALUE(WINDOW_START), READ(VIDEO), READ(PALETTE), VALUE(ROW), VALUE(COLUMN),        \
         WRITE(PIXEL_COLOUR))                                                                                                      \
    CALL(draw_row, 1, UP_TO(11), READ(WORDS), VALUE(WINDOW_START), READ(VIDEO), READ(PALETTE), VALUE(ROW), WRITE(ROW_COLOURS))     \
    CALL(draw_picture, 1, UP_TO(10), READ(WORDS), VALUE(WINDOW_START), READ(VIDEO), READ(PALETTE), WRITE(PICTURE))                 \
    CALL(draw_stn, 2, UP_TO(10) | NUMBER(17), READ(WORDS), VALUE(WINDOW_START), READ(VIDEO), VALUE(FRAME), WRITE(LIT_BYTES))       \
    CALL(read_fields, 1, UP_TO(1) | NUMBER(10), READ(ANY_WORDS), WRITE(FIELDS_READ))                                               \
    CALL(write_fields, 1, NUMBER(0) | NUMBER(10) | NUMBER(12), READ(FIELDS), WRITE(WORDS_WRITTEN))                                 \
    CALL(read_sizes, 1, UP_TO(1) | NUMBER(10), READ(ANY_WORDS), WRITE(SIZES))                                                      \
    CALL(start, 1, UP_TO(10), READ(WORDS), VALUE(WINDOW_START), READ(VIDEO), WRITE(NEW_SCAN))                                      \
    CALL(step, 4, UP_TO(10) | NUMBER(13) | NUMBER(15), WRITE(SCAN), READ(VIDEO), READ(PALETTE), WRITE(CLOCK))                      \
    CALL(run, 3, UP_TO(10) | NUMBER(13) | NUMBER(15), WRITE(SCAN), READ(VIDEO), READ(PALETTE), VALUE(CLOCKS), WRITE(PICTURE),      \
         WRITE(TAKEN))                                                                                                             \
    CALL(change_viewport, 2, UP_TO(10) | NUMBER(13) | NUMBER(15), WRITE(SCAN), READ(VIDEO), VALUE(NEW_LCDSADDR1),                  \
         VALUE(NEW_LCDSADDR2))                                                                                                     \
    CALL(load, 2, UP_TO(8) | NUMBER(10) | NUMBER(17), WRITE(STORED), READ(WORDS), VALUE(WINDOW_START), READ(VIDEO), VALUE(CUT))

#endif
