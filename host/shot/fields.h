/* The registers and their fields by name (docs/REFERENCE.md, §1.2): where they lie, as the library tells it, their numbers in a dump,
 * and what a number means. */
#ifndef FIELDS_H
#define FIELDS_H

#include <stdbool.h>
#include <stdint.h>
#include "../lcd.h"
#include "dump.h"

enum { WORD_BITS = 32 };

extern const char *const register_names[LCD_REGISTERS];

const char *field_name(int field);

/* ---- the kind of panel */

/* The numbers of PNRMODE that select one: STN, 8-bit single scan, and TFT (docs/REFERENCE.md, §2). */
enum { PANEL_STN = 2, PANEL_TFT = 3 };

/* Whether words are an STN panel's. These have a layout, sizes and rules of their own (§1.7, §2.3); all others have TFT's. */
bool is_stn(const uint32_t *words);

/* What an STN panel has in a field's bits: WDLY for HBPD, LINEBLANK for HFPD, WLH for HSPW; of others the same name. */
const char *stn_field_name(int field);

/* ---- the layout */

enum { RESERVED = -1, READ_ONLY = -2 };

/* Bits of a word that belong together: a field, or reserved bits. */
struct part {
    int high, low;
    int field;        /* of lcd_field, RESERVED or READ_ONLY */
    const char *name; /* NULL for reserved bits */
};

struct layout {
    bool stn;
    struct part parts[LCD_REGISTERS][WORD_BITS]; /* from bit 31 down */
    int count[LCD_REGISTERS];
    uint32_t reserved[LCD_REGISTERS]; /* the reserved bits of each register */
    int word[LCD_FIELDS], low[LCD_FIELDS];
    uint32_t most[LCD_FIELDS]; /* a field's register, lowest bit and largest number */
};

/* The layout as the library tells it: which field changes with a bit. It is a TFT panel's, where each field has all its bits. */
const struct layout *layout_asked(void);

/* The layout of these words: TFT's or STN's. */
const struct layout *layout_of(const uint32_t *words);

/* The number that a part of a word holds. */
uint32_t part_number(const struct part *p, uint32_t word);

/* The nine words without their reserved bits. */
void words_cleared(const uint32_t *words, uint32_t *cleared);

/* Puts a number, which must fit, into a field of nine words. */
void put_field(uint32_t *words, int field, uint32_t number);

/* ---- a dump's numbers and their meaning */

struct readings {
    const struct dump *dump;
    uint32_t fields[LCD_FIELDS], sizes[LCD_SIZES];
};

/* Fields and sizes of the words; reserved bits that are set, for which reading refuses, are left out. */
void readings_ask(struct readings *r, const struct dump *d);

enum { MEANING = 120 };

/* Whether PNRMODE selects neither panel. Such words are refused, and their sizes and meanings are by TFT's rules. */
bool is_neither(const struct readings *r);

/* What a field's number means, in at most MEANING characters. */
void field_meaning(const struct readings *r, int field, char *to);

/* "16 bits a pixel" and so on. */
void mode_meaning(const struct readings *r, char *to);

/* A rate as "109.553 Hz", with `millihertz` in thousandths of a hertz; "10.000 MHz" where that is shorter. */
void rate_text(uint64_t millihertz, char *to);

/* A time as "69.520 us", with milliseconds or seconds where it is longer. */
void time_text(uint64_t nanoseconds, char *to);

/* HCLK over so many ticks, in thousandths of a hertz, rounded down. */
uint64_t millihertz_of(uint32_t hclk, uint64_t ticks);

/* ---- HCLK ticks */

/* The ticks of an STN line in which no clock runs (§6.8), as the library counts them: VLINE's pulse by WLH, its delay by WDLY, the
 * blank time by LINEBLANK. */
struct stn_pauses {
    uint64_t vline, delay, blank;
};

/* By a rule edition, 1 or 2. */
struct stn_pauses stn_pauses_of(const struct readings *r, uint32_t edition);

/* The ticks of a line, on STN by a rule edition. */
uint64_t line_ticks(const struct readings *r, uint32_t edition);

/* What is said beside an STN panel's length or rate, " by rule edition 1" or 2 as the dump has it; nothing of another panel. */
const char *by_edition(const struct dump *d);

#endif
