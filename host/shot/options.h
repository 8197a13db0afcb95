/* What the command line asks for. */
#ifndef OPTIONS_H
#define OPTIONS_H

#include <stdbool.h>
#include <stdint.h>
#include "../lcd.h"

struct options {
    const char **dumps;
    int dump_count;
    const char *words[LCD_REGISTERS]; /* words[0] is NULL where --words is not given, and so are the others below */
    const char *hclk, *memory, *start, *palette, *palette_bytes;
    const char *output, *golden, *differences, *tolerance, *against, *golden_dir;
    const char *card[3];
    const char *registers, *json; /* not NULL where given */
    const char *frame, *animate, *edition;
    uint32_t first_frame, frames, rule_edition; /* their numbers: 0, 1 and 1 where not given */
};

/* Reads the command line; ends the program where it is wrong, or asks for help or the version. */
struct options options_read(int argc, char **argv);

/* Whether a line for each dump is asked for. */
bool options_several(const struct options *o);

/* Whether -o asks for a dump. */
bool options_dump_out(const struct options *o);

/* The tolerance, 0 where none is given. */
uint32_t options_tolerance(const struct options *o);

/* A decimal number of at most `most`, or a hexadecimal one of 32 bits; `what` names it where it is wrong. */
uint32_t decimal_of(const char *option, const char *what, const char *text, uint32_t most);
uint32_t hexadecimal_of(const char *option, const char *what, const char *text);

#endif
