/* What the tools and their parts share: the report, errors, memory, and files that are read whole. */
#ifndef FILES_H
#define FILES_H

#include <stdbool.h>
#include <stddef.h>
#include <stdint.h>
#include <stdio.h>

/* The tool's name, as errors begin with it. Each tool has its own, beside its main function. */
extern const char program_name[];

/* ---- the report, and errors */

/* Prints a part of the report: to standard output, or to standard error where a picture or a dump goes to standard output. */
void say(const char *format, ...) __attribute__((format(printf, 1, 2)));

/* The report's stream and its name; and from now on standard error. */
FILE *report_stream(void);
const char *report_name(void);
void report_to_errors(void);

/* Says what is wrong with a file (or another thing) on standard error. */
void complain(const char *what, const char *why);

/* The same, and ends the program with 2. */
_Noreturn void fail(const char *what, const char *why);

/* The same for a call that is wrong in itself: what helps is named. */
_Noreturn void misuse(const char *what, const char *why);

/* Sends off what was said; ends the program with 2 where it is lost. */
void report_flush(void);

/* Ends the program with this status, or with 2 where a line of the report was lost. */
_Noreturn void finish(int status);

/* A block of at least `size` bytes in place of `block`; ends the program where there is no memory. */
void *grow(void *block, size_t size);

/* ---- files, whole */

struct bytes {
    uint8_t *at;
    size_t length;
};

/* Reads a file, or standard input where the path is "-". Returns NULL, or why it can't be read. The caller frees `b->at`. */
const char *file_read(const char *path, struct bytes *b);

/* What an input is called where it is at fault. */
const char *input_name(const char *path);

/* Reads a file or ends the program. */
struct bytes file_need(const char *path);

#endif
