/* The report, errors, memory, and files that are read whole. */
#include "files.h"
#include <errno.h>
#include <stdarg.h>
#include <stdlib.h>
#include <string.h>

/* Where the report goes; NULL is standard output. */
static FILE *report;

/* ---- the report, and errors */

FILE *report_stream(void) { return report ? report : stdout; }

const char *report_name(void) { return report ? "standard error" : "standard output"; }

void report_to_errors(void) { report = stderr; }

void say(const char *format, ...) {
    va_list arguments;
    va_start(arguments, format);
    vfprintf(report_stream(), format, arguments);
    va_end(arguments);
}

void complain(const char *what, const char *why) {
    fflush(stdout);
    fprintf(stderr, "%s: %s: %s\n", program_name, *what ? what : "''", why);
}

void fail(const char *what, const char *why) {
    complain(what, why);
    exit(2);
}

void misuse(const char *what, const char *why) {
    fflush(stdout);
    fprintf(stderr, "%s: %s: %s; see %s --help\n", program_name, *what ? what : "''", why, program_name);
    exit(2);
}

void report_flush(void) {
    errno = 0;
    if (fflush(report_stream()) || ferror(report_stream()))
        fail(report_name(), errno ? strerror(errno) : "can't be written");
}

void finish(int status) {
    report_flush();
    if (fclose(stdout) && errno != EBADF)
        fail("standard output", strerror(errno));
    exit(status);
}

void *grow(void *block, size_t size) {
    void *larger = realloc(block, size ? size : 1);
    if (!larger)
        fail("memory", strerror(ENOMEM));
    return larger;
}

/* ---- reading */

static const char *read_stream(FILE *file, struct bytes *b) {
    size_t room = 1 << 16, got;
    b->at = grow(NULL, room);
    b->length = 0;
    while ((got = fread(b->at + b->length, 1, room - b->length, file)) > 0) {
        b->length += got;
        if (b->length == room)
            b->at = grow(b->at, room *= 2);
    }
    if (ferror(file))
        return strerror(errno);
    b->at = grow(b->at, b->length);
    return NULL;
}

const char *file_read(const char *path, struct bytes *b) {
    FILE *file = strcmp(path, "-") ? fopen(path, "rb") : stdin;
    const char *why;
    *b = (struct bytes){NULL, 0};
    if (!file)
        return strerror(errno);
    why = read_stream(file, b);
    if (file != stdin)
        fclose(file);
    if (why)
        free(b->at), b->at = NULL;
    return why;
}

const char *input_name(const char *path) { return strcmp(path, "-") ? path : "standard input"; }

struct bytes file_need(const char *path) {
    struct bytes b;
    const char *why = file_read(path, &b);
    if (why)
        fail(input_name(path), why);
    return b;
}
