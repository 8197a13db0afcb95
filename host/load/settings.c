/* The settings file, read and loaded in place. */
#define _GNU_SOURCE
#include "settings.h"
#include <errno.h>
#include <fcntl.h>
#include <inttypes.h>
#include <stdio.h>
#include <stdlib.h>
#include <string.h>
#include <sys/file.h>
#include <sys/stat.h>
#include <unistd.h>
#include "../shot/fields.h"
#include "../shot/files.h"

/* ---- opening */

/* Whether there is a regular file; false where there is nothing. Anything else is not even opened: a device may act on that. */
static bool is_there(const char *path) {
    struct stat file;
    bool there = stat(path, &file) == 0;
    if (!there && errno != ENOENT)
        fail(path, strerror(errno));
    if (!there && lstat(path, &file) == 0)
        fail(path, "a symbolic link that leads nowhere");
    if (there && !S_ISREG(file.st_mode))
        fail(path, "not a regular file");
    return there;
}

/* Sends the file's name to the medium: whoever made the file may have been stopped before that. Not every folder can be read or sent. */
static void send_name(const char *path) {
    char *real = realpath(path, NULL), *slash = real ? strrchr(real, '/') : NULL, why[150];
    int folder;
    if (!slash)
        fail(path, strerror(errno));
    slash[slash == real] = 0; /* the folder; the slash of the topmost one stays */
    folder = open(real, O_RDONLY | O_DIRECTORY | O_CLOEXEC);
    if (folder >= 0 && fsync(folder) && errno != EINVAL) {
        snprintf(why, sizeof why, "its name may not be on the medium: %s; nothing is written", strerror(errno));
        fail(path, why);
    }
    if (folder >= 0)
        close(folder);
    free(real);
}

bool settings_open(struct settings *s, const char *path) {
    if (!is_there(path))
        return false;
    send_name(path);
    s->path = path;
    s->descriptor = open(path, O_RDWR | O_CLOEXEC);
    if (s->descriptor < 0)
        fail(path, strerror(errno));
    if (flock(s->descriptor, LOCK_EX | LOCK_NB))
        fail(path, errno == EWOULDBLOCK ? "locked: another load, or a look at it, is under way; nothing is written" : strerror(errno));
    return true;
}

void settings_close(struct settings *s) { close(s->descriptor); }

/* ---- reading */

/* False, with errno, where the file can't be read. */
static bool read_block(const struct settings *s, struct block *b) {
    uint8_t bytes[BLOCK_BYTES];
    ssize_t got = 1;
    size_t length = 0;
    while (length < sizeof bytes && got) {
        got = pread(s->descriptor, bytes + length, sizeof bytes - length, (off_t)length);
        if (got < 0 && errno != EINTR)
            return false;
        length += got < 0 ? 0 : (size_t)got;
    }
    *b = block_of(bytes, length);
    return true;
}

struct block settings_read(const struct settings *s) {
    struct block b;
    if (!read_block(s, &b))
        fail(s->path, strerror(errno));
    return b;
}

/* A lock that keeps loads away while a regular file is read: its descriptor, or -1 where none is needed or to be had. */
static int lock_out_loads(const char *path, bool *loading) {
    struct stat file;
    int descriptor = stat(path, &file) == 0 && S_ISREG(file.st_mode) ? open(path, O_RDONLY | O_CLOEXEC) : -1;
    *loading = descriptor >= 0 && flock(descriptor, LOCK_SH | LOCK_NB) && errno == EWOULDBLOCK;
    return descriptor;
}

/* The bytes of nine words that a file begins with: it may be a whole card. A pipe is read to its end, or its writer would fail. */
static const char *read_first(const char *path, struct bytes *b) {
    FILE *file = strcmp(path, "-") ? fopen(path, "rb") : stdin;
    const char *why;
    struct stat kind;
    if (!file)
        return strerror(errno);
    b->at = grow(NULL, BLOCK_BYTES);
    b->length = fread(b->at, 1, BLOCK_BYTES, file);
    if (fstat(fileno(file), &kind) == 0 && S_ISFIFO(kind.st_mode))
        while (getc(file) != EOF)
            ;
    why = ferror(file) ? strerror(errno) : NULL;
    if (file != stdin)
        fclose(file);
    return why;
}

const char *settings_bytes(const char *path, bool all, struct bytes *b) {
    bool loading = false;
    int lock = lock_out_loads(strcmp(path, "-") ? path : "/dev/stdin", &loading);
    const char *why = loading ? "locked: a load is under way; ask again" : all ? file_read(path, b) : read_first(path, b);
    if (lock >= 0)
        close(lock);
    return why;
}

const char *settings_look(const char *path, struct block *b) {
    struct bytes bytes = {NULL, 0};
    const char *why = settings_bytes(path, false, &bytes);
    if (!why)
        *b = block_of(bytes.at, bytes.length);
    free(bytes.at);
    return why;
}

/* ---- storing */

/* Puts a word in its place: how many of its bytes, or -1. */
static ssize_t put_word(const struct settings *s, int entry, uint32_t word) {
    uint8_t bytes[4];
    ssize_t put;
    word_to_bytes(word, bytes);
    do
        put = pwrite(s->descriptor, bytes, sizeof bytes, (off_t)sizeof bytes * entry);
    while (put < 0 && errno == EINTR);
    return put;
}

static bool reaches_medium(const struct settings *s) {
    int failed;
    do
        failed = fdatasync(s->descriptor);
    while (failed && errno == EINTR);
    return !failed;
}

/* Whether the file holds these words, as far as can be seen. */
static bool holds(const struct settings *s, const uint32_t *words) {
    struct block now;
    return read_block(s, &now) && now.count == LCD_REGISTERS && !memcmp(now.words, words, BLOCK_BYTES);
}

/* What so many stores leave. */
static const char *left_by(uint32_t stores) {
    return stores == 0 ? "has the old settings whole" : stores < LCD_STORES ? "has video off" : "has the new settings whole";
}

/* A store that is in doubt may have been made or not. */
static _Noreturn void fail_store(const struct settings *s, uint32_t store, const char *how, bool in_doubt) {
    const char *left = left_by(store - 1), *else_left = left_by(store);
    bool either = in_doubt && strcmp(left, else_left);
    char why[400];
    snprintf(why, sizeof why,
             "store %" PRIu32 " of %d, %s: %s; %" PRIu32 " of %d stores are made%s, so the file %s%s%s; "
             "loading again ends with the new settings",
             store, LCD_STORES, register_names[store_entry(store)], how, store - 1, LCD_STORES, in_doubt ? " for certain" : "", left,
             either ? " or " : "", either ? else_left : "");
    fail(s->path, why);
}

/* A write that fails leaves the word as it was, unless the file shows otherwise. */
static void make_store(const struct settings *s, const struct images *i, uint32_t store) {
    int entry = store_entry(store);
    ssize_t put = put_word(s, entry, i->after[store][entry]);
    char how[100];
    if (put < 0)
        snprintf(how, sizeof how, "%s", strerror(errno));
    else
        snprintf(how, sizeof how, "%zd of its 4 bytes are written", put);
    if (put < 4)
        fail_store(s, store, how, put >= 0 || !holds(s, i->after[store - 1]));
    if (reaches_medium(s))
        return;
    snprintf(how, sizeof how, "it may not be on the medium, %s", strerror(errno));
    fail_store(s, store, how, true);
}

void settings_store(const struct settings *s, const struct images *i, uint32_t stores) {
    char why[100];
    for (uint32_t store = 1; store <= stores; store++)
        make_store(s, i, store);
    snprintf(why, sizeof why, "%" PRIu32 " of %d stores are made, but the file doesn't show them; load again", stores, LCD_STORES);
    if (!holds(s, i->after[stores]))
        fail(s->path, why);
}
