/* Files that are written: apart from all that is read, and whole or not at all. */
#define _GNU_SOURCE
#include "outputs.h"
#include <errno.h>
#include <fcntl.h>
#include <limits.h>
#include <signal.h>
#include <stdbool.h>
#include <stdlib.h>
#include <string.h>
#include <sys/stat.h>
#include <unistd.h>

/* ---- where a file lies */

/* A file by device and inode; one that is not there yet by its folder's and its name. */
struct place {
    const char *named; /* as the call names it */
    struct stat file;
    bool is_new;
    bool renamed; /* whether a file beside takes the place; else it is written straight */
    char *path;   /* of a file that is renamed without symbolic links; NULL for a stream */
};

static struct place places[MOST_OUTPUTS];
static size_t place_count;

static char *copy_of(const char *text) { return strcpy(grow(NULL, strlen(text) + 1), text); }

/* What a symbolic link leads to, seen from the link's folder; the path itself is given up. NULL where it is no link. */
static char *link_target(char *path) {
    char target[PATH_MAX];
    ssize_t length = readlink(path, target, sizeof target - 1);
    char *slash = strrchr(path, '/'), *joined;
    if (length < 0)
        return NULL;
    target[length] = 0;
    if (*target == '/' || !slash) {
        joined = copy_of(target);
    } else {
        slash[1] = 0;
        joined = grow(NULL, strlen(path) + (size_t)length + 1);
        strcat(strcpy(joined, path), target);
    }
    free(path);
    return joined;
}

/* A new file's place: its folder, which must be there, and its name, at the end of symbolic links that lead nowhere yet. */
static bool find_new(const char *path, struct place *p) {
    char *at = copy_of(path), *next, *slash, *folder;
    for (int links = 0; links < 40 && (next = link_target(at)); links++)
        at = next;
    slash = strrchr(at, '/');
    if (slash)
        *slash = 0;
    folder = realpath(!slash ? "." : slash == at ? "/" : at, NULL);
    p->is_new = p->renamed = true;
    p->path = NULL;
    if (folder && stat(folder, &p->file) == 0 && (slash ? slash[1] : *at)) {
        const char *name = slash ? slash + 1 : at;
        p->path = grow(NULL, strlen(folder) + strlen(name) + 2);
        sprintf(p->path, "%s/%s", strcmp(folder, "/") ? folder : "", name);
    } else if (folder) {
        errno = ENOENT;
    }
    free(folder);
    free(at);
    return p->path;
}

static bool same_inode(const struct stat *a, const struct stat *b) { return a->st_dev == b->st_dev && a->st_ino == b->st_ino; }

/* Whether an output goes to standard output: "-", or another name of a pipe or file that standard output is. */
static bool is_standard_output(const char *path) {
    struct stat out, file;
    if (!strcmp(path, "-"))
        return true;
    return fstat(STDOUT_FILENO, &out) == 0 && !S_ISCHR(out.st_mode) && stat(path, &file) == 0 && same_inode(&out, &file);
}

/* Where an output lies or will lie; false, with errno, where it can't. */
static bool find_output(const char *path, struct place *p) {
    p->is_new = p->renamed = false;
    p->path = NULL;
    if (is_standard_output(path))
        return fstat(STDOUT_FILENO, &p->file) == 0;
    if (stat(path, &p->file))
        return errno == ENOENT && find_new(path, p);
    if (S_ISDIR(p->file.st_mode)) {
        errno = EISDIR;
        return false;
    }
    p->path = S_ISREG(p->file.st_mode) ? realpath(path, NULL) : NULL;
    p->renamed = p->path;
    if (!p->path)
        p->path = copy_of(path);
    return true;
}

static const char *last_name(const char *path) { return strrchr(path, '/') + 1; }

static bool same_place(const struct place *a, const struct place *b) {
    if (a->is_new != b->is_new || !same_inode(&a->file, &b->file))
        return false;
    return !a->is_new || !strcmp(last_name(a->path), last_name(b->path));
}

/* ---- inputs and outputs apart */

static const char *output_name(const char *path) { return strcmp(path, "-") ? path : "standard output"; }

static _Noreturn void fail_same(const char *output, const char *what, const char *other) {
    char why[2 * PATH_MAX];
    snprintf(why, sizeof why, "the same file as %s %s; nothing is written", what, other);
    fail(output_name(output), why);
}

/* The input that is this file, or NULL. A terminal or a socket may be both standard streams: nothing is lost there. */
static const char *input_at(const struct place *p, const char *const *inputs, size_t count) {
    for (size_t i = 0; i < count; i++) {
        struct stat input;
        bool stream = inputs[i] && !strcmp(inputs[i], "-");
        if (!inputs[i] || p->is_new || (stream ? fstat(STDIN_FILENO, &input) : stat(inputs[i], &input)))
            continue;
        if (same_inode(&p->file, &input) && (p->path || !stream || S_ISREG(input.st_mode)))
            return input_name(inputs[i]);
    }
    return NULL;
}

/* The input that a stream's file is, or NULL. */
static const char *input_of_stream(int descriptor, const char *const *inputs, size_t count) {
    struct place p = {.is_new = false};
    return fstat(descriptor, &p.file) == 0 && S_ISREG(p.file.st_mode) ? input_at(&p, inputs, count) : NULL;
}

/* The report and the errors are outputs too. What is wrong is told where it does no harm. */
static void streams_apart(const char *const *inputs, size_t count) {
    const char *out = input_of_stream(STDOUT_FILENO, inputs, count), *err = input_of_stream(STDERR_FILENO, inputs, count);
    if (!out && !err)
        return;
    if (!out || !err)
        fprintf(err ? stdout : stderr, "%s: standard %s: the same file as the input %s; nothing is written\n", program_name,
                err ? "error" : "output", err ? err : out);
    exit(2);
}

/* Whether the report goes into this output, and is not lost as in a null device. */
static bool report_goes_to(const struct place *p) {
    struct stat stream;
    return !p->is_new && !S_ISCHR(p->file.st_mode) && fstat(fileno(report_stream()), &stream) == 0 && same_inode(&p->file, &stream);
}

static void add_place(const char *path, const char *const *inputs, size_t input_count) {
    struct place *p = &places[place_count];
    const char *input;
    p->named = path;
    if (!find_output(path, p))
        fail(path, strerror(errno));
    if ((input = input_at(p, inputs, input_count)))
        fail_same(path, "the input", input);
    if (report_goes_to(p))
        fail_same(path, "the report on", report_name());
    for (size_t i = 0; i < place_count; i++)
        if (same_place(&places[i], p))
            fail_same(path, "the output", output_name(places[i].named));
    place_count++;
}

void outputs_apart(const char *const *inputs, size_t input_count, const char *const *outputs, size_t output_count) {
    streams_apart(inputs, input_count);
    for (size_t i = 0; i < output_count; i++)
        if (outputs[i] && is_standard_output(outputs[i]))
            report_to_errors();
    for (size_t i = 0; i < output_count; i++)
        if (outputs[i])
            add_place(outputs[i], inputs, input_count);
}

/* ---- a file beside its place, which goes where the program ends */

/* Its path; NULL where there is none. Signals wait while it changes. */
static char *beside;

static const int ending[] = {SIGINT,  SIGTERM, SIGHUP,    SIGQUIT, SIGALRM, SIGUSR1,
                             SIGUSR2, SIGXCPU, SIGVTALRM, SIGPROF, SIGPOLL};

static void remove_beside(void) {
    if (beside)
        unlink(beside);
}

static void end(int number) {
    remove_beside();
    signal(number, SIG_DFL);
    raise(number);
}

static void hold_signals(bool hold) {
    sigset_t set;
    sigemptyset(&set);
    for (size_t i = 0; i < sizeof ending / sizeof *ending; i++)
        sigaddset(&set, ending[i]);
    sigprocmask(hold ? SIG_BLOCK : SIG_UNBLOCK, &set, NULL);
}

/* A pipe that nobody reads is an error like any other; a signal that the caller ignores stays ignored. */
static void watch_signals(void) {
    static bool watched;
    if (!watched)
        atexit(remove_beside);
    watched = true;
    signal(SIGPIPE, SIG_IGN);
    for (size_t i = 0; i < sizeof ending / sizeof *ending; i++)
        if (signal(ending[i], end) == SIG_IGN)
            signal(ending[i], SIG_IGN);
}

/* ---- writing */

/* The rights that a new file gets: mkstemp gives fewer. */
static mode_t usual_rights(void) {
    mode_t mask = umask(0);
    umask(mask);
    return 0666 & ~mask;
}

static void put_all(int descriptor, const char *path, const struct bytes *b) {
    for (size_t done = 0; done < b->length;) {
        ssize_t put = write(descriptor, b->at + done, b->length - done);
        if (put == 0 || (put < 0 && errno != EINTR))
            fail(path, put ? strerror(errno) : "it takes nothing");
        done += put < 0 ? 0 : (size_t)put;
    }
}

/* A new file in the folder of the place. */
static int open_beside(const struct place *p) {
    static const char name[] = ".lcdshot-XXXXXX";
    char *path = grow(NULL, strlen(p->path) + sizeof name);
    int descriptor;
    strcpy(path, p->path);
    strcpy(strrchr(path, '/') + 1, name);
    hold_signals(true);
    descriptor = mkstemp(path);
    if (descriptor >= 0)
        beside = path;
    hold_signals(false);
    if (descriptor < 0)
        fail(p->named, strerror(errno));
    return descriptor;
}

/* Owner and group stay those of the file that is replaced, where that is allowed. */
static void keep_rights(int descriptor, const struct place *p) {
    mode_t mode = p->is_new ? usual_rights() : p->file.st_mode & 07777;
    if (!p->is_new && fchown(descriptor, p->file.st_uid, p->file.st_gid) && errno != EPERM)
        fail(p->named, strerror(errno));
    if (fchmod(descriptor, mode))
        fail(p->named, strerror(errno));
}

static void write_beside(const struct place *p, const struct bytes *b) {
    int descriptor, renamed;
    if (!p->is_new && faccessat(AT_FDCWD, p->path, W_OK, AT_EACCESS))
        fail(p->named, strerror(errno));
    descriptor = open_beside(p);
    keep_rights(descriptor, p);
    put_all(descriptor, p->named, b);
    if (close(descriptor))
        fail(p->named, strerror(errno));
    hold_signals(true);
    renamed = rename(beside, p->path);
    if (renamed == 0) {
        free(beside);
        beside = NULL;
    }
    hold_signals(false);
    if (renamed)
        fail(p->named, strerror(errno));
}

static void write_straight(const struct place *p, const struct bytes *b) {
    int descriptor = p->path ? open(p->path, O_WRONLY | O_NOCTTY) : STDOUT_FILENO;
    const char *name = p->path ? p->named : "standard output";
    if (descriptor < 0)
        fail(name, strerror(errno));
    if (isatty(descriptor))
        fail(name, "a terminal; give a file, or a program to read it");
    put_all(descriptor, name, b);
    if (p->path && close(descriptor))
        fail(name, strerror(errno));
}

void output_write(const char *path, const struct bytes *b) {
    const struct place *p = places;
    while (p->named != path)
        p++;
    watch_signals();
    if (p->renamed)
        write_beside(p, b);
    else
        write_straight(p, b);
}
