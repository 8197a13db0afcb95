/* A settings file that was not there. It is made whole before it has its name, and takes no other file's place. */
#define _GNU_SOURCE
#include <errno.h>
#include <fcntl.h>
#include <stdio.h>
#include <stdlib.h>
#include <string.h>
#include <unistd.h>
#include "../shot/files.h"
#include "settings.h"

/* Where the file is to be: a folder, which is open, and a name in it. */
struct place {
    const char *path, *name;
    int folder;
};

static struct place place_of(const char *path) {
    const char *slash = strrchr(path, '/');
    struct place p = {path, slash ? slash + 1 : path, -1};
    char *folder = strcpy(grow(NULL, strlen(path) + 2), slash ? path : ".");
    if (slash)
        folder[p.name - path] = 0;
    p.folder = open(folder, O_RDONLY | O_DIRECTORY | O_CLOEXEC);
    if (p.folder < 0)
        fail(path, strerror(errno));
    free(folder);
    return p;
}

static _Noreturn void fail_making(const struct place *p, int error) {
    char why[200];
    snprintf(why, sizeof why, "%s; nothing is written", error == EEXIST ? "it has appeared meanwhile" : strerror(error));
    fail(p->path, why);
}

/* ---- the file */

/* Writes the words and sends them to the medium; false, with errno, where that fails. */
static bool fill(int descriptor, const uint32_t *words) {
    uint8_t bytes[BLOCK_BYTES];
    size_t done = 0;
    words_to_bytes(words, bytes);
    while (done < sizeof bytes) {
        ssize_t put = write(descriptor, bytes + done, sizeof bytes - done);
        if (put == 0)
            errno = EIO; /* or it would go on for ever */
        if (put == 0 || (put < 0 && errno != EINTR))
            return false;
        done += put < 0 ? 0 : (size_t)put;
    }
    return fsync(descriptor) == 0;
}

/* A file without a name, of which nothing is left where the power goes; then its name. Returns false where the file system has no such
 * files. */
static bool make_nameless(const struct place *p, const uint32_t *words) {
    int descriptor = openat(p->folder, ".", O_TMPFILE | O_WRONLY | O_CLOEXEC, 0666);
    char itself[40];
    bool named;
    if (descriptor < 0)
        return false;
    if (!fill(descriptor, words))
        fail_making(p, errno);
    snprintf(itself, sizeof itself, "/proc/self/fd/%d", descriptor);
    named = linkat(AT_FDCWD, itself, p->folder, p->name, AT_SYMLINK_FOLLOW) == 0;
    if (!named && errno == EEXIST)
        fail_making(p, errno);
    close(descriptor);
    return named;
}

enum { BESIDE = 40 };

/* A new file in the folder, under a name that no other has. */
static int open_beside(const struct place *p, char *beside) {
    int descriptor = -1;
    errno = EEXIST;
    for (int i = 0; descriptor < 0 && errno == EEXIST && i < 1000; i++) {
        snprintf(beside, BESIDE, ".lcdload-%ld-%d", (long)getpid(), i);
        descriptor = openat(p->folder, beside, O_WRONLY | O_CREAT | O_EXCL | O_CLOEXEC, 0666);
    }
    if (descriptor < 0)
        fail_making(p, errno);
    return descriptor;
}

/* By renaming, or, where that can't be done without replacing a file, as a second name. */
static bool give_name(const struct place *p, const char *beside) {
    if (renameat2(p->folder, beside, p->folder, p->name, RENAME_NOREPLACE) == 0)
        return true;
    return errno != EEXIST && linkat(p->folder, beside, p->folder, p->name, 0) == 0;
}

static void make_beside(const struct place *p, const uint32_t *words) {
    char beside[BESIDE];
    int descriptor = open_beside(p, beside), error = 0;
    if (!fill(descriptor, words) || !give_name(p, beside))
        error = errno;
    unlinkat(p->folder, beside, 0); /* where it was renamed there is none */
    close(descriptor);
    if (error)
        fail_making(p, error);
}

void settings_make(const char *path, const uint32_t *words) {
    struct place p = place_of(path);
    char why[200];
    if (!make_nameless(&p, words))
        make_beside(&p, words);
    if (fsync(p.folder) && errno != EINVAL) { /* not every folder can be sent */
        snprintf(why, sizeof why, "made whole, but its name may not be on the medium: %s; load again", strerror(errno));
        fail(path, why);
    }
    close(p.folder);
}
