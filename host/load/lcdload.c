/* lcdload: loads new settings into a settings file so that a power cut at any moment leaves the old settings whole, video off, or the
 * new settings whole (docs/REFERENCE.md, §1.8); and says which of these a file is. The proved library judges the settings and says what
 * each store writes; the tool adds the file and the text. Exit status: 0; 1 if settings are refused or a file is a mixture; 2 if it
 * can't do what it is asked. */
#define _GNU_SOURCE
#include <errno.h>
#include <fcntl.h>
#include <inttypes.h>
#include <limits.h>
#include <signal.h>
#include <stdio.h>
#include <stdlib.h>
#include <string.h>
#include <unistd.h>
#include "../shot/dump.h"
#include "../shot/files.h"
#include "../shot/outputs.h"
#include "arguments.h"
#include "report.h"
#include "settings.h"

const char program_name[] = "lcdload";

/* ---- the state of files */

static int show_states(const struct arguments *a) {
    int worst = 0;
    outputs_apart(a->files, (size_t)a->file_count, NULL, 0);
    for (int i = 0; i < a->file_count; i++) {
        const char *name = input_name(a->files[i]);
        struct block b;
        const char *why = settings_look(a->files[i], &b);
        int status = why ? 2 : report_state(name, &b, false);
        if (why)
            complain(name, why);
        worst = status > worst ? status : worst;
    }
    return worst;
}

/* ---- what is to be loaded */

/* A number that was not given is the dump's. */
static void take_memory(struct load *l, const struct arguments *a, const struct bytes *b) {
    struct dump d = {.window_start = 0};
    char why[PATH_MAX + 100];
    if (!a->start || !a->memory_words) {
        snprintf(why, sizeof why, "missing; %s has %zu byte%s and is no dump, which would tell it", l->from, b->length,
                 b->length == 1 ? "" : "s");
        if (dump_take(&d, b))
            misuse(a->start ? "--memory-words" : "--start", why);
    }
    l->memory = memory_of(a->start ? a->window_start : d.window_start, a->memory_words ? a->video_len : d.video_len);
    dump_free(&d);
}

static void take_wanted(struct load *l, const struct arguments *a) {
    struct bytes b = {NULL, 0};
    const char *why = settings_bytes(a->files[1], !a->start || !a->memory_words, &b);
    if (why)
        fail(l->from, why);
    l->wanted = block_of(b.at, b.length);
    take_memory(l, a, &b);
    free(b.at);
}

/* The report goes into neither file, and the two are not one. */
static void keep_apart(const struct arguments *a) {
    outputs_apart(a->files, 2, NULL, 0);
    outputs_apart(a->files + 1, 1, a->files, 1);
}

/* ---- loading: once it is begun, it goes on to its end */

enum { LINE = PATH_MAX + 100 };

/* Signals wait until the load is done and told. */
static void hold_signals(sigset_t *before) {
    sigset_t all;
    sigfillset(&all);
    sigprocmask(SIG_BLOCK, &all, before);
}

/* Sends off the report. Where it is lost, the error has its first line. */
static void send_report(const char *first, const sigset_t *before) {
    char why[LINE + 100];
    errno = 0;
    if (fflush(report_stream()) || ferror(report_stream())) {
        snprintf(why, sizeof why, "%s; not told: %s", errno ? strerror(errno) : "can't be written", first);
        fail(report_name(), why);
    }
    sigprocmask(SIG_SETMASK, before, NULL);
}

/* Judges the new settings, and says why where they are refused. */
static bool accepted(struct load *l) {
    uint32_t refusal = images_ask(&l->images, &l->old, &l->wanted, &l->memory);
    if (refusal)
        report_refusal(l, refusal);
    return !refusal;
}

/* There is no settings file yet. The new settings are judged as for any load, over nine words that are 0. */
static int make(struct load *l, const struct arguments *a) {
    sigset_t before;
    char line[LINE];
    if (a->cut)
        fail("--cut", "there is no settings file, and so no old block to cut into; nothing is written");
    l->old = (struct block){.count = LCD_REGISTERS, .bytes = BLOCK_BYTES};
    if (!accepted(l))
        return 1;
    hold_signals(&before);
    settings_make(l->settings, l->images.after[LCD_STORES]);
    snprintf(line, sizeof line, "made %s, %d bytes", l->settings, BLOCK_BYTES);
    say("%s\n", line);
    report_made(l);
    report_state(l->settings, &l->wanted, true);
    send_report(line, &before);
    return 0;
}

static int load(struct load *l, const struct arguments *a) {
    struct settings s;
    struct block now;
    sigset_t before;
    char line[LINE];
    bool cut = a->stores < LCD_STORES;
    if (!settings_open(&s, l->settings))
        return make(l, a);
    l->old = settings_read(&s);
    if (!accepted(l))
        return 1;
    hold_signals(&before);
    settings_store(&s, &l->images, a->stores);
    settings_close(&s);
    now = l->old;
    memcpy(now.words, l->images.after[a->stores], BLOCK_BYTES);
    snprintf(line, sizeof line, "loaded %s, %s%" PRIu32 " of %d stores", l->settings, cut ? "cut after " : "", a->stores, LCD_STORES);
    say("%s\n", line);
    report_load(l, a->stores);
    report_state(l->settings, &now, !cut);
    send_report(line, &before);
    return 0;
}

/* ---- the call */

/* A standard stream that is closed becomes one that can't be used: its number would else be a file's that is opened later, and what is
 * said would go there. */
static void occupy_streams(void) {
    for (int stream = STDIN_FILENO; stream <= STDERR_FILENO; stream++)
        if (fcntl(stream, F_GETFD) < 0 && open("/", O_PATH) != stream)
            exit(2);
}

/* A report that can't be written, since it is too large or nobody reads it, is an error like any other. */
int main(int argc, char **argv) {
    static struct load l;
    struct arguments a;
    int status;
    occupy_streams();
    signal(SIGXFSZ, SIG_IGN);
    signal(SIGPIPE, SIG_IGN);
    a = arguments_read(argc, argv);
    if (a.state) {
        status = show_states(&a);
    } else {
        keep_apart(&a);
        l.settings = a.files[0];
        l.from = input_name(a.files[1]);
        take_wanted(&l, &a);
        status = load(&l, &a);
    }
    free(a.files);
    finish(status);
}
