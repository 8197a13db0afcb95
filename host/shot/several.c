/* Several dumps in one call: a line each, or an object each, and on a terminal a line that says how far it is. */
#include "several.h"
#include <errno.h>
#include <inttypes.h>
#include <stdlib.h>
#include <string.h>
#include <unistd.h>
#include "json.h"
#include "shot.h"

/* ---- golden pictures by name */

static const char *file_name(const char *path) { return strrchr(path, '/') ? strrchr(path, '/') + 1 : path; }

char *golden_path(const char *folder, const char *dump) {
    const char *name = file_name(dump), *ending = strrchr(name, '.');
    size_t length = ending && !strcmp(ending, ".dump") ? (size_t)(ending - name) : strlen(name), room = strlen(folder) + length + 6;
    char *path = grow(NULL, room);
    snprintf(path, room, "%s/%.*s.png", folder, (int)length, name);
    return path;
}

static void compare_with(struct shot *s, const char *folder, uint32_t tolerance) {
    char *path = golden_path(folder, s->name);
    struct bytes golden;
    s->golden_error = file_read(path, &golden);
    if (!s->golden_error)
        shot_compare(s, &golden, tolerance);
    free(golden.at);
    free(path);
}

/* ---- a line */

/* A name on one line, whatever is in it. */
static void print_name(FILE *to, const char *name, int width) {
    for (; *name; name++, width--)
        putc((unsigned char)*name < 0x20 || *name == 0x7f ? '?' : *name, to);
    fprintf(to, "%*s", width > 0 ? width : 0, "");
}

/* Bits a pixel, or what an STN panel makes of them. */
static void say_mode(const struct shot *s) {
    uint32_t stored = s->readings.sizes[LCD_SIZE_STORED_BITS], bits = stored == 32 ? 24 : stored;
    if (!stored)
        say("no mode");
    else if (is_stn(s->dump.words))
        say("%-7s", stored == 1 ? "mono" : "greys");
    else
        say("%2" PRIu32 " %-4s", bits, bits == 1 ? "bit" : "bits");
}

/* Returns whether there is a rate. */
static bool say_facts(const struct shot *s) {
    uint64_t counts[3];
    char rate[MEANING] = "no rate";
    const struct dump *d = &s->dump;
    bool rated = d->hclk && !lcd_counts(d->words, LCD_REGISTERS, d->edition, d->hclk, counts, 3);
    if (rated)
        rate_text(counts[2], rate);
    say("  %4" PRIu32 " by %-4" PRIu32 "  ", s->readings.sizes[LCD_SIZE_WIDTH], s->readings.sizes[LCD_SIZE_HEIGHT]);
    say_mode(s);
    say("  %12s", rate);
    return rated;
}

/* What is to be known of the panel besides. */
static void say_remarks(const struct shot *s, bool rated) {
    if (!s->refusal && !s->readings.fields[LCD_PWREN])
        say("  dark: PWREN is 0");
    if (!s->refusal && s->readings.fields[LCD_INVVD])
        say("  negative: INVVD is 1");
    if (rated && is_stn(s->dump.words))
        say("  rate%s", by_edition(&s->dump));
}

static void say_line(const struct shot *s, int width) {
    bool rated = false;
    print_name(report_stream(), s->name, width);
    if (s->error) {
        say("  error: %s\n", s->error);
        return;
    }
    if (s->refusal != 14)
        rated = say_facts(s);
    if (s->refusal)
        say("  refused %" PRIu32, s->refusal);
    else
        say("  accepted");
    if (s->refusal != 14 && is_neither(&s->readings))
        say("  size by TFT's rules");
    if (s->golden_error)
        say("  error with the golden picture: %s", s->golden_error);
    else if (s->compared && comparison_equal(&s->comparison))
        say("  equal");
    else if (s->compared && s->comparison.same_size)
        say("  differs: %zu of %zu pixels", s->comparison.differ, s->comparison.all);
    else if (s->compared)
        say("  differs in size");
    say_remarks(s, rated);
    say("\n");
}

/* ---- all of them */

/* How far it is, on a terminal; wiped away before the next line is printed. */
static void progress(int done, int all, const char *name) {
    if (!isatty(STDERR_FILENO))
        return;
    fprintf(stderr, "\r\033[K");
    if (done < all) {
        fprintf(stderr, "%d of %d: ", done + 1, all);
        print_name(stderr, file_name(name), 0);
    }
    fflush(stderr);
}

static int show_one(const struct options *o, const char *name, uint32_t tolerance, int width) {
    struct shot s = {.name = name, .dump.edition = o->rule_edition};
    struct bytes b;
    int status;
    s.error = file_read(name, &b);
    if (!s.error)
        shot_take(&s, &b, o->json);
    free(b.at);
    if (o->golden_dir && s.picture.colours)
        compare_with(&s, o->golden_dir, tolerance);
    progress(1, 1, name);
    if (o->json)
        json_shot(&s, NULL, NULL);
    else
        say_line(&s, width);
    report_flush();
    status = shot_status(&s);
    shot_free(&s);
    return status;
}

int several_show(const struct options *o) {
    uint32_t tolerance = options_tolerance(o);
    int worst = 0, width = 0;
    for (int i = 0; i < o->dump_count; i++)
        width = (int)strlen(o->dumps[i]) > width ? (int)strlen(o->dumps[i]) : width;
    if (o->json)
        json_begin();
    for (int i = 0; i < o->dump_count; i++) {
        int status;
        progress(i, o->dump_count, o->dumps[i]);
        status = show_one(o, o->dumps[i], tolerance, width);
        worst = status > worst ? status : worst;
    }
    if (o->json)
        json_end(worst);
    return worst;
}
