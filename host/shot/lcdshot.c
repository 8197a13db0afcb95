/* lcdshot: the picture of a whole panel from a dump or from nine words, or an STN panel's frames, an account of its registers, and
 * comparisons with a golden picture or another dump. Dump and line of counts are the bench's (docs/REFERENCE.md, §11), for STN panels
 * too, which the bench does not take. The proved library draws; the tool adds only files and text. Exit status: 0; 1 if a dump is
 * refused or something differs; 2 if it can't do what it is asked. */
#include <inttypes.h>
#include <signal.h>
#include <stdio.h>
#include <stdlib.h>
#include <string.h>
#include "account.h"
#include "against.h"
#include "animation.h"
#include "files.h"
#include "json.h"
#include "options.h"
#include "outputs.h"
#include "several.h"
#include "shot.h"
#include "testcard.h"

const char program_name[] = "lcdshot";

/* ---- a test card */

/* Bits a pixel, or a mode of an STN panel by its name. */
static struct card_mode card_mode_of(const char *text) {
    char why[CARD_FAULT];
    if (!strcmp(text, "mono") || !strcmp(text, "grey"))
        return (struct card_mode){.bits = *text == 'm' ? 1 : 4, .stn = true};
    snprintf(why, sizeof why, "BPP %.60s is none of " CARD_MODES, *text ? text : "''");
    if (!*text || text[strspn(text, "0123456789")])
        misuse("--testcard", why);
    return (struct card_mode){.bits = decimal_of("--testcard", "BPP", text, UINT32_MAX)};
}

static int make_card(const struct options *o) {
    static const char *const names[2] = {"width", "height"};
    uint32_t numbers[2];
    struct card_mode mode;
    char why[CARD_FAULT], how[CARD_FAULT];
    struct dump d;
    for (int i = 0; i < 2; i++)
        numbers[i] = decimal_of("--testcard", names[i], o->card[i], UINT32_MAX);
    mode = card_mode_of(o->card[2]);
    if (!testcard_make(&d, numbers[0], numbers[1], &mode, o->rule_edition, why))
        misuse("--testcard", why);
    dump_write(&d, o->output);
    testcard_mode_text(&mode, how);
    say("%" PRIu32 " by %" PRIu32 " %s, %s%s%s%s\n", numbers[0], numbers[1], how, testcard_shows(&mode),
        numbers[0] < 64 || numbers[1] < 64 ? ", as far as they fit" : "", mode.stn ? "; CLKVAL" : "", by_edition(&d));
    dump_free(&d);
    return 0;
}

/* ---- words without a board */

static void take_memory(struct dump *d, const struct options *o) {
    struct bytes b = file_need(o->memory);
    char why[80];
    snprintf(why, sizeof why, "%zu bytes, no multiple of 4", b.length);
    if (!dump_take_memory(d, &b))
        fail(o->memory, why);
    free(b.at);
}

/* At fewer than 16 bits the colours come from the palette, so it can't be left out. */
static void take_palette(struct dump *d, const struct options *o) {
    uint32_t step = o->palette_bytes ? decimal_of("--palette-bytes", "the number", o->palette_bytes, 4) : 2;
    struct bytes b = file_need(o->palette);
    char why[120];
    if (step != 2 && step != 4)
        misuse("--palette-bytes", "2 or 4");
    snprintf(why, sizeof why, "%zu bytes; %d entries of %" PRIu32 " bytes are %" PRIu32 " (--palette-bytes says how many an entry has)",
             b.length, LCD_PALETTE_ENTRIES, step, step * LCD_PALETTE_ENTRIES);
    if (!dump_take_palette(d, &b, step))
        fail(o->palette, why);
    free(b.at);
}

/* An STN panel has none. */
static void need_palette(const struct shot *s, const struct options *o) {
    uint32_t stored = s->readings.sizes[LCD_SIZE_STORED_BITS];
    bool stn = is_stn(s->dump.words);
    if (o->palette && stn && stored)
        misuse("--palette", "for TFT panels only; these words are an STN panel's, which has no palette");
    if (!o->palette && !stn && stored >= 1 && stored <= 8 && !s->readings.fields[LCD_TPALEN])
        misuse("--palette", "missing; in this mode the colours come from the palette");
}

static void take_words(struct shot *s, const struct options *o) {
    struct dump *d = &s->dump;
    s->name = "words";
    for (int i = 0; i < LCD_REGISTERS; i++)
        d->words[i] = hexadecimal_of("--words", register_names[i], o->words[i]);
    d->hclk = o->hclk ? decimal_of("--hclk", "HCLK", o->hclk, UINT32_MAX) : 0;
    d->source = o->memory ? FROM_WORDS : WORDS_ALONE;
    d->no_palette = !o->palette;
    d->no_hclk = !o->hclk;
    if (o->memory) {
        d->window_start = hexadecimal_of("--start", "the address", o->start);
        take_memory(d, o);
    }
    if (o->palette)
        take_palette(d, o);
    shot_judge(s, o->registers || o->json);
    if (o->memory)
        need_palette(s, o);
}

/* ---- a dump */

/* Takes a dump from a file; `s->error` says why where it can't be read. */
static void take_dump(struct shot *s, const char *path, bool all_faults) {
    struct bytes b;
    s->name = path;
    s->error = file_read(path, &b);
    if (!s->error)
        shot_take(s, &b, all_faults);
    free(b.at);
}

static void say_short(const struct shot *s) {
    say("refused 14\n%s\n%s has %zu byte%s\n", lcd_refusal_text(14), s->name, s->bytes, s->bytes == 1 ? "" : "s");
}

/* What is to be known of the dump: the counts or the refusal, and all the registers where they are asked for. */
static void say_dump(const struct shot *s, const struct options *o) {
    const char *glass;
    if (s->refusal == 14) {
        say_short(s);
        return;
    }
    if (!s->refusal)
        account_counts(&s->readings);
    else if (o->registers)
        account_faults(&s->faults);
    else
        account_refusal(&s->faults);
    if (!s->refusal && (glass = account_glass(&s->readings)))
        say("%s\n", glass);
    if (o->registers)
        account_registers(&s->readings, &s->faults);
    else if (s->dump.source == WORDS_ALONE)
        account_needed(&s->dump);
}

/* ---- frames of an STN panel */

/* Of a TFT panel all frames are alike. */
static void need_stn(const struct shot *s, const struct options *o) {
    if ((o->frame || o->animate) && !s->error && s->refusal != 14 && s->readings.fields[LCD_PNRMODE] == PANEL_TFT)
        misuse(o->animate ? "--animate" : "--frame", "for STN panels only; these words are a TFT panel's (PNRMODE is 3)");
}

static void say_animation(const struct shot *s, const struct options *o) {
    struct delay each = animation_delay(&s->dump);
    say("%" PRIu32 " frame%s from number %" PRIu32 " on, %u/%u s each%s\n", o->frames, o->frames == 1 ? "" : "s", o->first_frame,
        each.over, each.under, s->dump.hclk ? by_edition(&s->dump) : ", since there is no HCLK");
}

/* A golden picture is what the eye sees, unless a frame is asked for. */
static void say_comparison(const struct shot *s) {
    if (s->dump.one_frame)
        say("compared: frame %" PRIu32 ", not what the eye sees\n", s->dump.frame);
    comparison_say(&s->comparison, &s->picture);
}

/* ---- one dump, or words: all is read and judged, then written, then told */

static void write_outputs(const struct shot *s, const struct options *o) {
    if (options_dump_out(o) && s->refusal != 14)
        dump_write(&s->dump, o->output);
    else if (o->animate && s->picture.colours)
        animation_write(&s->dump, o->first_frame, o->frames, o->output);
    else if (o->output && s->picture.colours)
        picture_write(&s->picture, o->output);
    if (o->differences && s->compared && s->comparison.same_size && s->comparison.differ) {
        struct picture p = comparison_picture(&s->comparison, &s->golden, &s->picture);
        picture_write(&p, o->differences);
        picture_free(&p);
    }
}

/* The golden picture is read first, and taken when the size is known that it has to have. */
static void take_golden(struct shot *s, const struct options *o, const struct bytes *golden) {
    if (!s->golden_error)
        shot_compare(s, golden, options_tolerance(o));
}

static void take_old(struct shot *old, const struct options *o) {
    old->dump.edition = o->rule_edition;
    take_dump(old, o->against, false);
    if (old->error || old->refusal == 14)
        fail(input_name(o->against), old->error ? old->error : lcd_refusal_text(14));
}

static void take_all(struct shot *s, struct shot *old, const struct options *o) {
    struct bytes golden = {NULL, 0};
    if (o->golden)
        s->golden_error = file_read(o->golden, &golden);
    if (o->against)
        take_old(old, o);
    s->dump.one_frame = o->frame || o->animate;
    s->dump.frame = o->first_frame;
    s->dump.frames = o->animate ? o->frames : 0;
    s->dump.edition = o->rule_edition;
    if (o->words[0])
        take_words(s, o);
    else
        take_dump(s, o->dumps[0], o->registers || o->json);
    if (o->golden)
        take_golden(s, o, &golden);
    free(golden.at);
}

static int tell(const struct shot *s, const struct shot *old, const struct options *o) {
    struct against a;
    bool beside = o->against && !s->error && s->refusal != 14;
    int status = shot_status(s);
    if (beside)
        against_find(&a, old, s);
    if (!status && beside)
        status = a.any;
    if (o->json) {
        json_begin();
        json_shot(s, beside ? old : NULL, beside ? &a : NULL);
        json_end(status);
        return status;
    }
    say_dump(s, o);
    if (o->animate && s->picture.colours)
        say_animation(s, o);
    if (s->compared)
        say_comparison(s);
    if (beside)
        against_say(&a, old, s);
    return status;
}

/* An error with the dump or the golden picture ends the call; as JSON it is told like any other answer. */
static int show(const struct options *o) {
    static struct shot s, old;
    int status;
    take_all(&s, &old, o);
    need_stn(&s, o);
    if (!o->json && s.error)
        fail(input_name(s.name), s.error);
    if (!o->json && s.golden_error)
        fail(input_name(o->golden), s.golden_error);
    if (!s.error && !s.golden_error)
        write_outputs(&s, o);
    status = tell(&s, &old, o);
    shot_free(&s);
    shot_free(&old);
    return status;
}

/* No output is an input, and no two outputs are one file. */
static void keep_apart(const struct options *o) {
    const char *more[] = {o->golden, o->against, o->memory, o->palette}, *outputs[MOST_OUTPUTS] = {o->output, o->differences};
    size_t dumps = (size_t)o->dump_count, count = 4 + 2 * dumps;
    const char **inputs = grow(NULL, sizeof *inputs * count);
    memcpy(inputs, more, sizeof more);
    for (size_t i = 0; i < dumps; i++) {
        inputs[4 + i] = o->dumps[i];
        inputs[4 + dumps + i] = o->golden_dir ? golden_path(o->golden_dir, o->dumps[i]) : NULL;
    }
    outputs_apart(inputs, count, outputs, MOST_OUTPUTS);
    for (size_t i = 0; i < dumps; i++)
        free((char *)inputs[4 + dumps + i]);
    free(inputs);
}

/* A file too large, the report's too, is an error like any other. */
int main(int argc, char **argv) {
    struct options o;
    int status;
    signal(SIGXFSZ, SIG_IGN);
    o = options_read(argc, argv);
    keep_apart(&o);
    status = o.card[0] ? make_card(&o) : options_several(&o) ? several_show(&o) : show(&o);
    free(o.dumps);
    finish(status);
}
