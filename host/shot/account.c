/* The account of the registers: each field by name and bits, its number and its meaning, and what a refusal is about. */
#include "account.h"
#include <inttypes.h>
#include <stdio.h>
#include <string.h>

enum { CURE_TEXT = 300 };

/* ---- a line or two */

void account_counts(const struct readings *r) {
    const struct dump *d = r->dump;
    uint64_t counts[3] = {0};
    char frame[MEANING], clock[MEANING];
    bool stn = is_stn(d->words);
    lcd_counts(d->words, LCD_REGISTERS, d->edition, d->hclk, counts, 3);
    say("clocks %" PRIu64 " hclk %" PRIu64 " mhz %" PRIu64 "\n", counts[0], counts[1], counts[2]);
    rate_text(counts[2], frame);
    rate_text(millihertz_of(d->hclk, r->sizes[LCD_SIZE_TICKS]), clock);
    if (d->hclk)
        say("%s%s, %s %s\n", frame, by_edition(d), clock, stn ? "clock of 8 pixels" : "pixel clock");
    else
        say("no rate: HCLK is %s%s%s\n", d->no_hclk ? "not given" : "0", stn ? "; ticks" : "", by_edition(d));
}

const char *account_glass(const struct readings *r) {
    bool off = !r->fields[LCD_PWREN], negative = r->fields[LCD_INVVD];
    if (!r->fields[LCD_ENVID])
        return "nothing is sent to the glass: ENVID is 0, and a drawing is refused 9";
    if (off && negative)
        return "the glass stays dark where LCD_PWREN switches it: PWREN is 0; lit, it would show the negative: INVVD is 1";
    if (off)
        return "the glass stays dark where LCD_PWREN switches it: PWREN is 0";
    return negative ? "the glass gets the negative of this picture: INVVD is 1" : NULL;
}

void cure_text(const struct cure *c, char *to, size_t room) {
    *to = 0;
    for (int i = 0; i < c->count; i++) {
        size_t at = strlen(to);
        snprintf(to + at, room - at, "%s%s %" PRIu32, i == 0 ? "" : i + 1 < c->count ? ", " : " and ",
                 field_name(c->changes[i].field), c->changes[i].number);
    }
}

/* What follows a cure. */
static void say_then(uint32_t then) {
    if (then)
        say(", then refused %" PRIu32, then);
    else
        say(", then accepted");
}

/* ---- faults */

void account_refusal(const struct faults *f) {
    say("refused %" PRIu32 "\n%s\n%s\n", f->at[0].refusal, lcd_refusal_text(f->at[0].refusal), f->at[0].numbers);
}

/* What else a fault is judged with: reserved bits cleared, these changes, the memory that is needed. */
static void with_text(const struct fault *f, const struct cure *changes, char *to) {
    char text[CURE_TEXT];
    cure_text(changes, text, sizeof text);
    snprintf(to, 2 * CURE_TEXT, "%s%s%s%s%s", f->cleared ? "reserved bits cleared" : "", f->cleared && *text ? ", " : "", text,
             f->lent && (f->cleared || *text) ? ", " : "", f->lent ? "the memory that is needed" : "");
}

static void say_with(const struct fault *f) {
    char text[2 * CURE_TEXT];
    with_text(f, &f->with, text);
    if (*text)
        say("             judged with %s\n", text);
}

static void say_fault(const struct fault *f) {
    char text[CURE_TEXT];
    say("  refused %" PRIu32 "  %s\n", f->refusal, lcd_refusal_text(f->refusal));
    say("             %s\n", f->numbers);
    say_with(f);
    if (f->hangs)
        say("             hangs on refused %" PRIu32 ": look again when that is lifted\n", f->hangs);
    if (f->refusal == 1) {
        say("             lifted by clearing them");
        say_then(f->then);
        say("\n");
    }
    for (int i = 0; i < f->cures.count; i++) {
        cure_text(&f->cures.at[i], text, sizeof text);
        say("             lifted by %s", text);
        say_then(f->cures.at[i].then);
        say("\n");
    }
}

void account_faults(const struct faults *f) {
    if (!f->count)
        return;
    say("refused %" PRIu32 "\nfaults      %d\n", f->at[0].refusal, f->count);
    for (int i = 0; i < f->count; i++)
        say_fault(&f->at[i]);
}

/* ---- the panel */

static void say_rate(const char *name, uint32_t hclk, uint64_t ticks) {
    char rate[MEANING];
    rate_text(millihertz_of(hclk, ticks), rate);
    say("%-11s %s\n", name, rate);
}

/* The parts of a line or of a frame, in order. */
static void say_parts(const char *name, const uint32_t *s, const char *one, const char *more, int all, int sync, int active) {
    say("%-11s %" PRIu32 " %s: sync %" PRIu32 ", back porch %" PRIu32 ", active %" PRIu32 ", front porch %" PRIu32 "\n", name, s[all],
        s[all] == 1 ? one : more, s[sync], s[sync + 1], s[active], s[sync + 2]);
}

/* An STN line's clocks and pauses, and its frame, in HCLK ticks. */
static void say_ticks(const struct readings *r) {
    uint32_t clocks = r->sizes[LCD_SIZE_LINE], lines = r->sizes[LCD_SIZE_FRAME], all = lines * clocks;
    uint64_t line = line_ticks(r, r->dump->edition);
    struct stn_pauses ticks = stn_pauses_of(r, r->dump->edition);
    say("line        %" PRIu64 " ticks: %" PRIu32 " clock%s of %" PRIu32, line, clocks, clocks == 1 ? "" : "s",
        r->sizes[LCD_SIZE_TICKS]);
    say(", VLINE %" PRIu64 ", delay %" PRIu64 ", blank %" PRIu64 "\n", ticks.vline, ticks.delay, ticks.blank);
    say("frame       %" PRIu32 " line%s: %" PRIu32 " clock%s, %" PRIu64 " ticks\n", lines, lines == 1 ? "" : "s", all,
        all == 1 ? "" : "s", lines * line);
}

/* How long an STN line of so many ticks takes. */
static void line_time_text(uint32_t hclk, uint64_t ticks, char *to) { time_text(ticks * 1000000000 / hclk, to); }

static void say_line_time(uint32_t hclk, uint64_t ticks) {
    char time[MEANING];
    line_time_text(hclk, ticks, time);
    say("line time   %s\n", time);
}

/* On STN there is no clock where CLKVAL is 0, and so there are no lines and frames. */
static void say_rates(const struct readings *r) {
    uint32_t hclk = r->dump->hclk, ticks = r->sizes[LCD_SIZE_TICKS];
    uint64_t line = line_ticks(r, r->dump->edition);
    if (!hclk) {
        say("HCLK        %s, no rates\n", r->dump->no_hclk ? "not given" : "0 Hz");
        return;
    }
    say("HCLK        %" PRIu32 " Hz%s\n", hclk, ticks ? "" : ", no VCLK, no rates");
    if (!ticks)
        return;
    say_rate("VCLK", hclk, ticks);
    if (is_stn(r->dump->words))
        say_line_time(hclk, line);
    say_rate("line rate", hclk, line);
    say_rate("frame rate", hclk, line * r->sizes[LCD_SIZE_FRAME]);
}

/* ---- both rule editions of an STN panel, side by side: the one of the account first */

static void say_both(const char *name, const char *here, const char *other) { say("  %-11s %-17s %s\n", name, here, other); }

static void say_both_ticks(const char *name, uint64_t here, uint64_t other) {
    char texts[2][MEANING];
    snprintf(texts[0], MEANING, "%" PRIu64 " ticks", here);
    snprintf(texts[1], MEANING, "%" PRIu64 " ticks", other);
    say_both(name, texts[0], texts[1]);
}

/* By the ticks of a line. */
static void say_both_rates(const struct readings *r, uint64_t here, uint64_t other) {
    uint32_t hclk = r->dump->hclk, lines = r->sizes[LCD_SIZE_FRAME];
    char texts[2][MEANING];
    line_time_text(hclk, here, texts[0]);
    line_time_text(hclk, other, texts[1]);
    say_both("line time", texts[0], texts[1]);
    rate_text(millihertz_of(hclk, here), texts[0]);
    rate_text(millihertz_of(hclk, other), texts[1]);
    say_both("line rate", texts[0], texts[1]);
    rate_text(millihertz_of(hclk, lines * here), texts[0]);
    rate_text(millihertz_of(hclk, lines * other), texts[1]);
    say_both("frame rate", texts[0], texts[1]);
}

/* Where the library gives the same by both, one account will do. */
static void say_editions(const struct readings *r) {
    uint32_t edition = r->dump->edition, other_edition = 3 - edition, lines = r->sizes[LCD_SIZE_FRAME];
    struct stn_pauses here = stn_pauses_of(r, edition), other = stn_pauses_of(r, other_edition);
    uint64_t line = line_ticks(r, edition), other_line = line_ticks(r, other_edition);
    if (here.vline == other.vline && here.delay == other.delay && line == other_line) {
        say("rule edition  %" PRIu32 "; %" PRIu32 " gives the same\n", edition, other_edition);
        return;
    }
    say("rule edition  %" PRIu32 ", as above       %" PRIu32 "\n", edition, other_edition);
    say_both_ticks("VLINE", here.vline, other.vline);
    say_both_ticks("delay", here.delay, other.delay);
    say_both_ticks("line", line, other_line);
    say_both_ticks("frame", lines * line, lines * other_line);
    if (r->dump->hclk && r->sizes[LCD_SIZE_TICKS])
        say_both_rates(r, line, other_line);
}

/* ---- all of the panel */

/* What the words say together: size, mode, the parts of line and frame, rates. */
static void say_panel(const struct readings *r) {
    const uint32_t *s = r->sizes;
    bool stn = is_stn(r->dump->words);
    char mode[MEANING];
    mode_meaning(r, mode);
    say("panel       %" PRIu32 " by %" PRIu32 " pixels%s, %s%s\n", s[LCD_SIZE_WIDTH], s[LCD_SIZE_HEIGHT],
        is_neither(r) ? " by TFT's rules (as all below)" : "", stn ? "STN, " : "", mode);
    if (stn) {
        say_ticks(r);
    } else {
        say_parts("line", s, "clock", "clocks", LCD_SIZE_LINE, LCD_SIZE_HSYNC, LCD_SIZE_WIDTH);
        say_parts("frame", s, "line", "lines", LCD_SIZE_FRAME, LCD_SIZE_VSYNC, LCD_SIZE_HEIGHT);
    }
    say_rates(r);
    if (stn)
        say_editions(r);
}

void account_needed(const struct dump *d) {
    uint32_t words[LCD_REGISTERS], first, last;
    words_cleared(d->words, words);
    if (memory_needed(words, &first, &last))
        say("needed      0x%08" PRIx32 " to 0x%08" PRIx32 ", %" PRIu32 " bytes\n", first, last, last - first + 1);
}

static void say_memory(const struct dump *d, const struct faults *f) {
    bool marked = false;
    for (int i = 0; i < f->count; i++)
        marked |= f->at[i].refusal == 8;
    if (d->source != WORDS_ALONE)
        say("memory      %zu word%s from 0x%08" PRIx32 " to before 0x%08" PRIx64 "%s\n", d->video_len, d->video_len == 1 ? "" : "s",
            d->window_start, (uint64_t)d->window_start + 4 * (uint64_t)d->video_len, marked ? "  <- refused 8" : "");
    account_needed(d);
}

/* ---- the registers */

/* A name, its bits and its number, which a meaning follows. */
static void say_part(const struct part *p, uint32_t number) {
    char bits[32];
    snprintf(bits, sizeof bits, p->high == p->low ? "%d" : "%d..%d", p->high, p->low);
    say("  %-10s %-7s %8" PRIu32 "  ", p->name, bits, number);
}

/* What is to be set beside a cure's first field: its other fields, and what the faults before it needed. */
static void say_rest(const struct fault *f, const struct cure *c) {
    struct cure rest = {.count = 0};
    char text[2 * CURE_TEXT];
    for (int i = 1; i < c->count; i++)
        rest.changes[rest.count++] = c->changes[i];
    for (int i = 0; i < f->with.count && rest.count < MOST_CHANGES; i++)
        if (!cure_sets(c, f->with.changes[i].field))
            rest.changes[rest.count++] = f->with.changes[i];
    with_text(f, &rest, text);
    say("%s%s", *text ? " with " : "", text);
}

/* The mark at a field that alone lifts a fault, or with others. */
static void say_mark(const struct fault *f, int field) {
    const struct cure *c = cure_by(&f->cures, field);
    if (!c)
        return;
    say("  <- refused %" PRIu32 "; lifted by %" PRIu32, f->refusal, c->changes[0].number);
    say_rest(f, c);
    say_then(c->then);
}

static void say_field(const struct readings *r, const struct faults *f, const struct part *p) {
    char meaning[MEANING];
    say_part(p, r->fields[p->field]);
    field_meaning(r, p->field, meaning);
    say("%s", meaning);
    for (int i = 0; i < f->count; i++)
        say_mark(&f->at[i], p->field);
    say("\n");
}

static void say_register(const struct readings *r, const struct faults *f, int word) {
    const uint32_t *words = r->dump->words;
    const struct layout *l = layout_of(words);
    char reserved[NUMBERS];
    say("%s 0x%08" PRIx32 "%s", register_names[word], words[word], l->reserved[word] == UINT32_MAX ? "  all reserved on STN" : "");
    if (reserved_text(words, word, reserved))
        say("  <- refused 1; %s", reserved);
    say("\n");
    for (int i = 0; i < l->count[word]; i++) {
        const struct part *p = &l->parts[word][i];
        if (p->field == READ_ONLY) {
            say_part(p, part_number(p, words[word]));
            say("read-only, ignored\n");
        }
        if (p->field >= 0)
            say_field(r, f, p);
    }
}

void account_registers(const struct readings *r, const struct faults *f) {
    say_panel(r);
    say_memory(r->dump, f);
    for (int word = 0; word < LCD_REGISTERS; word++)
        say_register(r, f, word);
}
