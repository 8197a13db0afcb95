/* What lcdload says. */
#include "report.h"
#include <inttypes.h>
#include <string.h>
#include "../shot/fields.h"
#include "../shot/files.h"
#include "../shot/numbers.h"

/* ---- the state of a file */

static void say_short(const char *name, const struct block *b) {
    say("%s has %zu byte%s, nine words are %d\n", name, b->bytes, b->bytes == 1 ? "" : "s", BLOCK_BYTES);
}

/* An interrupted load leaves words that are accepted, too, where old and new ones go together. 17 is drawn by LCDCON1 alone, which a
 * load stores first, and so no interrupted one leaves it. */
static void say_off(uint32_t refusal, bool loaded) {
    if (refusal)
        say("off, words refused %" PRIu32 ": %s", refusal, lcd_refusal_text(refusal));
    else
        say("off, words accepted");
    if (refusal && refusal != 17)
        say("; a load was interrupted, or another hand made this: load again");
    if (!refusal && !loaded)
        say("; so it was wanted, or a load was interrupted: if in doubt, load again");
    say("\n");
}

int report_state(const char *name, const struct block *b, bool loaded) {
    uint32_t refusal;
    enum state state = block_state(b, &refusal);
    const char *text = lcd_refusal_text(refusal);
    say("%s: ", name);
    switch (state) {
    case WHOLE:
        say("whole");
        if (refusal)
            say(", but a load refuses it by %" PRIu32 ": %s", refusal, text);
        say("\n");
        return 0;
    case OFF: say_off(refusal, loaded); return 0;
    case MIXTURE:
        say("mixture, words refused %" PRIu32 ": %s; no load makes this, another hand made it: load again\n", refusal, text);
        return 1;
    default:
        say("refused %" PRIu32 ": %s; ", refusal, text);
        say_short("it", b);
        return 1;
    }
}

/* ---- a refusal */

/* Which of the two files is too short; both may be. */
static void say_which_short(const struct load *l) {
    if (l->old.count < LCD_REGISTERS)
        say_short(l->settings, &l->old);
    if (l->wanted.count < LCD_REGISTERS)
        say_short(l->from, &l->wanted);
}

/* The condition with the words' numbers put in. */
static void say_numbers(const struct load *l, uint32_t refusal) {
    struct judging j = {.dump = {.window_start = l->memory.start, .video_len = l->memory.length, .source = FROM_WORDS, .edition = 1}};
    char text[NUMBERS] = "";
    memcpy(j.dump.words, l->wanted.words, BLOCK_BYTES);
    readings_ask(&j.now, &j.dump);
    refusal_numbers(&j, &j.now, refusal, text);
    say("%s\n", text);
}

/* The screenshot tool knows the faults of words; of this memory it knows nothing. */
static void say_where_more(const struct load *l) {
    say("every fault, and what lifts it: host/lcdshot --words");
    for (int i = 0; i < LCD_REGISTERS; i++)
        say(" %" PRIx32, l->wanted.words[i]);
    say(" --registers\n");
}

void report_refusal(const struct load *l, uint32_t refusal) {
    say("refused %" PRIu32 "\n%s\n", refusal, lcd_refusal_text(refusal));
    if (refusal == 10)
        say_which_short(l);
    else
        say_numbers(l, refusal);
    if (refusal != 8 && refusal != 10)
        say_where_more(l);
    say("nothing is written\n");
}

/* ---- what was done */

static void say_judged(const struct load *l) {
    say("judged with %zu word%s of video memory from 0x%08" PRIx32 " on\n", l->memory.length, l->memory.length == 1 ? "" : "s",
        l->memory.start);
}

void report_load(const struct load *l, uint32_t stores) {
    const uint32_t *old = l->images.after[0], *now = l->images.after[stores];
    say_judged(l);
    for (int i = 0; i < LCD_REGISTERS; i++)
        if (old[i] != now[i])
            say("  %-9s  0x%08" PRIx32 "  ->  0x%08" PRIx32 "\n", register_names[i], old[i], now[i]);
    if (!memcmp(old, now, BLOCK_BYTES))
        say("%s\n", memcmp(old, l->wanted.words, BLOCK_BYTES) ? "no word is changed" : "the new settings are the old ones");
}

void report_made(const struct load *l) {
    say_judged(l);
    for (int i = 0; i < LCD_REGISTERS; i++)
        say("  %-9s  0x%08" PRIx32 "\n", register_names[i], l->wanted.words[i]);
}
