/* The command line. */
#include "options.h"
#include <inttypes.h>
#include <stdio.h>
#include <stdlib.h>
#include <string.h>
#include "fields.h"
#include "files.h"

static const char help[] =
    "usage: lcdshot DUMP [-o SCREEN.png] [--registers] [--compare GOLDEN.png [--tolerance N] [--differences DIFF.png]]\n"
    "       lcdshot DUMP [--frame F] --animate N -o FRAMES.png\n"
    "       lcdshot DUMP --against OLD.dump\n"
    "       lcdshot DUMP DUMP .. [--golden-dir DIR [--tolerance N]]\n"
    "       lcdshot --words LCDCON1 .. LCDCON5 LCDSADDR1 .. LCDSADDR3 TPAL [--hclk HZ] [--registers]\n"
    "               [--memory RAW --start ADDRESS [--palette RAW [--palette-bytes 2|4]] [-o SCREEN.png|BOARD.dump] ..]\n"
    "       lcdshot --testcard WIDTH HEIGHT BPP -o CARD.dump\n"
    "\n"
    "Shows what the LCD controller of an S3C2410 or S3C2440 shows. A DUMP is LCDCON1 to LCDCON5, LCDSADDR1 to LCDSADDR3,\n"
    "TPAL, HCLK in Hz and the byte address of the first video word, 4 bytes each, low byte first; 256 palette entries of 2\n"
    "bytes; then the video memory. The first line printed is the frame's clocks, its HCLK ticks and its rate in millihertz,\n"
    "or 'refused N'; what it means follows.\n"
    "\n"
    "  -o FILE               write the picture as a PNG, or the dump where FILE ends in .dump, and with --testcard\n"
    "  --registers           print every field with its meaning, and of refused words every fault and what lifts it\n"
    "  --compare GOLDEN.png  say how many pixels differ from this picture, where and by how much\n"
    "  --tolerance N         pixels differ where red, green or blue is more than N of 255 apart (0)\n"
    "  --differences FILE    where pixels differ, write a picture of them, white on the dimmed screen\n"
    "  --frame F             of an STN panel draw one frame's bits, lit pixels white, and not the greys that the eye sees\n"
    "  --animate N           of an STN panel write N frames, 1 to 1000, from frame 0 or F on, as an animated PNG\n"
    "  --edition 1|2         the rule edition of an STN panel's lengths and rates (1): its pulses, n in WLH or WDLY, are\n"
    "                        2^(4+n) ticks by 1 and 16 x (n+1) by 2\n"
    "  --against OLD.dump    print the fields, palette entries and memory that differ from another dump\n"
    "  --golden-dir DIR      a line a dump: each is compared with the PNG of its name in DIR\n"
    "  --json                print all this as one JSON document\n"
    "  --words W1 .. W9      judge nine words, in hexadecimal, without a dump; --hclk is in Hz, decimal\n"
    "  --memory RAW          with them: the bytes of the video memory, --start their address in hexadecimal\n"
    "  --palette RAW         256 palette entries, --palette-bytes says of how many bytes each (2)\n"
    "  --testcard W H BPP    make the dump of a test card for a panel of W by H pixels of 1, 2, 4, 8, 16 or 24 bits; or for\n"
    "                        an STN panel, where BPP is mono or grey, which is 16 greys\n"
    "  -h, --help, --version\n"
    "  --                    what follows are dumps\n"
    "\n"
    "- is standard input for one of the files read, and standard output for one written; the text then goes to standard error.\n"
    "\n"
    "Exit status: 0 done, 1 refused or different, 2 an error in the call or with a file; the worst where there are several.\n";

/* ---- numbers */

static _Noreturn void wrong_number(const char *option, const char *what, const char *text, const char *how) {
    char why[300];
    snprintf(why, sizeof why, "%s %.100s is %s", what, *text ? text : "''", how);
    misuse(option, why);
}

uint32_t decimal_of(const char *option, const char *what, const char *text, uint32_t most) {
    uint64_t n = 0;
    char how[60];
    if (!*text || text[strspn(text, "0123456789")])
        wrong_number(option, what, text, "not a number");
    for (const char *p = text; *p && n <= UINT32_MAX; p++)
        n = 10 * n + (uint64_t)(*p - '0');
    snprintf(how, sizeof how, "above %" PRIu32, most);
    if (n > most)
        wrong_number(option, what, text, how);
    return n;
}

uint32_t hexadecimal_of(const char *option, const char *what, const char *text) {
    const char *digits = text[0] == '0' && (text[1] == 'x' || text[1] == 'X') ? text + 2 : text;
    size_t zeros = strspn(digits, "0");
    if (!*digits || digits[strspn(digits, "0123456789abcdefABCDEF")])
        wrong_number(option, what, text, "not a hexadecimal number");
    if (strlen(digits + zeros) > 8)
        wrong_number(option, what, text, "wider than 32 bits");
    return strtoul(digits, NULL, 16);
}

/* A frame's number: decimal, or hexadecimal behind 0x. */
static uint32_t frame_of(const char *text) {
    bool hexadecimal = text[0] == '0' && (text[1] == 'x' || text[1] == 'X');
    return hexadecimal ? hexadecimal_of("--frame", "the number", text) : decimal_of("--frame", "the number", text, UINT32_MAX);
}

static void take_frames(struct options *o) {
    enum { MOST_FRAMES = 1000 };
    o->first_frame = o->frame ? frame_of(o->frame) : 0;
    o->frames = o->animate ? decimal_of("--animate", "the number of frames", o->animate, MOST_FRAMES) : 1;
    if (!o->frames)
        wrong_number("--animate", "the number of frames", o->animate, "below 1");
    if (o->frames - 1 > UINT32_MAX - o->first_frame)
        misuse("--animate", "there is no frame above 4294967295");
}

/* A rule edition has one spelling. */
static void take_edition(struct options *o) {
    const char *text = o->edition ? o->edition : "1";
    if (strcmp(text, "1") && strcmp(text, "2"))
        wrong_number("--edition", "the rule edition", text, "neither 1 nor 2");
    o->rule_edition = *text == '1' ? 1 : 2;
}

/* ---- reading */

struct option {
    const char *name;
    int count;                /* of arguments */
    const char *const *names; /* of each argument */
    const char **to;
};

enum { OPTIONS = 18 };

static const char *const a_file[] = {"a file"}, *const a_folder[] = {"a folder"}, *const a_number[] = {"a number"},
                  *const an_address[] = {"an address"}, *const card_names[] = {"WIDTH", "HEIGHT", "BPP"};

static void list_options(struct options *o, struct option *all) {
    struct option list[OPTIONS] = {
        {"-o", 1, a_file, &o->output},
        {"--registers", 0, NULL, &o->registers},
        {"--compare", 1, a_file, &o->golden},
        {"--tolerance", 1, a_number, &o->tolerance},
        {"--differences", 1, a_file, &o->differences},
        {"--frame", 1, a_number, &o->frame},
        {"--animate", 1, a_number, &o->animate},
        {"--edition", 1, a_number, &o->edition},
        {"--against", 1, a_file, &o->against},
        {"--golden-dir", 1, a_folder, &o->golden_dir},
        {"--json", 0, NULL, &o->json},
        {"--words", LCD_REGISTERS, register_names, o->words},
        {"--hclk", 1, a_number, &o->hclk},
        {"--memory", 1, a_file, &o->memory},
        {"--start", 1, an_address, &o->start},
        {"--palette", 1, a_file, &o->palette},
        {"--palette-bytes", 1, a_number, &o->palette_bytes},
        {"--testcard", 3, card_names, o->card},
    };
    memcpy(all, list, sizeof list);
}

static const struct option *find_option(const struct option *all, const char *text) {
    for (int i = 0; i < OPTIONS; i++)
        if (!strcmp(all[i].name, text))
            return &all[i];
    return NULL;
}

/* Takes the arguments of an option; the index of the last one taken is returned. */
static int take(const struct option *all, const struct option *option, int argc, char **argv, int at) {
    char why[60];
    if (*option->to)
        misuse(option->name, "given twice");
    *option->to = option->name;
    for (int k = 0; k < option->count; k++) {
        if (at + 1 == argc || find_option(all, argv[at + 1]) || !strncmp(argv[at + 1], "--", 2)) {
            snprintf(why, sizeof why, "%s is missing", option->names[k]);
            misuse(option->name, why);
        }
        option->to[k] = argv[++at];
    }
    return at;
}

static void tell(const char *text) {
    say("%s", text);
    finish(0);
}

static void read_all(struct options *o, int argc, char **argv) {
    struct option all[OPTIONS];
    bool ended = false;
    list_options(o, all);
    for (int i = 1; i < argc; i++) {
        const struct option *option = ended ? NULL : find_option(all, argv[i]);
        if (option)
            i = take(all, option, argc, argv, i);
        else if (!ended && (!strcmp(argv[i], "--help") || !strcmp(argv[i], "-h")))
            tell(help);
        else if (!ended && !strcmp(argv[i], "--version"))
            tell("lcdshot 2.2, with lcd.h " LCD_VERSION "\n");
        else if (!ended && !strcmp(argv[i], "--"))
            ended = true;
        else if (!ended && argv[i][0] == '-' && argv[i][1])
            misuse(argv[i], "no such option");
        else
            o->dumps[o->dump_count++] = argv[i];
    }
}

/* ---- what goes together */

static bool ends_in(const char *path, const char *ending) {
    size_t length = strlen(path), of = strlen(ending);
    return length >= of && !strcmp(path + length - of, ending);
}

bool options_several(const struct options *o) { return o->dump_count > 1 || o->golden_dir; }

bool options_dump_out(const struct options *o) { return o->output && (o->card[0] || ends_in(o->output, ".dump")); }

uint32_t options_tolerance(const struct options *o) {
    return o->tolerance ? decimal_of("--tolerance", "the distance", o->tolerance, 255) : 0;
}

static void needs(const char *option, const char *given, const char *other, const char *why) {
    if (given && !other)
        misuse(option, why);
}

static void check_together(const struct options *o) {
    needs("--hclk", o->hclk, o->words[0], "it goes with --words");
    needs("--memory", o->memory, o->words[0], "it goes with --words");
    needs("--memory", o->memory, o->start, "--start is missing");
    needs("--start", o->start, o->memory, "--memory is missing");
    needs("--palette", o->palette, o->memory, "--memory is missing");
    needs("--palette-bytes", o->palette_bytes, o->palette, "--palette is missing");
    needs("--differences", o->differences, o->golden, "--compare is missing");
    needs("--tolerance", o->tolerance, o->golden ? o->golden : o->golden_dir, "--compare or --golden-dir is missing");
    if (o->words[0] && !o->memory && (o->output || o->golden))
        misuse(o->output ? "-o" : "--compare", "words alone make no picture; --memory and --start are missing");
}

/* Frames are pictures. */
static void check_frames(const struct options *o) {
    const char *option = o->animate ? "--animate" : "--frame";
    needs("--animate", o->animate, o->output, "-o and a file are missing");
    needs("--frame", o->frame, o->output ? o->output : o->golden, "-o or --compare is missing");
    if (o->animate && o->golden)
        misuse("--animate", "not with --compare, which takes one picture");
    if ((o->frame || o->animate) && options_dump_out(o))
        misuse(option, "makes a picture; -o names a dump");
}

static void check_one(const struct options *o) {
    const char *alone = o->output ? "-o" : o->golden ? "--compare" : o->against ? "--against" : NULL;
    if (o->registers && !o->json)
        alone = "--registers";
    if (o->card[0] && (o->dump_count || o->words[0] || o->golden || o->against || o->golden_dir || o->registers || o->json ||
                       o->frame || o->animate))
        misuse("--testcard", "takes -o and --edition alone");
    needs("--testcard", o->card[0], o->output, "-o and a file are missing");
    if (o->card[0] && ends_in(o->output, ".png"))
        misuse("--testcard", "makes a dump, which lcdshot then draws; -o names a picture");
    if (o->words[0] && (o->dump_count || o->golden_dir))
        misuse("--words", "takes no dump");
    if (!o->card[0] && !o->words[0] && !o->dump_count)
        misuse("DUMP", "missing");
    if (options_several(o) && alone)
        misuse(alone, o->golden_dir ? "not with --golden-dir" : "takes one dump");
}

static void check_standard_input(const struct options *o) {
    const char *inputs[] = {o->golden, o->against, o->memory, o->palette};
    int count = 0;
    for (int i = 0; i < o->dump_count; i++)
        count += !strcmp(o->dumps[i], "-");
    for (int i = 0; i < 4; i++)
        count += inputs[i] && !strcmp(inputs[i], "-");
    if (count > 1)
        misuse("-", "standard input can be read once");
}

struct options options_read(int argc, char **argv) {
    struct options o = {0};
    o.dumps = grow(NULL, sizeof *o.dumps * (size_t)argc);
    read_all(&o, argc, argv);
    check_one(&o);
    check_together(&o);
    check_frames(&o);
    check_standard_input(&o);
    take_frames(&o);
    take_edition(&o);
    return o;
}
