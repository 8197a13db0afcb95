/* The command line. */
#include "arguments.h"
#include <stdbool.h>
#include <stdio.h>
#include <string.h>
#include "../lcd.h"
#include "../shot/files.h"
#include "../shot/options.h"

static const char help[] =
    "usage: lcdload SETTINGS NEW --start ADDRESS --memory-words N [--cut N]\n"
    "       lcdload SETTINGS BOARD.dump [--start ADDRESS] [--memory-words N] [--cut N]\n"
    "       lcdload --state SETTINGS ..\n"
    "\n"
    "Loads new settings of the LCD controller of an S3C2410 or S3C2440 into a settings file, in place: a power cut at any\n"
    "moment leaves the old settings whole, video off, or the new settings whole, and loading again ends with the new ones.\n"
    "A settings file is LCDCON1 to LCDCON5, LCDSADDR1 to LCDSADDR3 and TPAL, 4 bytes each, low byte first; further bytes\n"
    "stay as they are. NEW is such a file too, or a dump as lcdshot reads it. The new settings are judged first, with the\n"
    "board's video memory; refused, they are not stored. A settings file that is not there is made.\n"
    "\n"
    "  --start ADDRESS       the board's video memory begins here, in hexadecimal; if left out, where the dump's does\n"
    "  --memory-words N      it has N words of 32 bits, at most 1073741824; if left out, as many as the dump's\n"
    "  --cut N               for trials: make the first N of the ten stores alone, as a power cut would\n"
    "  --state               say of each settings file: whole; off, video is off; or mixture, which no load makes\n"
    "  -h, --help, --version\n"
    "  --                    what follows are files\n"
    "\n"
    "- is standard input, for NEW or for one of the files with --state.\n"
    "\n"
    "Exit status: 0 done, 1 refused or a mixture, 2 an error in the call or with a file; the worst where there are several.\n";

/* ---- reading */

struct option {
    const char *name, *argument; /* what the argument is; NULL where it has none */
    const char **to;
};

enum { OPTIONS = 4 };

static const struct option *find_option(const struct option *all, const char *text) {
    for (int i = 0; i < OPTIONS; i++)
        if (!strcmp(all[i].name, text))
            return &all[i];
    return NULL;
}

/* Takes an option, with its argument where it has one; the index of the last one taken is returned. */
static int take(const struct option *option, int argc, char **argv, int at) {
    char why[60];
    if (*option->to)
        misuse(option->name, "given twice");
    *option->to = option->name;
    if (!option->argument)
        return at;
    snprintf(why, sizeof why, "%s is missing", option->argument);
    if (at + 1 == argc || !strncmp(argv[at + 1], "--", 2))
        misuse(option->name, why);
    *option->to = argv[at + 1];
    return at + 1;
}

static void tell(const char *text) {
    say("%s", text);
    finish(0);
}

static void read_all(struct arguments *a, int argc, char **argv) {
    const struct option all[OPTIONS] = {{"--start", "an address", &a->start},
                                        {"--memory-words", "a number", &a->memory_words},
                                        {"--cut", "a number", &a->cut},
                                        {"--state", NULL, &a->state}};
    bool ended = false;
    for (int i = 1; i < argc; i++) {
        const struct option *option = ended ? NULL : find_option(all, argv[i]);
        if (option)
            i = take(option, argc, argv, i);
        else if (!ended && (!strcmp(argv[i], "--help") || !strcmp(argv[i], "-h")))
            tell(help);
        else if (!ended && !strcmp(argv[i], "--version"))
            tell("lcdload 1.0, with lcd.h " LCD_VERSION "\n");
        else if (!ended && !strcmp(argv[i], "--"))
            ended = true;
        else if (!ended && argv[i][0] == '-' && argv[i][1])
            misuse(argv[i], "no such option");
        else
            a->files[a->file_count++] = argv[i];
    }
}

/* ---- what goes together */

static void check_state(const struct arguments *a) {
    const char *other = a->start ? "--start" : a->memory_words ? "--memory-words" : a->cut ? "--cut" : NULL;
    int streams = 0;
    if (other)
        misuse(other, "not with --state");
    if (!a->file_count)
        misuse("SETTINGS", "missing");
    for (int i = 0; i < a->file_count; i++)
        streams += !strcmp(a->files[i], "-");
    if (streams > 1)
        misuse("-", "standard input can be read once");
}

static void check_load(const struct arguments *a) {
    if (a->file_count < 2)
        misuse(a->file_count ? "NEW" : "SETTINGS", "missing");
    if (a->file_count > 2)
        misuse(a->files[2], "one file too many: SETTINGS and NEW are two");
    if (!strcmp(a->files[0], "-"))
        misuse("-", "settings are loaded into a file, in place");
}

struct arguments arguments_read(int argc, char **argv) {
    enum { MOST_WORDS = 1 << 30 };
    struct arguments a = {.stores = LCD_STORES};
    uint32_t cut;
    a.files = grow(NULL, sizeof *a.files * (size_t)argc);
    read_all(&a, argc, argv);
    if (a.state)
        check_state(&a);
    else
        check_load(&a);
    a.window_start = a.start ? hexadecimal_of("--start", "the address", a.start) : 0;
    a.video_len = a.memory_words ? decimal_of("--memory-words", "the number", a.memory_words, MOST_WORDS) : 0;
    cut = a.cut ? decimal_of("--cut", "the number of stores", a.cut, UINT32_MAX) : LCD_STORES;
    a.stores = cut < LCD_STORES ? cut : LCD_STORES;
    return a;
}
