/* What the command line of lcdload asks for. */
#ifndef ARGUMENTS_H
#define ARGUMENTS_H

#include <stdint.h>

struct arguments {
    const char **files; /* SETTINGS and NEW; with --state those to look at */
    int file_count;
    const char *state, *start, *memory_words, *cut; /* as they were given; NULL where they were not */
    uint32_t window_start, video_len;               /* the numbers of --start and --memory-words, 0 where not given */
    uint32_t stores;                                /* how many --cut allows; all where it was not given */
};

/* Reads the command line; ends the program where it is wrong, or asks for help or the version. */
struct arguments arguments_read(int argc, char **argv);

#endif
