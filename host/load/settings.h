/* The settings file: read, loaded in place, or made. The order of the stores holds on the medium too, since each is sent there before
 * the next is begun. */
#ifndef SETTINGS_H
#define SETTINGS_H

#include <stdbool.h>
#include <stdint.h>
#include "../shot/files.h"
#include "block.h"

struct settings {
    const char *path;
    int descriptor;
};

/* Opens and locks a settings file that is to be loaded. Returns false where there is none; ends the program where it can't be had. */
bool settings_open(struct settings *s, const char *path);

/* The words that it begins with. */
struct block settings_read(const struct settings *s);

/* Makes the first stores of a load, each as one write of four bytes that is then sent to the medium, and looks that the file holds what
 * it should. Ends the program where not, and says what the file is then. */
void settings_store(const struct settings *s, const struct images *i, uint32_t stores);

void settings_close(struct settings *s);

/* Reads all of a file that is not to be changed, or of standard input, or its first nine words alone, while no load of it is under way.
 * Returns NULL, or why it can't be read. The caller frees `b->at`. */
const char *settings_bytes(const char *path, bool all, struct bytes *b);

/* Reads the words of a file that is not to be changed, or of standard input. Returns NULL, or why they can't be read. */
const char *settings_look(const char *path, struct block *b);

/* Makes a settings file of nine words, which has its name only when it is whole. Ends the program where there is one already, or where
 * it can't be made. */
void settings_make(const char *path, const uint32_t *words);

#endif
