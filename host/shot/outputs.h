/* Files that are written: apart from all that is read, and whole or not at all. */
#ifndef OUTPUTS_H
#define OUTPUTS_H

#include <stddef.h>
#include "files.h"

enum { MOST_OUTPUTS = 2 };

/* Looks up where the outputs lie, and ends the program, with nothing written, where one is the same file as an input or as another
 * output, whatever their names: by device and inode, and for a new file by its folder and name. So it does where the report or the
 * errors go into an input. Paths that are NULL count for nothing. */
void outputs_apart(const char *const *inputs, size_t input_count, const char *const *outputs, size_t output_count);

/* Writes one of these outputs. A regular or new file, at the end of a symbolic link too, is written beside its place and renamed, and
 * keeps the mode that it had; anything else, and standard output, is written straight. Ends the program where it can't. */
void output_write(const char *path, const struct bytes *b);

#endif
