/* A picture: colours 0xRRGGBB row by row, as the library draws them, and its PNG file. */
#ifndef PICTURE_H
#define PICTURE_H

#include <stdbool.h>
#include <stddef.h>
#include <stdint.h>
#include "files.h"

struct picture {
    uint32_t width, height;
    uint32_t *colours;
};

/* A picture of this size; its colours are not set. */
struct picture picture_new(uint32_t width, uint32_t height);

void picture_free(struct picture *p);

/* Takes a PNG of any kind by the samples that it stores: no gamma, no background. Its colours are taken where it has the size of
 * `like` and left out where it has another. Returns NULL, or why it can't be taken: damaged, a pixel that is not opaque, or a 16-bit
 * sample between two 8-bit ones. */
const char *picture_take(struct picture *p, const struct bytes *png, const struct picture *like);

void picture_write(const struct picture *p, const char *path);

#endif
