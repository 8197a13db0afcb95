/* The picture that the library draws of a dump. */
#ifndef SCREEN_H
#define SCREEN_H

#include <stdint.h>
#include "dump.h"
#include "picture.h"

/* Draws these nine words with the dump's memory and palette. An STN panel is drawn as the eye sees it, where a pixel that is lit in
 * n of d frames has 255 x n / d of light, rounded; or as the bits of one frame, if the dump says so. Returns 0, or the number of the
 * refusal, and then there are no colours. */
uint32_t screen_draw(const struct dump *d, const uint32_t *words, struct picture *p);

#endif
