/* Frames of an STN panel as an animated PNG (APNG), so that flicker can be seen. */
#ifndef ANIMATION_H
#define ANIMATION_H

#include <stdint.h>
#include "dump.h"

/* How long a frame is shown, in seconds: `over` / `under`. */
struct delay {
    uint16_t over, under;
};

/* The frame's ticks by the dump's rule edition over HCLK, or where 16 bits don't hold them, a fraction very near; 1/60 where there is
 * no HCLK. The words must be accepted. */
struct delay animation_delay(const struct dump *d);

/* Writes `count` frames from number `first` on, of 1 bit a pixel, white where it is lit. They are shown over and over; a program
 * that knows no animation shows the first. The dump must be accepted. */
void animation_write(const struct dump *d, uint32_t first, uint32_t count, const char *path);

#endif
