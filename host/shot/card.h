/* The picture on the test card. */
#ifndef CARD_H
#define CARD_H

#include <stdbool.h>
#include <stdint.h>
#include "picture.h"

/* Bits a pixel; on STN 1 is mono and 4 is 16 greys. */
struct card_mode {
    uint32_t bits;
    bool stn;
};

/* The grey of a level in the picture of an STN card; its number is the colour's lowest four bits. */
static inline uint32_t card_grey(uint32_t level) { return level * 0x111111; }

/* Draws a border of one pixel, colour bars, a grey ramp, the panel's size in figures and a polar diagram, in full colour whatever the
 * mode. An STN panel's card is drawn in its greys; in place of bars and ramp it has a ramp of 16 steps or, in mono, stripes and
 * squares. */
void card_draw(struct picture *p, const struct card_mode *mode);

#endif
