/* The test card: a dump for a panel's size and mode, made without a board. */
#ifndef TESTCARD_H
#define TESTCARD_H

#include <stdbool.h>
#include <stdint.h>
#include "card.h"
#include "dump.h"

enum { CARD_FAULT = 120 };

/* The modes that there are cards for. */
#define CARD_MODES "1, 2, 4, 8, 16, 24, mono and grey"

/* Makes the card of a width, a height and a mode, on STN with a rate by a rule edition. Returns false where there is none: `why` then
 * names what is outside its limit. */
bool testcard_make(struct dump *d, uint32_t width, uint32_t height, const struct card_mode *mode, uint32_t edition, char *why);

/* The mode as "at 16 bits", in at most CARD_FAULT characters. */
void testcard_mode_text(const struct card_mode *mode, char *to);

/* What is on the card, as far as the mode shows it. */
const char *testcard_shows(const struct card_mode *mode);

#endif
