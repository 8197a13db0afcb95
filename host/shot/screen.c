/* The picture that the library draws of a dump. */
#include "screen.h"
#include <stdlib.h>
#include "fields.h"

static uint32_t draw_tft(const struct dump *d, const uint32_t *words, struct picture *p) {
    return lcd_draw_picture(words, LCD_REGISTERS, d->window_start, d->video, d->video_len, d->palette, LCD_PALETTE_ENTRIES,
                            p->colours, (size_t)p->width * p->height);
}

/* ---- STN panels: the light of a pixel by its bits in so many frames, the first in bit 0 */

enum { FRAMES_SEEN = 12, PATTERNS = 1 << FRAMES_SEEN };

/* A pixel's bits repeat after d frames (docs/REFERENCE.md, §5.9), and no d is above 7; a mono pixel's is 1. Where twelve frames repeat
 * after fewer, e, they also do so after the greatest common divisor of d and e, since 12 is at least d + e - 1 (the theorem of Fine
 * and Wilf). So the least e divides d, all frames repeat after it, and what is lit in the first e of them is exactly the duty. */
static uint32_t light_of(uint32_t pattern) {
    uint32_t period = 1, lit = 0;
    while ((pattern ^ pattern >> period) & ((1u << (FRAMES_SEEN - period)) - 1))
        period++;
    for (uint32_t frame = 0; frame < period; frame++)
        lit += pattern >> frame & 1;
    return (2 * 255 * lit + period) / (2 * period) * 0x010101;
}

/* The bits of a pixel: the library's bytes have the leftmost of eight in bit 7. */
static uint32_t pattern_at(const uint8_t *bytes, size_t length, uint32_t frames, size_t pixel) {
    uint32_t pattern = 0;
    for (uint32_t frame = 0; frame < frames; frame++)
        pattern |= (uint32_t)(bytes[frame * length + pixel / 8] >> (7 - pixel % 8) & 1) << frame;
    return pattern;
}

static uint32_t draw_stn(const struct dump *d, const uint32_t *words, struct picture *p) {
    uint32_t lights[PATTERNS], frames = d->one_frame ? 1 : FRAMES_SEEN, first = d->one_frame ? d->frame : 0, refusal = 0;
    size_t pixels = (size_t)p->width * p->height, length = pixels / 8;
    uint8_t *bytes = grow(NULL, frames * length);
    for (uint32_t frame = 0; frame < frames && !refusal; frame++)
        refusal = lcd_draw_stn(words, LCD_REGISTERS, d->window_start, d->video, d->video_len, first + frame, bytes + frame * length,
                               length);
    for (uint32_t pattern = 0; pattern < PATTERNS; pattern++)
        lights[pattern] = d->one_frame ? (pattern & 1) * 0xffffff : light_of(pattern);
    for (size_t i = 0; i < pixels && !refusal; i++)
        p->colours[i] = lights[pattern_at(bytes, length, frames, i)];
    free(bytes);
    return refusal;
}

uint32_t screen_draw(const struct dump *d, const uint32_t *words, struct picture *p) {
    uint32_t sizes[LCD_SIZES], refusal = lcd_read_sizes(words, LCD_REGISTERS, sizes, LCD_SIZES);
    *p = (struct picture){0, 0, NULL};
    if (refusal)
        return refusal;
    *p = picture_new(sizes[LCD_SIZE_WIDTH], sizes[LCD_SIZE_HEIGHT]);
    refusal = is_stn(words) ? draw_stn(d, words, p) : draw_tft(d, words, p);
    if (refusal) {
        picture_free(p);
        p->colours = NULL;
    }
    return refusal;
}
