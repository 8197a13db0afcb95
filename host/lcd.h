/* The LCD controller of the S3C2410 and S3C2440 for C and C++ programs: what the nine control words, the palette and the video
 * memory show. `make target/staticlib/liblcd.a` makes the archive with these calls (x86-64 Linux).
 * Sections such as §10.1 are of docs/REFERENCE.md, which has the rules; §10 is about this interface.
 *
 * words         the nine control words in this order: LCDCON1 to LCDCON5, LCDSADDR1 to LCDSADDR3, TPAL; further entries are ignored
 * window_start  the byte address of the first word of `video` (§3.1)
 * video         video memory, as 32-bit words
 * palette       the 256 palette entries
 * scan          the state of a scan, as 13 entries (see `lcd_scan_entry`); further entries stay
 * *_len         how many entries (not bytes) the slice before it has
 *
 * Each call returns 0 when it is done. Otherwise it returns the number of the refusal (`LCD_REFUSALS`), and nothing lent is changed.
 * Of several numbers the lowest is returned (§9.2), with one exception: 10 comes first where there are fewer than nine words, or
 * where a scan that is read has fewer than 13 entries. §9.3 has each call's order; W and H are width and height.
 *
 * lcd_check, lcd_counts and lcd_load take TFT panels (PNRMODE 3) and STN panels (PNRMODE 2); lcd_draw_stn takes STN panels, every
 * other drawing and the scan TFT panels. Another panel is refused by 2. Fields and sizes are read of any words.
 *
 * The calls keep nothing between them, allocate nothing and may run on several threads at a time. Where a length is 0, its pointer
 * may be any aligned address but not null. A slice that a call writes must not overlap another slice of the same call. */
#ifndef LCD_H
#define LCD_H

#include <stddef.h>
#include <stdint.h>

#ifdef __cplusplus
extern "C" {
#endif

/* The version of this interface: the first number grows when a call changes, the second when something is added. */
#define LCD_VERSION_MAJOR 3
#define LCD_VERSION_MINOR 1
#define LCD_VERSION "3.1"

/* How many words and how many palette entries there are. */
enum { LCD_REGISTERS = 9, LCD_PALETTE_ENTRIES = 256 };

/* The numbers of refusal (§9.1), each with its condition: R(number, text) for each. W and H are width and height, S the stored bits of
 * a pixel. No call returns 14: programs give it for their input. */
#define LCD_REFUSALS(R)                                                                                                            \
    R(1, "a reserved bit is set")                                                                                                  \
    R(2, "PNRMODE selects no panel that the call takes: 3 is TFT, 2 is STN, 8-bit single scan")                                    \
    R(3, "BPPMODE is no mode of the panel: 8..13 on TFT, 0 and 2 on STN")                                                          \
    R(4, "BSWP or HWSWP is set where the mode doesn't allow it")                                                                   \
    R(5, "a row in memory doesn't fit the width: 16 x PAGEWIDTH differs from W x S, or LCDBASEU, PAGEWIDTH or OFFSIZE is odd")     \
    R(6, "LCDBASEL isn't where a row after the last would begin: LCDBASEU + (PAGEWIDTH + OFFSIZE) x H, modulo 2^21")               \
    R(7, "the picture runs past its bank: LCDBASEU + (H - 1) x (PAGEWIDTH + OFFSIZE) + PAGEWIDTH exceeds 2^21")                    \
    R(8, "the picture doesn't lie whole in the video memory given, or the memory's start is no multiple of 4")                     \
    R(9, "video is off: ENVID is 0")                                                                                               \
    R(10, "a slice is too short for its call, or the palette has not exactly 256 entries")                                         \
    R(11, "the row or the column is outside the panel")                                                                            \
    R(12, "a number is too wide for its field")                                                                                    \
    R(13, "LCDBANK of the pending viewport, or of the new one, differs from that in force")                                        \
    R(14, "the input has under 556 bytes, or its video memory is no multiple of 4 bytes, or more than the program takes")         \
    R(15, "the position is not below the frame's clocks")                                                                          \
    R(17, "CLKVAL is below 2 on an STN panel")                                                                                     \
    R(27, "the rule edition is neither 1 nor 2")

/* The text of a number of refusal. 0 and numbers that are no refusal have a text too, so the result can always be printed. It is in
 * lcd_refusals.c, to be compiled with the program; the archive does not have it. */
const char *lcd_refusal_text(uint32_t number);

/* Checks that the words are good and that every word of every row lies in the lent memory (§3.6). Writes nothing.
 * Refuses 10 (fewer than nine words), then 1 to 8, 17. */
uint32_t lcd_check(const uint32_t *words, size_t words_len, uint32_t window_start, const uint32_t *video, size_t video_len);

/* Writes a frame's length and rate (§6.3, §6.4, §6.8) to the first three entries of `counts`: clocks; HCLK ticks; the frame rate in
 * millihertz at an HCLK of `hclk` Hz, rounded down. Further entries stay. `edition` is the rule edition for an STN panel's pulses: 1
 * for 2^(4+n) ticks, 2 for the 16 x (n+1) of later boards (n is WLH or WDLY). A TFT panel's counts are the same by both.
 * Refuses 10 (fewer than nine words), then 1 to 7, then 10 (`counts` has fewer than three entries), 17, 27. */
uint32_t lcd_counts(const uint32_t *words, size_t words_len, uint32_t edition, uint32_t hclk, uint64_t *counts,
                    size_t counts_len);

/* Draws the pixel in row `row` and column `column`, both counted from 0, to the first entry of `out` (§5.6): a colour 0xRRGGBB,
 * VD23..VD0 before INVVD. Further entries stay.
 * Refuses 10 (fewer than nine words), then 1 to 9, then 10 (a palette not of 256 entries, or no entry in `out`), then 11. */
uint32_t lcd_draw_pixel(const uint32_t *words, size_t words_len, uint32_t window_start, const uint32_t *video, size_t video_len,
                        const uint16_t *palette, size_t palette_len, uint32_t row, uint32_t column, uint32_t *out,
                        size_t out_len);

/* Draws row `row`, counted from 0, to the first W entries of `out`: colours as for a pixel. Further entries stay.
 * Refuses 10 (fewer than nine words), then 1 to 9, then 10 (a palette not of 256 entries, or fewer than W in `out`), then 11. */
uint32_t lcd_draw_row(const uint32_t *words, size_t words_len, uint32_t window_start, const uint32_t *video, size_t video_len,
                      const uint16_t *palette, size_t palette_len, uint32_t row, uint32_t *out, size_t out_len);

/* Draws the picture, row by row, to the first W x H entries of `picture`: colours as for a pixel. Further entries stay.
 * Refuses 10 (fewer than nine words), then 1 to 9, then 10 (a palette not of 256 entries, or fewer than W x H in `picture`). */
uint32_t lcd_draw_picture(const uint32_t *words, size_t words_len, uint32_t window_start, const uint32_t *video,
                          size_t video_len, const uint16_t *palette, size_t palette_len, uint32_t *picture,
                          size_t picture_len);

/* Draws frame `frame` of an STN panel, row by row, to the first W x H / 8 bytes of `out` (§5.10): one byte for eight pixels, the
 * leftmost in bit 7, 1 for a lit pixel, before INVVD. Further bytes stay. A mono pixel is lit where its bit is 1; a grey by its duty, in
 * some frames and not in others (§5.9).
 * Refuses 10 (fewer than nine words), then 1 to 9, then 10 (fewer than W x H / 8 bytes in `out`), 17. */
uint32_t lcd_draw_stn(const uint32_t *words, size_t words_len, uint32_t window_start, const uint32_t *video, size_t video_len,
                      uint32_t frame, uint8_t *out, size_t out_len);

/* ---- the words field by field (§10.2)
 *
 * The writable fields (§1.2) in the order of the words and, within a word, from its highest bits down. The read-only LINECNT, VSTATUS
 * and HSTATUS are not among them. */
enum lcd_field {
    LCD_CLKVAL, LCD_MMODE, LCD_PNRMODE, LCD_BPPMODE, LCD_ENVID,          /* LCDCON1 */
    LCD_VBPD, LCD_LINEVAL, LCD_VFPD, LCD_VSPW,                           /* LCDCON2 */
    LCD_HBPD, LCD_HOZVAL, LCD_HFPD,                                      /* LCDCON3 */
    LCD_MVAL, LCD_HSPW,                                                  /* LCDCON4 */
    LCD_BPP24BL, LCD_FRM565, LCD_INVVCLK, LCD_INVVLINE, LCD_INVVFRAME,   /* LCDCON5 */
    LCD_INVVD, LCD_INVVDEN, LCD_INVPWREN, LCD_INVLEND, LCD_PWREN,
    LCD_ENLEND, LCD_BSWP, LCD_HWSWP,
    LCD_LCDBANK, LCD_LCDBASEU,                                           /* LCDSADDR1 */
    LCD_LCDBASEL,                                                        /* LCDSADDR2 */
    LCD_OFFSIZE, LCD_PAGEWIDTH,                                          /* LCDSADDR3 */
    LCD_TPALEN, LCD_TPALVAL,                                             /* TPAL */
    LCD_FIELDS
};

/* The fields that only an STN panel has (§1.7): WDLY, LINEBLANK and WLH lie in bits of HBPD, HFPD and HSPW, and are read and written in
 * their entries. */
enum { LCD_WDLY = LCD_HBPD, LCD_LINEBLANK = LCD_HFPD, LCD_WLH = LCD_HSPW };

/* Reads the 34 fields of the nine words into the first 34 entries of `fields`. Further entries stay.
 * Refuses 10 (fewer than nine words), then 1, then 10 (`fields` has fewer than 34 entries). */
uint32_t lcd_read_fields(const uint32_t *words, size_t words_len, uint32_t *fields, size_t fields_len);

/* Packs the first 34 entries of `fields` into the first nine entries of `words`; read-only bits become 0. Further entries stay.
 * lcd_read_fields reads the same fields back (§1.6), unless PNRMODE is 2 and a field sets a bit that is reserved there (§1.7).
 * Refuses 10 (`fields` has fewer than 34 entries, or `words` fewer than nine), then 12. */
uint32_t lcd_write_fields(const uint32_t *fields, size_t fields_len, uint32_t *words, size_t words_len);

/* The sizes of the panel (§10.3). On TFT each is at least 1, except that the stored bits may be 0. On STN a line has no clocks but its
 * HOZVAL + 1 active ones and a frame no lines but its H: the syncs and porches are 0. The ticks of a clock are 0 there
 * where CLKVAL is. */
enum lcd_size {
    LCD_SIZE_WIDTH,       /* pixels in a row, W */
    LCD_SIZE_HEIGHT,      /* rows, H */
    LCD_SIZE_STORED_BITS, /* stored bits of a pixel, S; 0 where BPPMODE is no mode of the panel */
    LCD_SIZE_TICKS,       /* HCLK ticks of a clock: 2 x (CLKVAL + 1), on STN 2 x CLKVAL */
    LCD_SIZE_HSYNC,       /* clocks of a line: sync, back porch, front porch, and the whole line with its active ones */
    LCD_SIZE_HBACK,
    LCD_SIZE_HFRONT,
    LCD_SIZE_LINE,
    LCD_SIZE_VSYNC,       /* lines of a frame: sync, back porch, front porch, and the whole frame with its H active ones */
    LCD_SIZE_VBACK,
    LCD_SIZE_VFRONT,
    LCD_SIZE_FRAME,
    LCD_SIZES
};

/* Reads the 12 sizes of the panel into the first 12 entries of `sizes`. Further entries stay. Like lcd_read_fields it judges only 1
 * of the words, so it also answers for words that other calls refuse with 2 to 7 and 17.
 * Refuses 10 (fewer than nine words), then 1, then 10 (`sizes` has fewer than 12 entries). */
uint32_t lcd_read_sizes(const uint32_t *words, size_t words_len, uint32_t *sizes, size_t sizes_len);

/* ---- the scan, clock by clock (§7, §10.4)
 *
 * lcd_start starts a scan; lcd_step, lcd_run and lcd_change_viewport continue it in any order. Its whole state lies in 13 entries, so
 * copying them copies the scan, and a state may be filled in by hand: each call judges all of it again. A step's levels and a run's
 * count go to slices of their own. */
enum lcd_scan_entry {
    LCD_WORDS = 0,              /* 0 to 8: the nine words in force, in their order */
    LCD_WINDOW_START = 9,       /* the byte address of the first word of `video` */
    LCD_PENDING_LCDSADDR1 = 10, /* the pending viewport: it takes over when clock 0 of the next frame is taken (§7.6) */
    LCD_PENDING_LCDSADDR2 = 11,
    LCD_POSITION = 12,          /* the number of the next clock in its frame, from 0 */
    LCD_SCAN_ENTRIES = 13
};

/* What one clock shows. */
enum lcd_clock_entry {
    LCD_VSYNC = 0, /* levels, 0 or 1, after INVVFRAME, INVVLINE and INVVDEN (§6.7) */
    LCD_HSYNC = 1,
    LCD_VDEN = 2,
    LCD_VD = 3,    /* the 24 data lines, after INVVD */
    LCD_CLOCK_ENTRIES = 4
};

/* Starts a scan: stores the words, the window start, the words' viewport as the pending one and position 0 in the 13 entries of
 * `scan`. Further entries stay.
 * Refuses 10 (fewer than nine words), then 1 to 9, then 10 (`scan` has fewer than 13 entries). */
uint32_t lcd_start(const uint32_t *words, size_t words_len, uint32_t window_start, const uint32_t *video, size_t video_len,
                   uint32_t *scan, size_t scan_len);

/* Steps one clock: the next state goes to `scan`, what the clock shows to the first four entries of `clock`. Further entries stay.
 * Refuses 10 (`scan` has fewer than 13 entries), then 1 to 8 over the viewport in force and the pending one, 9, 10 (a palette not of
 * 256 entries, or fewer than four in `clock`), 13, 15. */
uint32_t lcd_step(uint32_t *scan, size_t scan_len, const uint32_t *video, size_t video_len, const uint16_t *palette,
                  size_t palette_len, uint32_t *clock, size_t clock_len);

/* Runs up to `clocks` clocks, but none past the end of the frame: the next state goes to `scan`, the colour of each pixel scanned to
 * its entry of `picture`, W x H in reading order, and the count of clocks taken to the first entry of `taken`. All other entries stay.
 * Refuses 10 (`scan` has fewer than 13 entries), then 1 to 8 over the viewport in force and the pending one, 9, 10 (a palette not of
 * 256 entries, fewer than W x H in `picture`, or none in `taken`), 13, 15. */
uint32_t lcd_run(uint32_t *scan, size_t scan_len, const uint32_t *video, size_t video_len, const uint16_t *palette,
                 size_t palette_len, uint64_t clocks, uint32_t *picture, size_t picture_len, uint32_t *taken, size_t taken_len);

/* Stores a new LCDSADDR1 and LCDSADDR2 in entries 10 and 11: they take over with the next frame.
 * Refuses 10 (`scan` has fewer than 13 entries), then 1 to 8 over the viewport in force, the pending one and the new one, 9, 13, 15. */
uint32_t lcd_change_viewport(uint32_t *scan, size_t scan_len, const uint32_t *video, size_t video_len, uint32_t lcdsaddr1,
                             uint32_t lcdsaddr2);

/* ---- loading new settings (§1.8, §8.7)
 *
 * Nine words stored where a board takes its settings from are replaced by ten stores of a word each. The first stores LCDCON1 with
 * ENVID 0, the last stores it as wanted: a power cut at any moment leaves the old words whole, video off, or the new words whole. */
enum { LCD_STORES = 10 };

/* The entry that each of the ten stores sets, in their order. */
#define LCD_STORE_ENTRIES {0, 1, 2, 3, 4, 5, 6, 7, 8, 0}

/* Makes the first `cut` of the ten stores, all of them where `cut` is 10 or more, in the first nine entries of `stored`; further
 * entries stay. No bit of a word is dropped, read-only ones neither. The words are judged, with the memory, at any `cut`; what `stored`
 * held is not.
 * Refuses 10 (fewer than nine entries in `stored` or in `words`), then 1 to 8, 17. */
uint32_t lcd_load(uint32_t *stored, size_t stored_len, const uint32_t *words, size_t words_len, uint32_t window_start,
                  const uint32_t *video, size_t video_len, uint32_t cut);

#ifdef __cplusplus
}
#endif

#endif
