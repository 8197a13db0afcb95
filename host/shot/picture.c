/* Pictures and their PNG files, by libpng. A golden picture is taken by its stored samples, as what differs is to be told in them. */
#include "picture.h"
#include <errno.h>
#include <inttypes.h>
#include <png.h>
#include <setjmp.h>
#include <stdlib.h>
#include <string.h>
#include "outputs.h"

struct picture picture_new(uint32_t width, uint32_t height) {
    struct picture p = {width, height, NULL};
    p.colours = grow(NULL, sizeof *p.colours * width * height);
    return p;
}

void picture_free(struct picture *p) { free(p->colours); }

static size_t size_of(const struct picture *p) { return (size_t)p->width * p->height; }

/* ---- reading */

/* A PNG that is being taken: what is left of it, and why it can't be. */
struct taking {
    png_structp png;
    png_infop info;
    const uint8_t *next;
    size_t left;
    uint8_t *samples;  /* of all rows */
    png_bytep *rows;
    char why[160];
};

static void read_on(png_structp png, png_bytep to, size_t length) {
    struct taking *t = png_get_io_ptr(png);
    if (length > t->left)
        png_error(png, "it ends too early");
    memcpy(to, t->next, length);
    t->next += length;
    t->left -= length;
}

static void keep_error(png_structp png, png_const_charp message) {
    struct taking *t = png_get_error_ptr(png);
    snprintf(t->why, sizeof t->why, "can't be read as a PNG: %s", message);
    png_longjmp(png, 1);
}

static void pass_warning(png_structp png, png_const_charp message) { (void)png, (void)message; }

/* Rows as indices of one byte where the PNG has a palette, else as red, green, blue and alpha of 16 bits; libpng is asked for no
 * gamma, so there is none. */
static bool ask_for_samples(struct taking *t) {
    bool indexed = png_get_color_type(t->png, t->info) == PNG_COLOR_TYPE_PALETTE;
    if (indexed) {
        png_set_packing(t->png);
    } else {
        png_set_expand_16(t->png);
        png_set_gray_to_rgb(t->png);
        png_set_add_alpha(t->png, 0xffff, PNG_FILLER_AFTER);
    }
    png_set_interlace_handling(t->png);
    png_read_update_info(t->png, t->info);
    return indexed;
}

static void read_samples(struct taking *t, uint32_t height) {
    size_t row = png_get_rowbytes(t->png, t->info);
    t->samples = grow(NULL, row * height);
    t->rows = grow(NULL, sizeof *t->rows * height);
    for (uint32_t i = 0; i < height; i++)
        t->rows[i] = t->samples + row * i;
    png_read_image(t->png, t->rows);
    png_read_end(t->png, NULL);
}

/* Says where a pixel is that can't be compared. */
static bool give_up(struct taking *t, const struct picture *p, size_t i, const char *what) {
    snprintf(t->why, sizeof t->why, "can't be compared: %s at row %zu, column %zu", what, i / p->width, i % p->width);
    return false;
}

static bool take_indexed(struct taking *t, struct picture *p) {
    png_colorp palette = NULL;
    png_bytep alpha = NULL;
    int colours = 0, alphas = 0;
    png_get_PLTE(t->png, t->info, &palette, &colours);
    png_get_tRNS(t->png, t->info, &alpha, &alphas, NULL);
    for (size_t i = 0; i < size_of(p); i++) {
        int index = t->rows[i / p->width][i % p->width];
        if (index >= colours)
            return give_up(t, p, i, "an index outside its palette");
        if (index < alphas && alpha[index] != 255)
            return give_up(t, p, i, "alpha below full");
        p->colours[i] = (uint32_t)palette[index].red << 16 | palette[index].green << 8 | palette[index].blue;
    }
    return true;
}

/* A 16-bit sample that an 8-bit one gives has two equal bytes. */
static bool take_samples(struct taking *t, struct picture *p) {
    for (size_t i = 0; i < size_of(p); i++) {
        const uint8_t *s = t->rows[i / p->width] + 8 * (i % p->width);
        if (s[6] != 255 || s[7] != 255)
            return give_up(t, p, i, "alpha below full");
        if (s[0] != s[1] || s[2] != s[3] || s[4] != s[5])
            return give_up(t, p, i, "a 16-bit sample between two 8-bit ones");
        p->colours[i] = (uint32_t)s[0] << 16 | s[2] << 8 | s[4];
    }
    return true;
}

static bool take_picture(struct taking *t, struct picture *p, const struct picture *like) {
    if (setjmp(png_jmpbuf(t->png)))
        return false;
    png_set_read_fn(t->png, t, read_on);
    png_read_info(t->png, t->info);
    p->width = png_get_image_width(t->png, t->info);
    p->height = png_get_image_height(t->png, t->info);
    if (p->width != like->width || p->height != like->height)
        return true;
    bool indexed = ask_for_samples(t);
    read_samples(t, p->height);
    *p = picture_new(like->width, like->height);
    return indexed ? take_indexed(t, p) : take_samples(t, p);
}

const char *picture_take(struct picture *p, const struct bytes *png, const struct picture *like) {
    static struct taking t;
    bool taken;
    t = (struct taking){.next = png->at, .left = png->length};
    *p = (struct picture){0, 0, NULL};
    if (png->length < 8 || png_sig_cmp(png->at, 0, 8))
        return "can't be read as a PNG: not a PNG file";
    t.png = png_create_read_struct(PNG_LIBPNG_VER_STRING, &t, keep_error, pass_warning);
    t.info = t.png ? png_create_info_struct(t.png) : NULL;
    if (!t.info)
        fail("memory", strerror(ENOMEM));
    taken = take_picture(&t, p, like);
    png_destroy_read_struct(&t.png, &t.info, NULL);
    free(t.samples);
    free(t.rows);
    if (taken)
        return NULL;
    picture_free(p);
    p->colours = NULL;
    return t.why;
}

/* ---- writing */

static uint8_t *samples_of(const struct picture *p) {
    uint8_t *rgb = grow(NULL, 3 * size_of(p));
    for (size_t i = 0; i < size_of(p); i++)
        for (int k = 0; k < 3; k++)
            rgb[3 * i + k] = p->colours[i] >> (16 - 8 * k) & 0xff;
    return rgb;
}

void picture_write(const struct picture *p, const char *path) {
    png_image image = {.version = PNG_IMAGE_VERSION, .width = p->width, .height = p->height, .format = PNG_FORMAT_RGB};
    uint8_t *rgb = samples_of(p);
    png_alloc_size_t room = PNG_IMAGE_PNG_SIZE_MAX(image);
    struct bytes png = {grow(NULL, room), 0};
    if (!png_image_write_to_memory(&image, png.at, &room, 0, rgb, 0, NULL))
        fail(path, image.message);
    png.length = room;
    output_write(path, &png);
    free(png.at);
    free(rgb);
}
