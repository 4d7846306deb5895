#include <png.h>
#include <stdlib.h>
#include <string.h>
#include "../examples/colours.h"
#include "encode.h"
#include "tool.h"

/* zlib's quickest: pictures of random tiles come out a third larger than with its best, in a third of the time */
#define COMPRESSION 1
/* from this scale on most rows repeat the one above, and as differences from it they are quicker and smaller */
#define FILTERED_FROM 3
/* bytes of a pixel at most: red, green, blue */
#define PARTS 3

/* the PNG so far */
static struct {
    uint8_t *bytes;
    size_t length, room;
} made;

static void add(png_structp png, png_bytep bytes, size_t length)
{
    if (made.length + length > made.room) {
        made.room = 2 * (made.length + length);
        made.bytes = realloc(made.bytes, made.room);
    }
    if (!made.bytes)
        png_error(png, "no memory");
    memcpy(made.bytes + made.length, bytes, length);
    made.length += length;
}

static void flush(png_structp png) { (void)png; }

static void failed(png_structp png, png_const_charp message)
{
    (void)png;
    give_up(BAD_FILE, "libpng: %s", message);
}

static int has_emphasis(const Line *lines)
{
    unsigned all = 0;
    for (unsigned y = 0; y < PICTURE_HEIGHT; y++)
        for (unsigned x = 0; x < PICTURE_WIDTH; x++)
            all |= ppu_colour(lines[y].colours, x);
    return all >= PLAIN_COLOURS;
}

/* A PNG's palette has room for the 64 colours without emphasis: with them alone a pixel is its colour's number, else its red, green, blue. */
static int type_of(const Line *lines, const Form *form)
{
    if (!form->rgb)
        return PNG_COLOR_TYPE_GRAY;
    return has_emphasis(lines) ? PNG_COLOR_TYPE_RGB : PNG_COLOR_TYPE_PALETTE;
}

static void write_header(png_structp png, png_infop info, const Form *form, int type)
{
    png_set_IHDR(png, info, PICTURE_WIDTH * form->scale, PICTURE_HEIGHT * form->scale, 8, type, PNG_INTERLACE_NONE, PNG_COMPRESSION_TYPE_DEFAULT,
                 PNG_FILTER_TYPE_DEFAULT);
    if (type == PNG_COLOR_TYPE_PALETTE) {
        png_color colours[PLAIN_COLOURS];
        for (int i = 0; i < PLAIN_COLOURS; i++) {
            colours[i].red = form->rgb[3 * i];
            colours[i].green = form->rgb[3 * i + 1];
            colours[i].blue = form->rgb[3 * i + 2];
        }
        png_set_PLTE(png, info, colours, PLAIN_COLOURS);
    }
    png_write_info(png, info);
}

/* Sets the bytes of a row; how many a pixel has. */
static unsigned set_row(uint8_t *row, const Line *line, const Form *form, int type)
{
    if (type == PNG_COLOR_TYPE_GRAY)
        for (unsigned x = 0; x < PICTURE_WIDTH; x++)
            row[x] = (uint8_t)(line->numbers[x] ? 69 + 6 * line->numbers[x] : 0);
    else if (type == PNG_COLOR_TYPE_PALETTE)
        for (unsigned x = 0; x < PICTURE_WIDTH; x++)
            row[x] = (uint8_t)ppu_colour(line->colours, x);
    else
        for (unsigned x = 0; x < PICTURE_WIDTH; x++)
            memcpy(row + PARTS * x, form->rgb + PARTS * ppu_colour(line->colours, x), PARTS);
    return type == PNG_COLOR_TYPE_RGB ? PARTS : 1;
}

static void stretch(uint8_t *to, const uint8_t *from, unsigned parts, unsigned scale)
{
    for (unsigned x = 0; x < PICTURE_WIDTH; x++)
        for (unsigned i = 0; i < scale; i++, to += parts)
            memcpy(to, from + parts * x, parts);
}

static void write_rows(png_structp png, const Line *lines, const Form *form, int type)
{
    static uint8_t row[PARTS * PICTURE_WIDTH], stretched[PARTS * PICTURE_WIDTH * MOST_SCALE];
    for (int y = 0; y < PICTURE_HEIGHT; y++) {
        unsigned parts = set_row(row, &lines[y], form, type);
        if (form->scale > 1)
            stretch(stretched, row, parts, form->scale);
        for (unsigned i = 0; i < form->scale; i++)
            png_write_row(png, form->scale > 1 ? stretched : row);
    }
}

const uint8_t *encode(const Line *lines, const Form *form, size_t *length)
{
    png_structp png = png_create_write_struct(PNG_LIBPNG_VER_STRING, NULL, failed, NULL);
    png_infop info = png ? png_create_info_struct(png) : NULL;
    int type = type_of(lines, form);
    if (!info)
        give_up(BAD_FILE, "libpng: no memory");
    made.length = 0;
    png_set_write_fn(png, NULL, add, flush);
    png_set_compression_level(png, COMPRESSION);
    png_set_filter(png, 0, form->scale < FILTERED_FROM ? PNG_FILTER_NONE : PNG_FILTER_UP);
    write_header(png, info, form, type);
    write_rows(png, lines, form, type);
    png_write_end(png, NULL);
    png_destroy_write_struct(&png, &info);
    *length = made.length;
    return made.bytes;
}
