/* A picture as the bytes of a PNG. */
#ifndef ENCODE_H
#define ENCODE_H

#include "ppu.h"

#define PICTURE_WIDTH PPU_LINE_LENGTH
#define PICTURE_HEIGHT 240
#define MOST_SCALE 16

/* a line as the library draws it */
typedef struct {
    uint8_t numbers[PPU_LINE_LENGTH], colours[PPU_COLOURS_LENGTH];
} Line;

typedef struct {
    unsigned scale;     /* 1 to 16: each pixel becomes a square of scale x scale */
    const uint8_t *rgb; /* red, green, blue of each of the 512 finished colours. NULL: the pixel numbers as grey levels */
} Form;

/* The PNG of a picture's lines; the bytes belong to this file and last until the next call. */
const uint8_t *encode(const Line *lines, const Form *form, size_t *length);

#endif
