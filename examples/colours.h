/* The 512 colours that a finished colour of ppu.h names, as red, green, blue: 64 without emphasis, then 64 for each emphasis. A palette file has all
   of them, 1536 bytes, or only the first 64, 192 bytes, of which colours_set makes the others. colours_2c02 of 2c02.h is such a file's bytes. */
#ifndef COLOURS_H
#define COLOURS_H

#include <stddef.h>
#include "2c02.h"

enum { COLOURS = 512, PLAIN_COLOURS = 64, PALETTE_FILE_LENGTH = 3 * COLOURS, SHORT_PALETTE_FILE_LENGTH = 3 * PLAIN_COLOURS };

/* Emphasis (1 red, 2 green, 4 blue) takes each part that it does not name to 0.746 of itself, to the nearest whole number, half up; if it names
   all three, each of them. Hues 14 and 15, the blacks, stay. `part` is 0 red, 1 green, 2 blue. tools/palette.py has the rule in Python. */
static inline uint8_t colours_level(uint8_t level, unsigned number, unsigned emphasis, unsigned part)
{
    static const uint8_t stay[8] = { 7, 1, 2, 3, 4, 5, 6, 0 };
    return number % 16 > 13 || stay[emphasis] >> part & 1 ? level : (uint8_t)((746u * level + 500) / 1000);
}

/* All 512 from a palette file's bytes; 0, with nothing filled, if a palette file has another length. */
static inline int colours_set(uint8_t rgb[PALETTE_FILE_LENGTH], const uint8_t *bytes, size_t length)
{
    const unsigned whole = PALETTE_FILE_LENGTH, plain = SHORT_PALETTE_FILE_LENGTH;
    if (length != whole && length != plain)
        return 0;
    for (unsigned i = 0; i < whole; i++)
        rgb[i] = length == whole ? bytes[i] : colours_level(bytes[i % plain], i % plain / 3, i / plain, i % 3);
    return 1;
}

#endif
