/* Pictures to draw and to expect. Tiles are made from colours, and what is wanted is worked out from the colours and not from a table's bits. */
#ifndef PICTURE_H
#define PICTURE_H

#include "machine.h"

/* the colour of each pixel of each tile: table, tile, row from the top, column from the left */
static uint8_t tile_colours[2][256][8][8];

/* the pattern tables of these colours: byte r holds the low bits of row r, byte 8 + r the high bits, bit 7 leftmost */
static inline void store_tiles(Machine *m)
{
    for (int table = 0; table < 2; table++)
        for (int tile = 0; tile < 256; tile++)
            for (int row = 0; row < 8; row++) {
                uint8_t *bytes = (table ? m->right : m->left) + 16 * tile + row;
                bytes[0] = bytes[8] = 0;
                for (int column = 0; column < 8; column++) {
                    int colour = tile_colours[table][tile][row][column];
                    bytes[0] = (uint8_t)(bytes[0] * 2 + colour % 2);
                    bytes[8] = (uint8_t)(bytes[8] * 2 + colour / 2);
                }
            }
}

/* a tile of one colour */
static inline void solid(int table, int tile, int colour) { memset(tile_colours[table][tile], colour, 64); }

/* a row of a tile, written as eight digits */
static inline void paint(int table, int tile, int row, const char *digits)
{
    for (int column = 0; column < 8; column++)
        tile_colours[table][tile][row][column] = (uint8_t)(digits[column] - '0');
}

/* every tile different, in every row and from either side */
static inline void scatter_tiles(unsigned seed)
{
    unsigned n = seed;
    for (int i = 0; i < 2 * 256 * 64; i++) {
        n = (n * 75 + 74) % 65537;
        (&tile_colours[0][0][0][0])[i] = (uint8_t)(n / 64 % 4);
    }
}

/* v at pixel (column, row) of the four nametables, 512 by 480, that lie side by side; fine x is column modulo 8 */
static inline unsigned v_at(unsigned column, unsigned row)
{
    column %= 512;
    row %= 480;
    return row % 8 * 4096 + row / 240 * 2048 + column / 256 * 1024 + row % 240 / 8 * 32 + column % 256 / 8;
}

/* the background's number at that pixel, 0 where it is not opaque */
static inline unsigned background_at(const Machine *m, unsigned column, unsigned row)
{
    unsigned quarter = row % 480 / 240 * 2 + column % 512 / 256, x = column % 256, y = row % 480 % 240;
    const uint8_t *page = m->nametables + 1024 * page_of(m->unit[PPU_AT_BOARD], quarter);
    unsigned attribute = page[960 + y / 32 * 8 + x / 32], half = x % 32 / 16 + 2 * (y % 32 / 16);
    unsigned palette = half == 0 ? attribute % 4 : half == 1 ? attribute / 4 % 4 : half == 2 ? attribute / 16 % 4 : attribute / 64;
    unsigned colour = tile_colours[m->unit[PPU_AT_CONTROL] / 16 % 2][page[y / 8 * 32 + x / 8]][y % 8][x % 8];
    return colour ? 4 * palette + colour : 0;
}

/* sprite number i of OAM */
static inline void set_sprite(Machine *m, int i, unsigned y, unsigned tile, unsigned attribute, unsigned x)
{
    m->oam[4 * i] = (uint8_t)y;
    m->oam[4 * i + 1] = (uint8_t)tile;
    m->oam[4 * i + 2] = (uint8_t)attribute;
    m->oam[4 * i + 3] = (uint8_t)x;
}

/* every sprite below the picture */
static inline void no_sprites(Machine *m) { memset(m->oam, 0xFF, 256); }

/* the colour of a sprite at column c of its row r, both counted from the top left of what is shown; height 8 or 16 by control */
static inline unsigned sprite_colour(const Machine *m, const uint8_t *sprite, unsigned r, unsigned c)
{
    unsigned control = m->unit[PPU_AT_CONTROL], tall = control / 32 % 2, tile = sprite[1];
    unsigned row = sprite[2] >= 128 ? (tall ? 15 : 7) - r : r, column = sprite[2] / 64 % 2 ? 7 - c : c;
    if (!tall)
        return tile_colours[control / 8 % 2][tile][row][column];
    return row < 8 ? tile_colours[tile % 2][tile / 2 * 2][row][column] : tile_colours[tile % 2][tile / 2 * 2 + 1][row - 8][column];
}

static inline unsigned sprite_number(const uint8_t *sprite, unsigned colour) { return 16 + sprite[2] % 4 * 4 + colour; }

/* a unit about to draw this line from pixel (column, row) of the nametables; t is where v is */
static inline void set_line(Machine *m, unsigned line, unsigned column, unsigned row)
{
    set_word(m->unit, PPU_AT_NEXT_LINE, line);
    set_word(m->unit, PPU_AT_V, v_at(column, row));
    set_word(m->unit, PPU_AT_T, v_at(column, row));
    m->unit[PPU_AT_FINE_X] = column % 8;
    m->unit[PPU_AT_STATUS] = 0;
}

/* bytes that are neither pixel numbers nor finished colours, in both buffers of a line */
static inline void spoil_line(Machine *m)
{
    memset(m->line, 0xAA, 256);
    memset(m->colours, 0xAA, 512);
}

/* a warmed-up unit of this board, control and mask, and nothing of a line in the buffers */
static inline void set_unit(Machine *m, unsigned board, unsigned control, unsigned mask)
{
    memset(m->unit, 0, 16);
    m->unit[PPU_AT_BOARD] = (uint8_t)board;
    m->unit[PPU_AT_CONTROL] = (uint8_t)control;
    m->unit[PPU_AT_MASK] = (uint8_t)mask;
    m->unit[PPU_AT_WARMED_UP] = 1;
    spoil_line(m);
}

/* FINISHED COLOURS, by document 02. Of a cell: the palette byte modulo 64, of that only bits 5 and 4 if mask bit 0 is set, and 64 times mask
   bits 7-5. */
static inline unsigned finished_colour(const Machine *m, unsigned cell)
{
    unsigned mask = m->unit[PPU_AT_MASK], byte = m->palette[cell] % 64;
    return (mask % 2 ? byte / 16 * 16 : byte) + 64 * (mask / 32);
}

/* the cell that a pixel number shows on the unit's next line: the cell of that number, but at v if mask bits 3 and 4 are clear and v leads there */
static inline unsigned shown_cell(const Machine *m, unsigned number)
{
    unsigned a = word(m->unit, PPU_AT_V) % 16384, cell = a % 32;
    if (m->unit[PPU_AT_MASK] / 8 % 4 || a < 0x3F00)
        return number;
    return cell == 16 || cell == 20 || cell == 24 || cell == 28 ? cell - 16 : cell;
}

/* the colours of the wanted line, from the unit as it is before that line */
static inline void colour_line(Machine *wanted, const Machine *before)
{
    for (int p = 0; p < 256; p++)
        set_word(wanted->colours, 2 * p, finished_colour(before, shown_cell(before, wanted->line[p])));
}

/* SPRITE OVERFLOW, by document 02 */
static inline unsigned sprite_height(const Machine *m) { return m->unit[PPU_AT_CONTROL] / 32 % 2 ? 16 : 8; }

/* a byte tried as a Y byte on this line */
static inline int in_range(const Machine *m, unsigned y, unsigned line) { return y <= line && line < y + sprite_height(m); }

typedef struct {
    unsigned looked;
    int set;
} Search;

/* the search on this line, a step for each sprite: those looked at, and whether the bit is set */
static inline Search search_by_steps(const Machine *m, unsigned line)
{
    Search s = { 0, 0 };
    unsigned found = 0, byte = 0;
    while (s.looked < 64 && !s.set) {
        int here = in_range(m, m->oam[4 * s.looked + byte], line);
        s.looked++;
        if (found < 8)
            found += here ? 1 : 0;
        else if (here)
            s.set = 1;
        else
            byte = (byte + 1) % 4;
    }
    return s;
}

#endif
