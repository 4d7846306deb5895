/* The memory that the calls are lent, and the kinds of screen. A screen is memory, the record before its first line, and how many lines
   are drawn from there: those on which the sprites are as its name says. */
#ifndef SCREENS_H
#define SCREENS_H

#include <stdint.h>
#include <string.h>
#include "ppu.h"
#include "shared.h"

typedef struct {
    uint8_t left[PPU_PATTERN_LENGTH], right[PPU_PATTERN_LENGTH], nametables[PPU_NAMETABLE_LENGTH], oam[PPU_OAM_LENGTH];
    uint8_t page[PPU_PAGE_LENGTH], line[PPU_LINE_LENGTH], colours[PPU_COLOURS_LENGTH], palette[PPU_PALETTE_LENGTH], unit[PPU_RECORD_LENGTH];
} Machine;

static _Alignas(64) Machine m;

/* the record before the first line, and the lines that are drawn from there */
static uint8_t start[PPU_RECORD_LENGTH];
static unsigned lines;

static inline void set_word(uint8_t *record, int at, unsigned number)
{
    record[at] = (uint8_t)(number % 256);
    record[at + 1] = (uint8_t)(number / 256);
}

/* scattered tiles, nametables, palette and page, no sprite on the screen, and a warmed-up unit that is scrolled to somewhere */
static inline void set_screen(unsigned control, unsigned mask, unsigned first, unsigned count)
{
    seed = 1;
    scatter((uint8_t *)&m, sizeof m);
    memset(m.oam, 0xFF, sizeof m.oam);
    memset(start, 0, sizeof start);
    start[PPU_AT_CONTROL] = (uint8_t)control;
    start[PPU_AT_MASK] = (uint8_t)mask;
    start[PPU_AT_FINE_X] = 3;
    set_word(start, PPU_AT_V, 0x1000 + 0x0400 + 32 * 9 + 13);
    set_word(start, PPU_AT_T, 0x1000 + 0x0400 + 32 * 9 + 13);
    set_word(start, PPU_AT_NEXT_LINE, first);
    start[PPU_AT_WARMED_UP] = 1;
    start[PPU_AT_BOARD] = PPU_VERTICAL + PPU_WRITABLE;
    lines = count;
    memcpy(m.unit, start, sizeof start);
}

static inline void set_sprite(int i, unsigned y, unsigned attribute, unsigned x)
{
    m.oam[4 * i] = (uint8_t)y;
    m.oam[4 * i + 1] = (uint8_t)any(256);
    m.oam[4 * i + 2] = (uint8_t)attribute;
    m.oam[4 * i + 3] = (uint8_t)x;
}

static inline void screen_off(void) { set_screen(0x10, 0x00, 0, 240); }

/* v is at a mirror in the palette, and the one colour is emphasised */
static inline void backdrop_override(void)
{
    set_screen(0x10, 0x40, 0, 240);
    set_word(start, PPU_AT_V, 0x3F18);
}

/* lines that draw nothing: one of them, with mask bits 3 and 4 set or clear, and all 20 from the one after NMI on */
static inline void blank_on(void) { set_screen(0x10, 0x1E, 245, 1); }
static inline void blank_off(void) { set_screen(0x10, 0x00, 245, 1); }
static inline void vertical_blank(void) { set_screen(0x10, 0x1E, 242, 20); }

static inline void background_only(void) { set_screen(0x10, 0x0A, 0, 240); }

/* letters of one colour on an empty ground, one palette, no scroll; sprites are on and none is on the screen */
static inline void text(void)
{
    set_screen(0x10, 0x1E, 0, 240);
    memset(start + PPU_AT_V, 0, 5);
    for (unsigned i = 0; i < sizeof m.right; i++)
        m.right[i] &= (uint8_t)(i / 16 == 32 || i % 16 > 7 ? 0 : 0x7E);
    for (unsigned page = 0; page < sizeof m.nametables; page += 1024) {
        for (unsigned i = 0; i < 960; i++)
            m.nametables[page + i] = (uint8_t)(any(5) ? 'A' + any(26) : ' ');
        memset(m.nametables + page + 960, 0, 64);
    }
}

/* 64 sprites of eight lines over 168 lines */
static inline void three_sprites(void)
{
    set_screen(0x10, 0x1E, 32, 168);
    for (int i = 0; i < 64; i++)
        set_sprite(i, 24 + any(168), any(4) + 32 * any(2), any(256));
}

/* The same sprites from the line after NMI on, with NMI on and the hit of the picture before in the status, which line 261 clears. Sprite 0 is
   opaque all over and covers the lines from y + 1 on, or none. */
static inline void from_nmi(unsigned y, unsigned count)
{
    three_sprites();
    start[PPU_AT_CONTROL] |= 0x80;
    start[PPU_AT_STATUS] = 0xC0;
    set_word(start, PPU_AT_NEXT_LINE, 242);
    set_sprite(0, y, 0, 100);
    memset(m.left + 16 * m.oam[1], 0xFF, 16);
    lines = count;
}

/* up to the next NMI, with no hit; up to the hit, through lines 242 to 261 and 0 to 31 */
static inline void whole_frame(void) { from_nmi(255, 262); }
static inline void up_to_hit(void) { from_nmi(30, 20 + 32); }

/* eight rows of eight, on lines 81 to 144 */
static inline void eight_sprites(void)
{
    set_screen(0x10, 0x1E, 81, 64);
    for (int i = 0; i < 64; i++)
        set_sprite(i, 80 + 8 * (unsigned)(i / 8), any(4) + 32 * any(2), any(256));
}

/* eight rows of eight, sixteen lines high, flipped either way, both ways or not, on lines 81 to 208 */
static inline void tall_sprites(void)
{
    set_screen(0x30, 0x1E, 81, 128);
    for (int i = 0; i < 64; i++)
        set_sprite(i, 80 + 16 * (unsigned)(i / 8), any(4) + 32 * any(8), any(256));
}

/* Fifteen lines that have all of `count` sprites of 8x16 in range and show eight of them; they stand in OAM from place `at` on, the rest is $FF.
   What differs is the search for overflow: past the first eight it looks at all the rest, past the last eight nothing is left, and a ninth sets
   the bit at once. */
static inline void only_sprites(int at, int count)
{
    set_screen(0x30, 0x1E, 81, 15);
    for (int i = at; i < at + count; i++)
        set_sprite(i, 80, any(4) + 32 * any(8), any(256));
}

static inline void eight_first(void) { only_sprites(0, 8); }
static inline void eight_last(void) { only_sprites(56, 8); }
static inline void nine_first(void) { only_sprites(0, 9); }

/* scattered sprites too, a unit that could be any, and all in emphasised greys */
static inline void random_screen(void)
{
    set_screen(0x08, 0xBF, 0, 240);
    scatter(m.oam, sizeof m.oam);
    set_word(start, PPU_AT_V, any(0x8000));
    set_word(start, PPU_AT_T, any(0x8000));
    start[PPU_AT_FINE_X] = (uint8_t)any(8);
    start[PPU_AT_BOARD] = PPU_HORIZONTAL;
}

#endif
