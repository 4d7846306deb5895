/* A split screen: a status bar above a scrolling playfield. The unit is run to the sprite 0 hit, on the bar's last line; there the scroll changes.
   Prints the picture as PPM. After `make install`: cc examples/split.c $(pkg-config --cflags --libs ppu) -o split && ./split 100 >split.ppm */
#include <ppu.h>
#include <stdio.h>
#include <stdlib.h>
#include <string.h>
#include "2c02.h"

#define LENT(memory) memory, sizeof memory
static uint8_t unit[PPU_RECORD_LENGTH], left[PPU_PATTERN_LENGTH], right[PPU_PATTERN_LENGTH], nametables[PPU_NAMETABLE_LENGTH];
static uint8_t line[PPU_LINE_LENGTH], colours[PPU_COLOURS_LENGTH];
static uint8_t oam[PPU_OAM_LENGTH] = { 30, 0, 0x20, 128 }; /* sprite 0: Y, one less than its first line; tile; behind the background; X */
static uint8_t palette[PPU_PALETTE_LENGTH] = { 0, 0, 0x0F, 0x30, 0, 0, 0x11, 0x31, 0, 0, 0x19, 0x39, 0, 0, 0x16, 0x36 };

static void need(int holds, const char *what, unsigned number)
{
    if (holds)
        return;
    fprintf(stderr, "split: %s %u\n", what, number);
    exit(1);
}

static void write_port(uint16_t address, unsigned byte)
{
    uint64_t answer = ppu_write(LENT(unit), address, (uint8_t)byte, LENT(left), LENT(right), LENT(nametables), LENT(oam), LENT(palette));
    need(ppu_number(answer) == PPU_DONE, "a write was refused with", ppu_number(answer));
}

static uint64_t run(uint16_t lines, uint8_t reason)
{
    uint64_t answer = ppu_run(LENT(unit), lines, reason, LENT(left), LENT(right), LENT(nametables), LENT(oam), LENT(palette), LENT(line),
                              LENT(colours));
    need(ppu_number(answer) == PPU_DONE, "a run was refused with", ppu_number(answer));
    return answer;
}

/* Two nametables side by side have 64 columns: each shows its number in binary, by stripes. Lines 0 to 31, the bar, have palette 0. */
static void fill_memory(void)
{
    memset(left, 0xFF, sizeof left); /* colours 2 and 3 alone: the background is opaque, sprite 0 hits and is not seen */
    for (int tile = 0; tile < 64; tile++)
        memset(left + 16 * tile, 0x80 | tile, 7);
    for (int i = 0; i < PPU_NAMETABLE_LENGTH; i++) /* pages of 960 tiles, then 64 attribute bytes, the first 8 the bar's */
        nametables[i] = (uint8_t)(i % 1024 < 960 ? i / 1024 * 32 + i % 32 : i % 1024 < 968 ? 0 : 0x55 * (1 + i % 3));
    memset(oam + 4, 0xFF, sizeof oam - 4); /* the other sprites are below the picture */
}

static unsigned show_line(void) /* runs it and prints its colours; says whether sprite 0 hit on it */
{
    uint64_t answer = run(1, PPU_UNTIL_HIT);
    for (unsigned x = 0; x < PPU_LINE_LENGTH; x++) /* without emphasis a finished colour is below 64 */
        fwrite(colours_2c02 + 3 * ppu_colour(colours, x), 3, 1, stdout);
    return ppu_met(answer);
}

static void set_scroll(unsigned x, unsigned y) /* the next line is row y of the nametables, from column x on */
{
    write_port(0x2006, x / 256 % 2 * 4);               /* t: the nametable */
    write_port(0x2005, y);                             /* t: the row */
    write_port(0x2005, x % 256);                       /* t: the column; fine x */
    write_port(0x2006, y % 64 / 8 * 32 + x % 256 / 8); /* t: its low byte, the same as before; then v = t */
}

int main(int argc, char **argv)
{
    unsigned scroll = argc > 1 ? (unsigned)strtoul(argv[1], NULL, 10) : 100, y = 0;
    need(ppu_fresh(LENT(unit), PPU_VERTICAL) == PPU_DONE, "no unit of board", PPU_VERTICAL);
    fill_memory();
    run(262, PPU_RUN_ALL);    /* a whole frame, which warms the unit up; line 0 is next again */
    write_port(0x2001, 0x1E); /* mask: background and sprites, in the left column too */
    set_scroll(0, 0);         /* of the bar */
    printf("P6 %d 240 255\n", PPU_LINE_LENGTH);
    while (!show_line())
        need(++y < 240, "no sprite 0 hit up to line", 239);
    set_scroll(scroll, y + 1); /* of the playfield */
    while (++y < 240)
        show_line();
    return fflush(stdout) || ferror(stdout) ? 1 : 0;
}
