/* The smallest whole use of the picture unit: three diamonds are written through the ports, a frame is run, the top of its picture printed.
   After `make install`: cc examples/minimal.c $(pkg-config --cflags --libs ppu) -o minimal && ./minimal */
#include <ppu.h>
#include <stdio.h>
#include <stdlib.h>

/* The unit and all its memory are the caller's; each call is lent what it needs. Static memory begins as zeros. */
static uint8_t unit[PPU_RECORD_LENGTH], left[PPU_PATTERN_LENGTH], right[PPU_PATTERN_LENGTH], nametables[PPU_NAMETABLE_LENGTH];
static uint8_t oam[PPU_OAM_LENGTH], palette[PPU_PALETTE_LENGTH], line[PPU_LINE_LENGTH], colours[PPU_COLOURS_LENGTH];

/* Every answer is looked at: a refused call has changed nothing, and its number says why. */
static uint64_t check(const char *call, uint64_t answer)
{
    if (ppu_number(answer) == PPU_DONE)
        return answer;
    fprintf(stderr, "minimal: the call %s was refused with %u\n", call, ppu_number(answer));
    exit(1);
}

static void write_port(uint16_t address, uint8_t byte)
{
    check("write", ppu_write(unit, sizeof unit, address, byte, left, sizeof left, right, sizeof right, nametables, sizeof nametables,
                             oam, sizeof oam, palette, sizeof palette));
}

static void store(uint16_t address, const uint8_t *bytes, size_t count)
{
    write_port(0x2006, (uint8_t)(address >> 8));
    write_port(0x2006, (uint8_t)(address & 255));
    for (size_t i = 0; i < count; i++)
        write_port(0x2007, bytes[i]);
}

static uint64_t run(uint16_t lines, uint8_t reason)
{
    return check("run", ppu_run(unit, sizeof unit, lines, reason, left, sizeof left, right, sizeof right, nametables, sizeof nametables,
                                oam, sizeof oam, palette, sizeof palette, line, sizeof line, colours, sizeof colours));
}

int main(void)
{
    static const uint8_t cells[] = { 0x0F, 0x16, 0x27, 0x30 }, row[] = { 1, 0, 1, 0, 1 };
    static const uint8_t diamond[] = { 0x18, 0x24, 0x5A, 0xBD, 0xBD, 0x5A, 0x24, 0x18, 0x00, 0x18, 0x3C, 0x7E, 0x7E, 0x3C, 0x18, 0x00 };
    check("fresh", ppu_fresh(unit, sizeof unit, PPU_VERTICAL | PPU_WRITABLE));
    run(262, PPU_RUN_ALL);    /* a whole frame, which warms the unit up */
    write_port(0x2000, 0x80); /* control: NMI */
    run(262, PPU_UNTIL_NMI);  /* to the vertical blank, when memory may be written */
    store(0x3F00, cells, sizeof cells);
    store(0x0000 + 16 * 1, diamond, sizeof diamond); /* tile 1 of the left pattern table */
    store(0x2000 + 32 * 1 + 1, row, sizeof row);     /* the nametable's row 1, from column 1 */
    write_port(0x2005, 3);                           /* scroll: 3 pixels from the left, 2 from the top */
    write_port(0x2005, 2);
    write_port(0x2001, 0x2A); /* mask: background, in the left column too, with red emphasised */
    run(20, PPU_RUN_ALL);     /* to line 0; line 261 takes the scroll over */
    for (int y = 0; y < 240; y++) {
        run(1, PPU_RUN_ALL); /* one by one, since a longer run leaves only its last line */
        if (y >= 16)
            continue;                     /* only the top is printed */
        for (unsigned x = 0; x < 56; x++) /* line[x] is a pixel number: here one of the four cells that were stored */
            printf("%c", " .+#"[line[x]]);
        for (unsigned x = 5; x < 13; x++) /* its finished colour, of the first diamond alone: the cell's byte, and $40 for red */
            printf(" %03X", ppu_colour(colours, x));
        printf("\n");
    }
    uint64_t answer = run(22, PPU_UNTIL_NMI); /* what is left of the 262 lines, but no further than to NMI */
    printf("%s after %u lines more\n", ppu_met(answer) ? "NMI" : "no NMI", (unsigned)ppu_lines(answer));
    return 0;
}
