/* Port 7 over the whole address space under all boards: where v leads, the read buffer, the palette, and v's rise. */
#include "machine.h"

static Machine m, wanted;

/* the second half is writable */
enum { BOARDS = 10 };

static const unsigned boards[BOARDS] = { 0, 1, 2, 3, 4, 8, 9, 10, 11, 12 };

/* the palette's cells at $3F00 to $3F1F */
static const unsigned cells[32] = { 0, 1,  2,  3,  4, 5,  6,  7,  8, 9,  10, 11, 12, 13, 14, 15,
                                    0, 17, 18, 19, 4, 21, 22, 23, 8, 25, 26, 27, 12, 29, 30, 31 };

/* for each address below 16384 its byte in the wanted machine, and for $3F00 on the nametable byte underneath */
static uint8_t *place[0x4000], *underneath[0x100];

static void map(unsigned board)
{
    for (unsigned i = 0; i < 4096; i++) {
        place[i] = wanted.left + i;
        place[0x1000 + i] = wanted.right + i;
    }
    for (unsigned quarter = 0; quarter < 4; quarter++)
        for (unsigned i = 0; i < 1024; i++) {
            uint8_t *byte = wanted.nametables + page_of(board, quarter) * 1024 + i;
            place[0x2000 + 1024 * quarter + i] = byte;
            place[0x3000 + 1024 * quarter + i] = byte;
        }
    for (unsigned i = 0; i < 256; i++) {
        underneath[i] = place[0x3F00 + i];
        place[0x3F00 + i] = wanted.palette + cells[i % 32];
    }
}

/* scattered memory; mask and next line such that mask bits 3 and 4 are set for every other board, in a blank line */
static void begin(unsigned board)
{
    scatter(&m, 5 + board);
    memset(m.unit, 0, 16);
    m.unit[PPU_AT_MASK] = board % 2 ? 0x1E : 0;
    set_word(m.unit, PPU_AT_NEXT_LINE, board % 2 ? 240 + board : 100);
    m.unit[PPU_AT_W] = 1;
    set_word(m.unit, PPU_AT_T, 0x1234);
    m.unit[PPU_AT_BOARD] = (uint8_t)board;
    m.unit[PPU_AT_WARMED_UP] = board < 8;
    copy(&wanted, &m);
    map(board);
}

/* control with bit 2 set or clear and v risen by 32 or 1, for a v */
static unsigned set_v(unsigned v, int by_32)
{
    m.unit[PPU_AT_CONTROL] = wanted.unit[PPU_AT_CONTROL] = by_32 ? 0x04 : 0xFB;
    set_word(m.unit, PPU_AT_V, v);
    set_word(wanted.unit, PPU_AT_V, by_32 ? (v + 32) % 32768 : (v + 1) % 32768);
    return v % 16384;
}

static void expect_read(unsigned v, int by_32)
{
    unsigned a = set_v(v, by_32), latch = v / 7 % 256, byte = v / 3 % 256;
    m.unit[PPU_AT_LATCH] = (uint8_t)latch;
    m.unit[PPU_AT_READ_BUFFER] = (uint8_t)byte;
    wanted.unit[PPU_AT_READ_BUFFER] = a < 0x3F00 ? *place[a] : *underneath[a - 0x3F00];
    if (a >= 0x3F00)
        byte = latch / 64 * 64 + *place[a] % 64;
    wanted.unit[PPU_AT_LATCH] = (uint8_t)byte;
    EXPECT(read_at(&m, 0x2007), answer(byte, 0, 0));
    EXPECT_BYTES(m.unit, wanted.unit, 16);
}

static void reads(void)
{
    for (int i = 0; i < BOARDS; i++) {
        begin(boards[i]);
        for (unsigned v = 0; v < 32768; v++)
            for (int by_32 = 0; by_32 < 2; by_32++) {
                at = v;
                expect_read(v, by_32);
            }
        EXPECT_SAME(&m, &wanted);
    }
    part("reads at every v under every board, rising by 1 and by 32");
}

static void expect_write(unsigned v, unsigned byte, int writable)
{
    unsigned a = set_v(v, v / 2 % 2);
    wanted.unit[PPU_AT_LATCH] = (uint8_t)byte;
    if (a >= 0x3F00)
        *place[a] = byte % 64;
    else if (a >= 0x2000 || writable)
        *place[a] = (uint8_t)byte;
    EXPECT(write_at(&m, 0x2007, byte), 0);
    EXPECT_BYTES(m.unit, wanted.unit, 16);
}

/* all memory, with pages that the board does not have, is compared after every 61st write, at the ends of each part, and last; upwards and
   downwards */
static void writes(void)
{
    for (int i = 0; i < BOARDS; i++)
        for (int down = 0; down < 2; down++) {
            begin(boards[i]);
            for (unsigned n = 0; n < 32768; n++) {
                unsigned v = down ? 32767 - n : n, cell = v % 1024;
                at = v;
                expect_write(v, (v * 29 + 11) / 5 % 256, boards[i] >= 8);
                if (v % 61 == 0 || cell < 2 || cell > 1021 || (v % 16384 >= 0x3EFE && v % 16384 < 0x3F22))
                    EXPECT_SAME(&m, &wanted);
            }
            EXPECT_SAME(&m, &wanted);
        }
    part("writes at every v under every board: the byte stored, and no other");
}

/* a byte written by port 7 is the one that a read, after the first, gives; at v = 0, 1, .. with v set by port 6 */
static void write_then_read(void)
{
    for (int i = BOARDS / 2; i < BOARDS; i++) {
        begin(boards[i]);
        m.unit[PPU_AT_WARMED_UP] = 1;
        m.unit[PPU_AT_W] = 0;
        for (unsigned a = 0; a < 0x3F00; a += 13) {
            at = a;
            write_at(&m, 0x2006, a / 256);
            write_at(&m, 0x2006, a % 256);
            EXPECT(write_at(&m, 0x2007, a * 5 % 256), 0);
            EXPECT(word(m.unit, PPU_AT_V), a + 1);
            write_at(&m, 0x2006, a / 256);
            write_at(&m, 0x2006, a % 256);
            read_at(&m, 0x2007);
            EXPECT(ppu_byte(read_at(&m, 0x2007)), a * 5 % 256);
            EXPECT(word(m.unit, PPU_AT_V), a + 2);
        }
    }
    part("a byte written and read back through ports 6 and 7");
}

/* every byte in every palette cell, read with and without greyscale under the latch's top bits, and written */
static void palette(unsigned board)
{
    begin(board);
    set_word(m.unit, PPU_AT_NEXT_LINE, 241);
    for (unsigned byte = 0; byte < 256; byte++)
        for (unsigned i = 0; i < 32; i++) {
            unsigned latch = byte * 3 % 256, v = 0x3F00 + 32 * (byte % 8) + i;
            at = 256 * (long)i + byte;
            m.palette[cells[i]] = (uint8_t)byte;
            for (unsigned grey = 0; grey < 2; grey++) {
                unsigned shown = grey ? byte / 16 % 4 * 16 : byte % 64;
                m.unit[PPU_AT_MASK] = (uint8_t)(0xFE + grey);
                m.unit[PPU_AT_LATCH] = (uint8_t)latch;
                set_v(v, 0);
                EXPECT(read_at(&m, 0x2007), answer(latch / 64 * 64 + shown, 0, 0));
                EXPECT(m.unit[PPU_AT_READ_BUFFER], *underneath[v - 0x3F00]);
                EXPECT(m.palette[cells[i]], byte);
            }
            set_v(v, 0);
            m.palette[cells[i]] = (uint8_t)~byte;
            EXPECT(write_at(&m, 0x2007, byte), 0);
            EXPECT(m.palette[cells[i]], byte % 64);
        }
    EXPECT_BYTES(m.nametables, wanted.nametables, m.length[NAMETABLES]);
}

static void palettes(void)
{
    palette(PPU_VERTICAL);
    palette(PPU_FOUR_PAGES);
    part("every byte in every palette cell: six bits, greyscale, the latch's top bits, the buffer from underneath");
}

/* greyscale masks only palette reads */
static void greyscale_elsewhere(void)
{
    begin(PPU_FOUR_PAGES + PPU_WRITABLE);
    m.unit[PPU_AT_MASK] = 1;
    for (unsigned a = 0; a < 0x3F00; a++) {
        at = a;
        m.unit[PPU_AT_READ_BUFFER] = 0xCF;
        set_v(a, 1);
        EXPECT(read_at(&m, 0x2007), answer(0xCF, 0, 0));
        EXPECT(m.unit[PPU_AT_READ_BUFFER], *place[a]);
        set_v(a, 1);
        EXPECT(write_at(&m, 0x2007, 0xCF), 0);
        *place[a] = 0xCF;
    }
    EXPECT_BYTES(m.left, wanted.left, 4096);
    EXPECT_BYTES(m.right, wanted.right, 4096);
    EXPECT_BYTES(m.nametables, wanted.nametables, m.length[NAMETABLES]);
    part("greyscale touches no other address");
}

/* FOUR PAGES. The one cell of nametable RAM that a write at v changes; LENGTH if it is none or more than one. */
enum { LENGTH = PPU_FOUR_PAGES_LENGTH };

static unsigned cell_changed(unsigned v)
{
    memset(m.nametables, 0, LENGTH);
    set_v(v, 0);
    EXPECT(write_at(&m, 0x2007, 0xC5), 0);
    const uint8_t *end = m.nametables + LENGTH, *found = memchr(m.nametables, 0xC5, LENGTH);
    if (!found || memchr(found + 1, 0xC5, (size_t)(end - found - 1)))
        return LENGTH;
    return (unsigned)(found - m.nametables);
}

/* each cell is that of one address from $2000 to $2FFF, and they come again from $3000 to $3EFF */
static void cells_written(unsigned board)
{
    uint8_t reached[LENGTH + 1] = { 0 };
    begin(board);
    for (unsigned a = 0x2000; a < 0x3F00; a++) {
        at = a;
        unsigned cell = cell_changed(a);
        EXPECT(cell, a % 4096);
        if (a < 0x3000)
            reached[cell]++;
    }
    for (unsigned cell = 0; cell < LENGTH; cell++) {
        at = cell;
        EXPECT(reached[cell], 1);
    }
}

/* below $3F00 a byte comes one read later; from there the buffer takes the byte underneath, which is the last page's: cells 3840 to 4095 */
static void cells_read(unsigned board)
{
    begin(board);
    set_v(0x2000, 0);
    read_at(&m, 0x2007);
    for (unsigned cell = 0; cell < LENGTH; cell++) {
        at = cell;
        EXPECT(ppu_byte(read_at(&m, 0x2007)), m.nametables[cell]);
    }
    for (unsigned i = 0; i < 256; i++) {
        at = i;
        set_v(0x3F00 + i, 0);
        EXPECT(ppu_number(read_at(&m, 0x2007)), 0);
        EXPECT(m.unit[PPU_AT_READ_BUFFER], m.nametables[3840 + i]);
    }
}

static void four_pages(void)
{
    for (unsigned board = PPU_FOUR_PAGES; board <= PPU_FOUR_PAGES + PPU_WRITABLE; board += PPU_WRITABLE) {
        cells_written(board);
        cells_read(board);
    }
    part("four pages: each cell from 0 to 4095 by one address of $2000-$2FFF, written and read; underneath $3F00-$3FFF 3840 to 4095");
}

/* the byte written at v shows up at this cell of nametable RAM */
static void expect_cell(unsigned board, unsigned v, unsigned cell)
{
    begin(board);
    m.nametables[cell] = 0x11;
    set_v(v, 0);
    EXPECT(write_at(&m, 0x2007, 0x22), 0);
    EXPECT(m.nametables[cell], 0x22);
}

static void expect_palette_cell(unsigned v, unsigned cell)
{
    begin(0);
    m.palette[cell] = 0x11;
    set_v(v, 0);
    EXPECT(write_at(&m, 0x2007, 0x22), 0);
    EXPECT(m.palette[cell], 0x22);
}

static void expect_rise(unsigned v, int by_32, unsigned after)
{
    begin(0);
    set_v(v, by_32);
    EXPECT(ppu_number(read_at(&m, 0x2007)), 0);
    EXPECT(word(m.unit, PPU_AT_V), after);
    set_v(v, by_32);
    EXPECT(ppu_number(write_at(&m, 0x2007, 0)), 0);
    EXPECT(word(m.unit, PPU_AT_V), after);
}

static void checked_values(void)
{
    expect_cell(0, 0x2C05, 1029);
    expect_cell(1, 0x2C05, 1029);
    expect_cell(3, 0x2C05, 1029);
    expect_cell(2, 0x2C05, 5);
    expect_cell(0, 0x2405, 5);
    expect_cell(1, 0x2405, 1029);
    expect_cell(0, 0x3EFF, 1791);
    expect_cell(4, 0x2005, 5);
    expect_cell(4, 0x2405, 1029);
    expect_cell(4, 0x2805, 2053);
    expect_cell(4, 0x2C05, 3077);
    expect_cell(4, 0x2FFF, 4095);
    expect_cell(4, 0x3EFF, 3839);
    expect_cell(12, 0x2C05, 3077);
    expect_palette_cell(0x3F10, 0);
    expect_palette_cell(0x3F14, 4);
    expect_palette_cell(0x3F11, 17);
    expect_palette_cell(0x3FFF, 31);
    expect_rise(32767, 0, 0);
    expect_rise(32767, 1, 31);
    part("checked values of cells, palette cells and v's rise");
}

int main(void)
{
    m = machine();
    wanted = machine();
    reads();
    writes();
    write_then_read();
    palettes();
    greyscale_elsewhere();
    four_pages();
    checked_values();
    release(&m);
    release(&wanted);
    return verdict("tests/port7");
}
