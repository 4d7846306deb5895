/* Five readings that look right and are not, each by what a picture or a read shows of it; then two of document 02's boards with four pages. */
#include "picture.h"

static Machine m;

/* Tile k is solid, of colour k modulo 4; the nametables hold tile 0, their attributes are 0; a fresh unit, warmed up by line 261. */
static void begin(void)
{
    for (int tile = 0; tile < 256; tile++)
        for (int table = 0; table < 2; table++)
            solid(table, tile, tile % 4);
    store_tiles(&m);
    memset(m.nametables, 0, m.length[NAMETABLES]);
    memset(m.palette, 0, 32);
    no_sprites(&m);
    EXPECT(ppu_fresh(m.unit, 16, PPU_VERTICAL), 0);
    EXPECT(run_lines(&m, 262, PPU_RUN_ALL), answer(0, 0, 262));
}

/* Two write toggles, one for port 5 and one for port 6. There is one. */
static void one_toggle(void)
{
    begin();
    m.nametables[3 * 32 + 13] = 1; /* $206D, where v leads if port 6's write is the second one */
    m.nametables[3 * 32 + 14] = 2;
    write_at(&m, 0x2005, 0x00);
    write_at(&m, 0x2006, 0x6D);
    write_at(&m, 0x2001, 0x0A);
    EXPECT(word(m.unit, PPU_AT_V), 0x006D);
    EXPECT(m.unit[PPU_AT_W], 0);
    one_line(&m);
    EXPECT(m.line[0], 1);
    EXPECT(m.line[7], 1);
    EXPECT(m.line[8], 2);
    EXPECT(m.line[16], 0);
    begin();
    write_at(&m, 0x2006, 0x04);
    write_at(&m, 0x2005, 0x08 + 2);
    EXPECT(word(m.unit, PPU_AT_T), 0x2000 + 0x0400 + 1 * 32);
    EXPECT(m.unit[PPU_AT_FINE_X], 0);
    part("one write toggle for ports 5 and 6");
}

/* Letting the frontmost sprite that is not behind the background win. The first opaque one wins, then its bit 5 is looked at. */
static void first_opaque(void)
{
    begin();
    memset(m.nametables, 1, 960);
    m.nametables[15] = 0; /* the background is not opaque at columns 120 to 127 */
    write_at(&m, 0x2001, 0x1E);
    set_sprite(&m, 5, 4, 2, 0x21, 116); /* behind, columns 116 to 123 */
    set_sprite(&m, 6, 4, 3, 0x02, 112); /* in front, columns 112 to 119 */
    set_sprite(&m, 7, 4, 3, 0x03, 120); /* in front, columns 120 to 127 */
    set_line(&m, 5, 0, 0);
    one_line(&m);
    for (unsigned p = 104; p < 136; p++) {
        at = p;
        EXPECT(m.line[p], p >= 112 && p < 116 ? 16 + 8 + 3 : p < 120 ? 1 : p < 124 ? 16 + 4 + 2 : p < 128 ? 16 + 12 + 3 : 1);
    }
    part("the first opaque sprite wins, though it lies behind the background");
}

/* Turning the nametable when row 31 ends. */
static void row_31(void)
{
    begin();
    m.unit[PPU_AT_BOARD] = PPU_HORIZONTAL;
    write_at(&m, 0x2001, 0x0A);
    m.nametables[0] = 1;        /* row 0 of nametables 0 and 1 */
    m.nametables[1024 + 0] = 2; /* row 0 of nametables 2 and 3 */
    for (unsigned nametable = 0; nametable < 4; nametable++)
        for (unsigned row = 29; row < 32; row += 2) {
            unsigned after = row == 29 ? (nametable + 2) % 4 : nametable;
            at = 100 * (long)nametable + row;
            set_line(&m, 20, 0, 0);
            set_word(m.unit, PPU_AT_V, 7 * 4096 + nametable * 1024 + row * 32);
            set_word(m.unit, PPU_AT_T, nametable * 1024);
            one_line(&m);
            EXPECT(word(m.unit, PPU_AT_V), after * 1024);
            one_line(&m);
            EXPECT(m.line[0], after < 2 ? 1 : 2);
        }
    part("the nametable turns after row 29 and not after row 31");
}

/* Filling the read buffer from the palette on a palette read. */
static void buffer_underneath(void)
{
    begin();
    memset(m.palette, 0x2A, 32);
    m.nametables[1024 + 0x300] = 0x91; /* $2F00, underneath $3F00 */
    write_at(&m, 0x2006, 0x3F);
    write_at(&m, 0x2006, 0x00);
    EXPECT(ppu_byte(read_at(&m, 0x2007)), 0x2A);
    EXPECT(m.unit[PPU_AT_READ_BUFFER], 0x91);
    write_at(&m, 0x2006, 0x20);
    write_at(&m, 0x2006, 0x00);
    EXPECT(ppu_byte(read_at(&m, 0x2007)), 0x91);
    part("a palette read fills the buffer from the nametable underneath");
}

/* Sprites at their Y byte's own line instead of the next. */
static void one_line_later(void)
{
    begin();
    write_at(&m, 0x2001, 0x1E);
    set_sprite(&m, 9, 40, 3, 0, 200);
    for (unsigned line = 38; line < 52; line++) {
        at = line;
        set_line(&m, line, 0, 0);
        one_line(&m);
        EXPECT(m.line[200], line >= 41 && line <= 48 ? 16 + 3 : 0);
    }
    part("a sprite shows from the line after its Y byte");
}

/* Testing every length before the record: its board says how much nametable RAM there is. Only the record's own length goes before its bytes. */
static void record_before_memory(void)
{
    begin();
    EXPECT(ppu_fresh(m.unit, 16, PPU_FOUR_PAGES), 0);
    lend(&m, NAMETABLES, PPU_NAMETABLE_LENGTH);
    EXPECT(read_at(&m, 0x2002), PPU_BAD_LENGTH);
    m.unit[PPU_AT_BOARD] = 5;
    EXPECT(read_at(&m, 0x2002), PPU_BAD_UNIT);
    lend(&m, OAM, 255);
    EXPECT(read_at(&m, 0x2002), PPU_BAD_UNIT);
    EXPECT(sprite_dma(&m), PPU_BAD_UNIT);
    EXPECT(search_on(&m, 0), PPU_BAD_UNIT);
    EXPECT(one_line(&m), PPU_BAD_UNIT);
    lend(&m, UNIT, 15);
    EXPECT(read_at(&m, 0x2002), PPU_BAD_LENGTH);
    lend_right(&m);
    part("a record that is not well formed is refused before a memory's length");
}

/* Taking the wiring from the board's low two bits. Board 4 would then be horizontal, and its quarter 3 page 1. */
static void third_bit(void)
{
    begin();
    EXPECT(ppu_fresh(m.unit, 16, PPU_FOUR_PAGES), 0);
    EXPECT(run_lines(&m, 262, PPU_RUN_ALL), answer(0, 0, 262));
    for (unsigned quarter = 0; quarter < 4; quarter++) {
        write_at(&m, 0x2006, 0x20 + 4 * quarter);
        write_at(&m, 0x2006, 0x00);
        write_at(&m, 0x2007, 1 + quarter);
    }
    for (unsigned quarter = 0; quarter < 4; quarter++) {
        at = quarter;
        EXPECT(m.nametables[1024 * quarter], 1 + quarter);
        set_line(&m, 0, quarter % 2 * 256, quarter / 2 * 240);
        m.unit[PPU_AT_MASK] = 0x0A;
        one_line(&m);
        EXPECT(m.line[0], (1 + quarter) % 4);
    }
    part("board 4 is a wiring of its own: four pages, one for each quarter");
}

int main(void)
{
    m = machine();
    one_toggle();
    first_opaque();
    row_31();
    buffer_underneath();
    one_line_later();
    record_before_memory();
    third_bit();
    release(&m);
    return verdict("tests/readings");
}
