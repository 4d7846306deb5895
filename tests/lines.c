/* What each of the 262 lines does to the record, the buffers of a line and the rest of memory. */
#include "picture.h"

static Machine m, wanted;

/* a record with something in every field, before this line, of the next of seven boards; OAM and tables scattered, Y bytes all below the picture */
static void begin(unsigned control, unsigned mask, unsigned status, unsigned line)
{
    static const uint8_t record[16] = { 0, 0, 0, 0x9C, 0x46, 0x35, 0x39, 0x0A, 3, 1, 0xD1, 0xD2, 0, 0, 1, 0 };
    static const uint8_t boards[7] = { 9, 4, 10, 12, 0, 4, 1 };
    static unsigned begun;
    memcpy(m.unit, record, 16);
    m.unit[PPU_AT_BOARD] = boards[begun++ % 7];
    m.unit[PPU_AT_CONTROL] = (uint8_t)control;
    m.unit[PPU_AT_MASK] = (uint8_t)mask;
    m.unit[PPU_AT_STATUS] = (uint8_t)status;
    set_word(m.unit, PPU_AT_NEXT_LINE, line);
    spoil_line(&m);
    copy(&wanted, &m);
    set_word(wanted.unit, PPU_AT_NEXT_LINE, line == 261 ? 0 : line + 1);
}

static void expect_line(void)
{
    unsigned level = wanted.unit[PPU_AT_STATUS] >= 128 && wanted.unit[PPU_AT_CONTROL] >= 128;
    EXPECT(one_line(&m), answer(0, level, 1));
    EXPECT_SAME(&m, &wanted);
}

static void scene(void)
{
    scatter(&m, 31);
    memset(m.nametables, 0, m.length[NAMETABLES]);
    scatter_tiles(13);
    solid(0, 0, 0);
    solid(1, 0, 0);
    store_tiles(&m);
    for (int i = 0; i < 64; i++)
        m.oam[4 * i] = 250;
}

/* mask bits 3 and 4 clear: zeros and their colour, and next line rises; no other byte changes, whatever the other mask bits are and with v in
   the palette too */
static void switched_off(void)
{
    for (unsigned line = 0; line < 240; line++)
        for (unsigned n = 0; n < 8; n++) {
            at = line;
            begin(n & 1 ? 0xFF : 0, n & 2 ? 0xE7 : 0, n & 4 ? 0xE0 : 0, line);
            if (line % 2) {
                set_word(m.unit, PPU_AT_V, 0x3F00 + line);
                set_word(wanted.unit, PPU_AT_V, 0x3F00 + line);
            }
            memset(wanted.line, 0, 256);
            colour_line(&wanted, &m);
            expect_line();
        }
    part("lines 0 to 239 switched off: 256 zeros and their colour, and only next line changes");
}

/* v = $3546 is fine y 3, nametable 1, row 10, column 6; t = $0A39 gives bit 10 = 0 and column 25: then $4159 */
static void switched_on(void)
{
    for (unsigned line = 0; line < 240; line++)
        for (unsigned mask = 8; mask < 32; mask += 8) {
            at = line;
            begin(line % 2 ? 0x80 : 0x3F, mask, line % 3 ? 0xE0 : 0, line);
            memset(wanted.line, 0, 256);
            colour_line(&wanted, &m);
            set_word(wanted.unit, PPU_AT_V, 0x4159);
            wanted.unit[PPU_AT_OAMADDR] = 0;
            expect_line();
        }
    part("lines 0 to 239 switched on: v one row down with t's sides, OAMADDR 0, next line; nothing else");
}

/* lines 240 to 260 do nothing but set status bit 7 in 241; both buffers of a line stay */
static void blank_lines(void)
{
    for (unsigned line = 240; line < 261; line++)
        for (unsigned n = 0; n < 16; n++) {
            at = line;
            begin(n & 1 ? 0xFF : 0x7F, n & 2 ? 0x1E : 0, n & 4 ? 0xE0 : 0x40, line);
            m.unit[PPU_AT_WARMED_UP] = wanted.unit[PPU_AT_WARMED_UP] = n & 8 ? 0 : 1;
            if (line == 241)
                wanted.unit[PPU_AT_STATUS] |= 0x80;
            expect_line();
        }
    part("lines 240 to 260: status bit 7 in 241, and only next line otherwise; the NMI level in the answer");
}

static void line_261(void)
{
    for (unsigned mask = 0; mask < 256; mask++)
        for (unsigned n = 0; n < 8; n++) {
            at = mask;
            begin(n & 1 ? 0xFF : 0x7F, mask, n & 2 ? 0xE0 : 0x80, 261);
            m.unit[PPU_AT_WARMED_UP] = n & 4 ? 0 : 1;
            wanted.unit[PPU_AT_WARMED_UP] = 1;
            wanted.unit[PPU_AT_STATUS] = 0;
            if (mask & 0x18) {
                set_word(wanted.unit, PPU_AT_V, 0x0A39);
                wanted.unit[PPU_AT_OAMADDR] = 0;
            }
            expect_line();
        }
    part("line 261: status 0, warmed up; v = t and OAMADDR 0 if switched on");
}

/* a unit that is not warmed up draws all the same, and stays so until line 261 */
static void cold(void)
{
    for (unsigned line = 0; line < 240; line += 13) {
        at = line;
        begin(0, 0x1E, 0, line);
        memset(m.nametables, 1, 1024);
        solid(0, 1, 2);
        store_tiles(&m);
        m.unit[PPU_AT_WARMED_UP] = 0;
        set_line(&m, line, 0, 0);
        copy(&wanted, &m);
        for (unsigned p = 0; p < 256; p++)
            wanted.line[p] = (uint8_t)(4 * (p / 16 % 2 ? 0 : 1) + 2);
        colour_line(&wanted, &m);
        set_word(wanted.unit, PPU_AT_V, v_at(0, 1));
        set_word(wanted.unit, PPU_AT_NEXT_LINE, line + 1);
        wanted.unit[PPU_AT_OAMADDR] = 0;
        expect_line();
    }
    part("a unit that is not warmed up draws");
}

/* from power on to the second picture, one line at a time, with the writes that a program makes */
static void from_power_on(unsigned board)
{
    EXPECT(ppu_fresh(m.unit, 16, (uint8_t)board), 0);
    for (unsigned line = 0; line < 262; line++) {
        at = line;
        EXPECT(word(m.unit, PPU_AT_NEXT_LINE), line);
        EXPECT(m.unit[PPU_AT_WARMED_UP], 0);
        EXPECT(ppu_number(write_at(&m, 0x2000, 0x90)), 0);
        EXPECT(m.unit[PPU_AT_CONTROL], 0);
        EXPECT(one_line(&m), answer(0, 0, 1));
        EXPECT(m.unit[PPU_AT_STATUS], line >= 241 && line < 261 ? 0x80 : 0);
    }
    EXPECT(m.unit[PPU_AT_WARMED_UP], 1);
    EXPECT(ppu_number(write_at(&m, 0x2000, 0x90)), 0);
    for (unsigned line = 0; line < 262; line++) {
        at = line;
        EXPECT(one_line(&m), answer(0, line >= 241 && line < 261, 1));
        EXPECT(m.unit[PPU_AT_CONTROL], 0x90);
    }
}

int main(void)
{
    m = machine();
    wanted = machine();
    scene();
    switched_off();
    switched_on();
    blank_lines();
    line_261();
    cold();
    from_power_on(PPU_VERTICAL + PPU_WRITABLE);
    from_power_on(PPU_FOUR_PAGES);
    part("two frames from power on, of boards with two pages and four: warm-up, status bit 7 and the NMI level line by line");
    release(&m);
    release(&wanted);
    return verdict("tests/lines");
}
