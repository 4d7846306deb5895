/* Sprite 0 hit and sprite overflow: status bits 6 and 5. */
#include "picture.h"

static Machine m;

/* Tiles: 0 transparent, 1 solid, 2 one pixel at the left, 3 one at the right. */
static void begin(unsigned control, unsigned mask, int back)
{
    for (int table = 0; table < 2; table++) {
        for (int tile = 0; tile < 256; tile++)
            solid(table, tile, 0);
        solid(table, 1, 2);
        for (int row = 0; row < 8; row++) {
            paint(table, 2, row, "10000000");
            paint(table, 3, row, "00000002");
        }
    }
    store_tiles(&m);
    no_sprites(&m);
    memset(m.nametables, back, m.length[NAMETABLES]);
    set_unit(&m, 0, control, mask);
}

/* status after this line */
static void expect_status(unsigned line, unsigned status)
{
    set_line(&m, line, 0, 0);
    EXPECT(ppu_number(one_line(&m)), 0);
    EXPECT(m.unit[PPU_AT_STATUS], status);
}

/* one opaque pixel of sprite 0, in every column and under every mask, over an opaque background */
static void hit_columns(void)
{
    begin(0, 0, 1);
    for (unsigned mask = 0; mask < 32; mask++)
        for (unsigned x = 0; x < 256; x++) {
            int left = (mask & 6) == 6;
            m.unit[PPU_AT_MASK] = (uint8_t)mask;
            at = (long)(1000 * mask + x);
            set_sprite(&m, 0, 99, 2, 0, x);
            expect_status(100, (mask & 0x18) == 0x18 && x < 255 && (x >= 8 || left) ? 0x40 : 0);
        }
    part("one pixel of sprite 0 at every column under every mask: no hit at column 255, nor where either is not shown");
}

/* a solid sprite 0 over one opaque pixel of the background, at either end of every tile */
static void hit_background(void)
{
    begin(0, 0x1E, 0);
    for (unsigned n = 0; n < 64; n++)
        for (unsigned x = 0; x < 256; x++) {
            unsigned p = n % 2 ? n / 2 * 8 + 7 : n / 2 * 8;
            if ((x + 9 < p || x > p + 2) && x % 51 != 0)
                continue;
            at = (long)(1000 * p + x);
            memset(m.nametables, 0, 32);
            m.nametables[n / 2] = n % 2 ? 3 : 2;
            set_sprite(&m, 0, 0, 1, 0, x);
            expect_status(1, p >= x && p <= x + 7 && p < 255 ? 0x40 : 0);
        }
    part("one pixel of the background under a solid sprite 0: no hit at column 255");
}

/* at the right edge: what stands at column 254 hits, what stands at 255 or beyond does not */
static void hit_right_edge(void)
{
    for (unsigned x = 240; x < 256; x++) {
        at = x;
        begin(0, 0x1E, 1);
        set_sprite(&m, 0, 5, 1, 0, x);
        expect_status(6, x < 255 ? 0x40 : 0);
        set_sprite(&m, 0, 5, 3, 0, x);
        expect_status(6, x + 7 < 255 ? 0x40 : 0);
        set_sprite(&m, 0, 5, 3, 0x40, x);
        expect_status(6, x < 255 ? 0x40 : 0);
    }
    part("hits at the right edge");
}

/* lines worth trying for a Y byte: those around its sprite, and the first and last */
static int around(unsigned line, unsigned y) { return line == 0 || line == 239 || (line + 2 >= y && line <= y + 18); }

static void hit_lines(void)
{
    for (unsigned tall = 0; tall < 2; tall++) {
        begin(tall ? 0x20 : 0, 0x18, 1);
        solid(0, 0, 3);
        store_tiles(&m);
        for (unsigned y = 0; y < 256; y++) {
            set_sprite(&m, 0, y, 0, 0x20, 77);
            for (unsigned line = 0; line < 240; line++) {
                at = (long)(1000 * y + line);
                if (around(line, y))
                    expect_status(line, line > y && line <= y + (tall ? 16 : 8) ? 0x40 : 0);
            }
        }
    }
    part("hits on exactly the lines that sprite 0 covers, behind the background too, never on line 0");
}

/* only sprite 0 hits, and only with a pixel of its own */
static void hit_by_others(void)
{
    begin(0, 0x1E, 1);
    for (int i = 1; i < 64; i++) {
        at = i;
        no_sprites(&m);
        set_sprite(&m, i, 20, 1, 0, 50);
        expect_status(21, 0);
        set_sprite(&m, 0, 20, 0, 0, 50);
        expect_status(21, 0);
        set_sprite(&m, 0, 20, 2, 0, 50);
        expect_status(21, 0x40);
    }
    no_sprites(&m);
    set_sprite(&m, 0, 20, 1, 0, 50);
    memset(m.nametables, 0, m.length[NAMETABLES]);
    expect_status(21, 0);
    part("no hit by another sprite, by a transparent pixel, or over a transparent background");
}

/* of a board with four pages one is opaque: sprite 0 hits where the picture is scrolled into that one, to its first row or its last */
static void hit_on_pages(void)
{
    for (unsigned n = 0; n < 32; n++) {
        unsigned page = n / 2 % 4, quarter = n / 8;
        at = n;
        begin(0, 0x1E, 0);
        m.unit[PPU_AT_BOARD] = PPU_FOUR_PAGES;
        memset(m.nametables + 1024 * page, 1, 960);
        set_sprite(&m, 0, 20, 1, 0, 50);
        set_line(&m, 21, quarter % 2 * 256, quarter / 2 * 240 + (n % 2 ? 239 : 0));
        EXPECT(ppu_number(one_line(&m)), 0);
        EXPECT(m.unit[PPU_AT_STATUS], page == quarter ? 0x40 : 0);
    }
    part("four pages, one of them opaque: hits exactly where it is shown");
}

/* bits 7, 6 and 5 that are set stay through drawn lines; a read of port 2 takes only bit 7; line 261 takes all */
static void flags_stay(void)
{
    begin(0, 0x1E, 1);
    for (unsigned status = 0; status < 256; status += 32) {
        at = status;
        no_sprites(&m);
        set_line(&m, 50, 0, 0);
        m.unit[PPU_AT_STATUS] = (uint8_t)status;
        one_line(&m);
        EXPECT(m.unit[PPU_AT_STATUS], status);
        set_sprite(&m, 0, 50, 1, 0, 60);
        one_line(&m);
        EXPECT(m.unit[PPU_AT_STATUS], status | 0x40);
        for (int i = 0; i < 9; i++)
            set_sprite(&m, 20 + i, 52, 1, 0, 60);
        one_line(&m);
        EXPECT(m.unit[PPU_AT_STATUS], status | 0x60);
        EXPECT(ppu_byte(read_at(&m, 0x2002)), status | 0x60);
        EXPECT(m.unit[PPU_AT_STATUS], 0x60);
        set_word(m.unit, PPU_AT_NEXT_LINE, 261);
        one_line(&m);
        EXPECT(m.unit[PPU_AT_STATUS], 0);
    }
    part("set flags stay until line 261");
}

/* OVERFLOW, by the search that tests/search.c follows byte by byte. So many sprites with this Y byte, from this place on and so far apart; eight
   from place 0, seven apart, have the eighth at place 49 */
static void spread(unsigned count, unsigned y, unsigned first, unsigned apart)
{
    no_sprites(&m);
    for (unsigned i = 0; i < count; i++)
        set_sprite(&m, (int)((first + i * apart) % 64), y, i % 2, (i * 16) % 256, (i * 53) % 256);
}

static void overflow_counts(void)
{
    for (unsigned mask = 0x08; mask <= 0x18; mask += 8) {
        begin(0, mask, 0);
        for (unsigned count = 0; count <= 64; count++) {
            at = count;
            for (unsigned first = 0; first + count <= 64; first++) {
                spread(count, 30, first, 1);
                expect_status(33, count > 8 ? 0x20 : 0);
            }
            spread(count, 30, 0, 7);
            expect_status(33, search_by_steps(&m, 33).set ? 0x20 : 0);
        }
    }
    part("0 to 64 sprites on a line: overflow from nine in a row, with either of mask bits 3 and 4; spread, as the search says");
}

static void overflow_lines(void)
{
    for (unsigned tall = 0; tall < 2; tall++) {
        begin(tall ? 0x20 : 0, 0x1E, 0);
        for (unsigned y = 0; y < 256; y++) {
            spread(9, y, y % 56, 1);
            for (unsigned line = 0; line < 240; line++) {
                at = (long)(1000 * y + line);
                if (around(line, y))
                    expect_status(line, line >= y && line < y + (tall ? 16 : 8) ? 0x20 : 0);
            }
            spread(8, y, y % 57, 1);
            expect_status(y < 240 ? y : 239, 0);
        }
    }
    part("overflow on the lines from the Y byte on, by the line itself: lines 0 and 239 too");
}

/* eight on a line and a ninth one line above or below: the next after the eighth; the last, whose tile byte is looked at and not its Y byte */
static void overflow_edges(void)
{
    begin(0, 0x10, 0);
    for (unsigned y = 0; y < 256; y++) {
        unsigned above = y >= 93 && y <= 100 ? 0x20 : 0, below = y >= 100 && y <= 107 ? 0x20 : 0;
        at = y;
        spread(8, 100, 0, 7);
        set_sprite(&m, 50, y, 0, 0, 0);
        expect_status(100, above);
        expect_status(107, below);
        spread(8, 100, 0, 7);
        set_sprite(&m, 63, y, 0, y, y);
        expect_status(100, 0);
        expect_status(107, 0);
        set_sprite(&m, 63, 0, y, 0, 0);
        expect_status(100, above);
        expect_status(107, below);
    }
    part("eight sprites and a ninth at every Y, or a tile byte of every value taken for one");
}

static void overflow_elsewhere(void)
{
    begin(0, 0, 0);
    for (unsigned line = 0; line < 240; line++) {
        at = line;
        spread(64, line, 0, 1);
        expect_status(line, 0);
    }
    begin(0, 0x18, 1);
    for (unsigned line = 240; line < 262; line++) {
        at = line;
        spread(64, line < 256 ? line : 255, 0, 1);
        expect_status(line, line == 241 ? 0x80 : 0);
        spread(64, line - 1 < 256 ? line - 1 : 255, 0, 1);
        expect_status(line, line == 241 ? 0x80 : 0);
    }
    part("no hit and no overflow with mask bits 3 and 4 clear, nor on lines 240 to 261");
}

int main(void)
{
    m = machine();
    hit_columns();
    hit_background();
    hit_right_edge();
    hit_lines();
    hit_by_others();
    hit_on_pages();
    flags_stay();
    overflow_counts();
    overflow_lines();
    overflow_edges();
    overflow_elsewhere();
    release(&m);
    return verdict("tests/flags");
}
