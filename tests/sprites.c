/* Sprites: the lines they cover, tiles, flips, tables, the right edge, the first eight, priority and the left column. */
#include "picture.h"

static Machine m;
static uint8_t wanted[256];

static void expect_line(void)
{
    EXPECT(ppu_number(one_line(&m)), 0);
    EXPECT_BYTES(m.line, wanted, 256);
}

/* no sprites yet; a transparent background, or one of number 3 everywhere from solid tile 255 */
static void begin(unsigned control, unsigned mask, int opaque)
{
    scatter_tiles(5);
    solid(0, 254, 0);
    solid(1, 254, 0);
    solid(0, 255, 3);
    solid(1, 255, 3);
    store_tiles(&m);
    no_sprites(&m);
    memset(m.nametables, opaque ? 255 : 254, m.length[NAMETABLES]);
    memset(m.nametables + 960, 0, 64);
    memset(m.nametables + 1984, 0, 64);
    set_unit(&m, 0, control, mask);
}

/* only sprite i, at its row r, over nothing */
static void sprite_alone(int i, unsigned r)
{
    const uint8_t *sprite = m.oam + 4 * i;
    memset(wanted, 0, 256);
    for (unsigned c = 0; c < 8 && sprite[3] + c < 256; c++) {
        unsigned colour = sprite_colour(&m, sprite, r, c);
        wanted[sprite[3] + c] = (uint8_t)(colour ? sprite_number(sprite, colour) : 0);
    }
}

/* a sprite shows from the line after its Y byte, 8 or 16 lines, never on line 0, and one from Y 239 on never */
static void lines_covered(void)
{
    static const unsigned some_y[] = { 0, 1, 2, 7, 100, 223, 224, 230, 231, 232, 237, 238, 239, 240, 247, 248, 249, 254, 255 };
    for (unsigned tall = 0; tall < 2; tall++)
        for (unsigned i = 0; i < sizeof some_y / sizeof some_y[0]; i++) {
            unsigned y = some_y[i], height = tall ? 16 : 8;
            begin(tall ? 0x20 : 0, 0x1E, 0);
            set_sprite(&m, 63, y, 0x35, 2, 90);
            for (unsigned line = 0; line < 240; line++) {
                at = (long)(1000 * y + line);
                set_line(&m, line, 0, 0);
                if (line >= y + 1 && line <= y + height)
                    sprite_alone(63, line - y - 1);
                else
                    memset(wanted, 0, 256);
                expect_line();
            }
        }
    part("which lines a sprite covers, by its Y byte and both heights");
}

/* eight solid sprites with the same Y byte: L - 1 does not come round on line 0 */
static void line_0(void)
{
    for (unsigned tall = 0; tall < 2; tall++) {
        begin(tall ? 0x20 : 0, 0x1E, 0);
        for (unsigned y = 0; y < 256; y++) {
            at = y;
            for (int i = 0; i < 8; i++)
                set_sprite(&m, i, y, 255, 0, (unsigned)(30 * i));
            set_line(&m, 0, 0, 0);
            memset(wanted, 0, 256);
            expect_line();
        }
    }
    part("line 0 has no sprite, whatever the Y bytes");
}

static void x_positions(void)
{
    begin(0, 0x1E, 0);
    for (unsigned x = 0; x < 256; x++)
        for (unsigned attribute = 0; attribute < 256; attribute += 64) {
            at = x;
            set_sprite(&m, 7, 50, 0x81, attribute + 1, x);
            set_line(&m, 53, 0, 0);
            sprite_alone(7, 2);
            expect_line();
        }
    no_sprites(&m);
    for (unsigned x = 248; x < 256; x++) {
        at = x;
        set_sprite(&m, 0, 9, 255, 3, x);
        set_line(&m, 10, 0, 0);
        memset(wanted, 0, 256);
        memset(wanted + x, 16 + 12 + 3, 256 - x);
        expect_line();
    }
    part("a sprite at every X, with both flips; at the right edge it is cut and does not come round");
}

/* a tile written out: the same letter F, flipped all ways, at height 8 */
static void flips_by_hand(void)
{
    static const char *rows[8] = { "11111110", "12222220", "12300000", "12222000", "12300000", "12300000", "12300000", "00000000" };
    for (unsigned attribute = 0; attribute < 256; attribute += 64) {
        begin(8, 0x1E, 0);
        for (int r = 0; r < 8; r++)
            paint(1, 0x46, r, rows[r]);
        store_tiles(&m);
        set_sprite(&m, 12, 100, 0x46, attribute, 200);
        for (unsigned r = 0; r < 8; r++) {
            const char *row = rows[attribute & 0x80 ? 7 - r : r];
            at = (long)(1000 * attribute + r);
            memset(wanted, 0, 256);
            for (int c = 0; c < 8; c++) {
                char digit = row[attribute & 0x40 ? 7 - c : c];
                wanted[200 + c] = (uint8_t)(digit == '0' ? 0 : 16 + digit - '0');
            }
            set_line(&m, 101 + r, 0, 0);
            expect_line();
        }
    }
    part("a letter with each flip, row by row");
}

/* height 16: rows 0 to 15 of tiles 2k and 2k + 1 of the table of bit 0, upside down as one piece */
static void tall_by_hand(void)
{
    for (unsigned tile = 0x70; tile < 0x72; tile++)
        for (unsigned attribute = 0; attribute < 256; attribute += 64)
            for (unsigned control = 0x20; control < 0x30; control += 8) {
                begin(control, 0x1E, 0);
                for (int r = 0; r < 8; r++)
                    for (int table = 0; table < 2; table++) {
                        char first[] = "00000010", second[] = "00000020";
                        first[r % 6] = table ? '2' : '1';
                        second[r % 6] = '3';
                        paint(table, 0x70, r, first);
                        paint(table, 0x71, r, second);
                    }
                store_tiles(&m);
                set_sprite(&m, 1, 30, tile, attribute + 3, 60);
                for (unsigned r = 0; r < 16; r++) {
                    unsigned row = attribute & 0x80 ? 15 - r : r, mark = row % 8 % 6;
                    at = (long)(100000 * tile + 100 * attribute + r);
                    memset(wanted, 0, 256);
                    wanted[60 + (attribute & 0x40 ? 7 - mark : mark)] = (uint8_t)(16 + 12 + (row >= 8 ? 3 : tile % 2 ? 2 : 1));
                    wanted[60 + (attribute & 0x40 ? 1 : 6)] = (uint8_t)(16 + 12 + (row >= 8 ? 2 : 1));
                    set_line(&m, 31 + r, 0, 0);
                    expect_line();
                }
            }
    part("height 16 with each flip, tables by the tile's bit 0 and not by control bit 3");
}

/* every tile number, both tables, both heights, all rows */
static void tiles(void)
{
    for (unsigned n = 0; n < 4 * 256; n++) {
        unsigned tile = n % 256, attribute = n * 67 % 256 & 0xC3, r = n / 256 < 2 ? n % 8 : n % 16;
        at = n;
        if (tile == 0)
            begin(n / 256 == 0 ? 0x00 : n / 256 == 1 ? 0x08 : n / 256 == 2 ? 0x20 : 0x28, 0x14, 0);
        set_sprite(&m, 20, 77, tile, attribute, 128);
        set_line(&m, 78 + r, 0, 0);
        sprite_alone(20, r);
        expect_line();
    }
    part("every tile from both tables and at both heights");
}

/* the sprites stand side by side, 20 columns apart, in OAM places far apart; the first eight in OAM order are taken */
static void first_eight(void)
{
    for (unsigned count = 1; count <= 12; count++)
        for (int transparent = 0; transparent < 2; transparent++) {
            at = count;
            begin(0, 0x1E, 0);
            memset(wanted, 0, 256);
            for (unsigned i = 0; i < count; i++) {
                set_sprite(&m, (int)(3 + 5 * i), 40 + i % 3, transparent && i < 8 ? 254 : 255, i % 4, 20 * i);
                if (i < 8 && !transparent)
                    memset(wanted + 20 * i, (int)(16 + 4 * (i % 4) + 3), 8);
            }
            set_line(&m, 44, 0, 0);
            expect_line();
        }
    part("the first eight in OAM order, transparent ones too; never a ninth");
}

/* sprites that do not cover the line take no place among the eight, wherever they stand in OAM */
static void eight_of_sixty_four(void)
{
    for (int first = 0; first <= 56; first++) {
        at = first;
        begin(0, 0x1E, 0);
        memset(wanted, 0, 256);
        for (int i = 0; i < 64; i++)
            set_sprite(&m, i, i >= first ? 99 : i % 2 ? 100 : 91, 255, (unsigned)(i % 4), (unsigned)(4 * i));
        for (int i = first + 7; i >= first; i--)
            memset(wanted + 4 * i, 16 + 4 * (i % 4) + 3, 4 * i + 8 > 256 ? (size_t)(256 - 4 * i) : 8);
        set_line(&m, 100, 0, 0);
        expect_line();
    }
    part("eight from every place in OAM on; lower OAM places lie in front");
}

/* two sprites in one place over the background: each opaque or not, each behind or not */
static void priority(void)
{
    for (unsigned n = 0; n < 32; n++) {
        int back = n & 1, first = n & 2, first_behind = n & 4, second = n & 8, second_behind = n & 16;
        unsigned number = back ? 3 : 0;
        begin(0, 0x1E, back);
        at = n;
        set_sprite(&m, 10, 60, first ? 255 : 254, first_behind ? 0x21 : 0x01, 100);
        set_sprite(&m, 11, 60, second ? 255 : 254, second_behind ? 0x22 : 0x02, 100);
        memset(wanted, (int)number, 256);
        if (first)
            number = back && first_behind ? 3 : 16 + 4 + 3;
        else if (second)
            number = back && second_behind ? 3 : 16 + 8 + 3;
        memset(wanted + 100, (int)number, 8);
        set_line(&m, 61, 0, 0);
        expect_line();
    }
    part("two sprites and the background in one place: the first opaque sprite wins, then its bit 5 is looked at");
}

/* every mask byte over an opaque background with sprites at the left edge, in front, behind, and beyond it */
static void masks(void)
{
    begin(0, 0, 1);
    set_sprite(&m, 4, 20, 255, 0x02, 0);
    set_sprite(&m, 5, 20, 255, 0x21, 4);
    set_sprite(&m, 6, 20, 255, 0x00, 10);
    for (unsigned mask = 0; mask < 256; mask++) {
        at = mask;
        m.unit[PPU_AT_MASK] = (uint8_t)mask;
        set_line(&m, 21, 0, 0);
        for (unsigned p = 0; p < 256; p++) {
            int back = mask & 8 && (p >= 8 || mask & 2), sprite = mask & 16 && (p >= 8 || mask & 4);
            unsigned number = back ? 3 : 0;
            if (sprite && p < 8)
                number = 16 + 8 + 3;
            else if (sprite && p < 12 && !back)
                number = 16 + 4 + 3;
            else if (sprite && p >= 12 && p < 18)
                number = 16 + 3;
            wanted[p] = (uint8_t)number;
        }
        expect_line();
    }
    part("every mask byte: sprites by bit 4, the leftmost eight pixels by bit 2 as well; the background by bits 3 and 1");
}

/* in the left column a sprite that is not shown hides nothing, and a background that is not shown hides no sprite behind it */
static void clipped_left(void)
{
    static const struct {
        unsigned mask, left, right;
    } cases[] = { { 0x1A, 3, 3 }, { 0x1C, 23, 3 }, { 0x18, 0, 3 }, { 0x1E, 3, 3 }, { 0x16, 23, 23 }, { 0x10, 0, 23 } };
    for (int i = 0; i < 6; i++) {
        at = i;
        begin(0, cases[i].mask, 1);
        set_sprite(&m, 0, 20, 255, 0x21, 4);
        set_line(&m, 21, 0, 0);
        memset(wanted, cases[i].mask & 8 ? 3 : 0, 256);
        memset(wanted, cases[i].mask & 8 && cases[i].mask & 2 ? 3 : 0, 8);
        memset(wanted + 4, (int)cases[i].left, 4);
        memset(wanted + 8, (int)cases[i].right, 4);
        expect_line();
    }
    part("a sprite behind the background across the left column's edge");
}

int main(void)
{
    m = machine();
    lines_covered();
    line_0();
    x_positions();
    flips_by_hand();
    tall_by_hand();
    tiles();
    first_eight();
    eight_of_sixty_four();
    priority();
    masks();
    clipped_left();
    release(&m);
    return verdict("tests/sprites");
}
