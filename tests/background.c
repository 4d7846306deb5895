/* The background: scroll, nametables, attributes, the left column, and v's step down at each line's end. */
#include "picture.h"

static Machine m;
static uint8_t wanted[256];

/* the line is drawn with only the background shown: it is the wanted one, and v is there afterwards */
static void expect_line(unsigned v)
{
    EXPECT(one_line(&m), answer(0, 0, 1));
    EXPECT_BYTES(m.line, wanted, 256);
    EXPECT(word(m.unit, PPU_AT_V), v);
}

static void begin(unsigned board, unsigned control, unsigned mask)
{
    scatter(&m, 77 + board);
    scatter_tiles(99);
    store_tiles(&m);
    no_sprites(&m);
    set_unit(&m, board, control, mask);
}

/* a whole picture from this place */
static void picture(unsigned column, unsigned row)
{
    set_line(&m, 0, column, row);
    for (unsigned line = 0; line < 240; line++) {
        at = (long)(1000000 * column + 1000 * row + line);
        for (unsigned p = 0; p < 256; p++)
            wanted[p] = (uint8_t)background_at(&m, column + p, row + line);
        expect_line(v_at(column, row + line + 1));
    }
}

static void pictures(void)
{
    static const unsigned from[][2] = { { 0, 0 }, { 511, 479 }, { 13, 100 }, { 251, 239 }, { 256, 240 }, { 300, 7 }, { 7, 472 }, { 504, 233 } };
    for (unsigned i = 0; i < 8; i++) {
        begin(i % 4 + i / 4 * 8, i % 2 ? 0x10 : 0x6F, 0x0A);
        picture(from[i][0], from[i][1]);
        begin(PPU_FOUR_PAGES + i / 4 * PPU_WRITABLE, i % 2 ? 0x6F : 0x10, 0x0A);
        picture(from[i][0], from[i][1]);
    }
    part("whole pictures under each wiring, from eight places: scroll, page turns to the right and down, v after each line");
}

/* every column of the four nametables, so every fine x, every page turn and p = 255 beyond it */
static void columns(unsigned board)
{
    begin(board, 0x08, 0x0A);
    for (unsigned column = 0; column < 512; column++) {
        unsigned row = column * 7 % 480;
        at = column;
        set_line(&m, 17, column, row);
        for (unsigned p = 0; p < 256; p++)
            wanted[p] = (uint8_t)background_at(&m, column + p, row);
        expect_line(v_at(column, row + 1));
    }
}

/* each page of one number, 1, 5, 9 and 13, so that a pixel says which page it comes from */
static void numbered_pages(void)
{
    begin(PPU_FOUR_PAGES, 0, 0x0A);
    solid(0, 0, 1);
    store_tiles(&m);
    for (int page = 0; page < 4; page++) {
        memset(m.nametables + 1024 * page, 0, 960);
        memset(m.nametables + 1024 * page + 960, 0x55 * page, 64);
    }
}

/* a line from this column has one page up to the border, then the other */
static void expect_border(unsigned column, unsigned row, unsigned page, unsigned next)
{
    unsigned before = 256 - column % 256;
    set_line(&m, 90, column, row);
    memset(wanted, (int)(4 * page + 1), before);
    memset(wanted + before, (int)(4 * next + 1), 256 - before);
    expect_line(v_at(column, row + 1));
}

/* from each column over the borders 0|1, 1|0, 2|3 and 3|2, on the first and last row of each page */
static void upright_borders(void)
{
    static const unsigned rows[] = { 0, 1, 119, 238, 239 };
    numbered_pages();
    for (unsigned column = 0; column < 256; column++)
        for (int i = 0; i < 5; i++) {
            at = (long)(1000 * column + rows[i]);
            expect_border(column, rows[i], 0, 1);
            expect_border(256 + column, rows[i], 1, 0);
            expect_border(column, 240 + rows[i], 2, 3);
            expect_border(256 + column, 240 + rows[i], 3, 2);
        }
    part("four pages, from every column: the borders 0|1, 2|3, and round from 1 to 0 and from 3 to 2");
}

/* pictures that begin in each page and go over the borders below and to the right; from page 3 round both, so that page 0 is at its corner */
static void level_borders(void)
{
    static const unsigned right[4] = { 1, 0, 3, 2 }, below[4] = { 2, 3, 0, 1 }, lines[] = { 1, 7, 8, 120, 239 };
    numbered_pages();
    for (unsigned page = 0; page < 4; page++)
        for (int i = 0; i < 5; i++) {
            unsigned column = page % 2 * 256 + 101, row = page / 2 * 240 + 240 - lines[i];
            set_line(&m, 0, column, row);
            for (unsigned line = 0; line < 240; line++) {
                unsigned from = line < lines[i] ? page : below[page];
                at = (long)(100000 * page + 1000 * lines[i] + line);
                memset(wanted, (int)(4 * from + 1), 155);
                memset(wanted + 155, (int)(4 * right[from] + 1), 101);
                expect_line(v_at(column, row + line + 1));
            }
        }
    part("four pages, whole pictures: the borders 0/2, 1/3, round from 2 to 0 and 3 to 1, with the page to the right; from 3 to 0 at the corner");
}

/* 32 solid columns in each page, numbered by their tile: which columns a line shows */
static void fine_x(void)
{
    begin(1, 0, 0x0A);
    for (int tile = 0; tile < 256; tile++)
        solid(0, tile, tile % 4);
    store_tiles(&m);
    memset(m.nametables, 1, m.length[NAMETABLES]);
    for (unsigned page = 0; page < 2; page++)
        memset(m.nametables + 1024 * page + 960, 0, 64);
    m.nametables[3] = 2;        /* column 3 of the first page */
    m.nametables[1024 + 0] = 3; /* column 0 of the second page */
    for (unsigned x = 0; x < 8; x++) {
        at = x;
        set_line(&m, 0, x, 0);
        memset(wanted, 1, 256);
        memset(wanted + 24 - x, 2, 8);
        memset(wanted + 256 - x, 3, x);
        expect_line(v_at(x, 1));
    }
    part("fine x moves the picture left by pixels; the column after the 32nd comes from the next page");
}

/* an attribute byte's four quarters, of two by two tiles each, over all 64 bytes */
static void attributes(void)
{
    begin(2, 0, 0x0A);
    solid(0, 1, 3);
    store_tiles(&m);
    memset(m.nametables, 1, 1024);
    for (unsigned i = 0; i < 64; i++)
        m.nametables[960 + i] = (uint8_t)(i * 37 + 0x1B);
    for (unsigned row = 0; row < 240; row += 3) {
        at = row;
        set_line(&m, row, 0, row);
        for (unsigned p = 0; p < 256; p++) {
            unsigned byte = (row / 32 * 8 + p / 32) * 37 + 0x1B;
            unsigned shift = (p % 32 < 16 ? 0 : 2) + (row % 32 < 16 ? 0 : 4);
            wanted[p] = (uint8_t)(4 * (byte >> shift & 3) + 3);
        }
        expect_line(v_at(0, row + 1));
    }
    part("the four quarters of every attribute byte");
}

static void transparent(void)
{
    begin(0, 0, 0x0A);
    paint(0, 1, 0, "01230213");
    store_tiles(&m);
    memset(m.nametables, 1, 960);
    for (unsigned palette = 0; palette < 4; palette++) {
        at = palette;
        memset(m.nametables + 960, (int)(palette * 0x55), 64);
        set_line(&m, 5, 0, 0);
        for (unsigned p = 0; p < 256; p += 8) {
            wanted[p] = wanted[p + 4] = 0;
            wanted[p + 1] = wanted[p + 6] = (uint8_t)(4 * palette + 1);
            wanted[p + 2] = wanted[p + 5] = (uint8_t)(4 * palette + 2);
            wanted[p + 3] = wanted[p + 7] = (uint8_t)(4 * palette + 3);
        }
        expect_line(v_at(0, 1));
    }
    part("colour 0 is number 0 under every palette; bits of both bytes, leftmost first");
}

/* control bit 4 alone chooses the table */
static void tables(void)
{
    begin(0, 0, 0x0A);
    memset(m.nametables, 7, m.length[NAMETABLES]);
    solid(0, 7, 1);
    solid(1, 7, 2);
    store_tiles(&m);
    memset(m.nametables + 960, 0, 64);
    for (unsigned control = 0; control < 256; control++) {
        at = control;
        m.unit[PPU_AT_CONTROL] = (uint8_t)control;
        set_line(&m, 9, 0, 0);
        memset(wanted, control / 16 % 2 ? 2 : 1, 256);
        expect_line(v_at(0, 1));
    }
    part("every control byte: bit 4 alone chooses the background's table");
}

/* every mask byte: bit 3 shows the background, bit 1 its left column; no other bit has a part in it */
static void masks(void)
{
    for (unsigned x = 0; x < 8; x += 7) {
        begin(3, 0x10, 0);
        for (unsigned mask = 0; mask < 256; mask++) {
            at = mask;
            m.unit[PPU_AT_MASK] = (uint8_t)mask;
            set_line(&m, 33, 40 + x, 50);
            for (unsigned p = 0; p < 256; p++)
                wanted[p] = (uint8_t)(mask & 8 && (p >= 8 || mask & 2) ? background_at(&m, 40 + x + p, 50) : 0);
            expect_line(mask & 0x18 ? v_at(40 + x, 51) : v_at(40 + x, 50));
        }
    }
    part("every mask byte: shown by bit 3, the leftmost eight pixels by bit 1 as well");
}

/* rows 30 and 31 are attribute bytes taken for tiles; their own attributes are those of rows 28 and 29, lower quarters */
static void expect_attributes_as_tiles(unsigned page, unsigned row, unsigned y)
{
    const uint8_t *bytes = m.nametables + 1024 * page;
    unsigned v = y * 4096 + page * 1024 + row * 32, after = page * 1024;
    at = v;
    set_line(&m, 60, 0, 0);
    set_word(m.unit, PPU_AT_V, v);
    set_word(m.unit, PPU_AT_T, page * 1024);
    for (unsigned p = 0; p < 256; p++) {
        unsigned colour = tile_colours[0][bytes[32 * row + p / 8]][y][p % 8];
        unsigned palette = bytes[960 + 56 + p / 32] / (p % 32 < 16 ? 16 : 64) % 4;
        wanted[p] = (uint8_t)(colour ? 4 * palette + colour : 0);
    }
    expect_line(y < 7 ? after + (y + 1) * 4096 + row * 32 : row == 30 ? after + 31 * 32 : after);
}

static void rows_30_and_31(void)
{
    static const unsigned boards[][2] = { { PPU_VERTICAL, 2 }, { PPU_FOUR_PAGES, 4 } }; /* with its pages */
    for (int i = 0; i < 2; i++) {
        begin(boards[i][0], 0, 0x0A);
        for (unsigned n = 0; n < 16 * boards[i][1]; n++)
            expect_attributes_as_tiles(n / 16, 30 + n / 8 % 2, n % 8);
    }
    part("rows 30 and 31: attribute bytes as tiles; after row 31 row 0 of the same nametable");
}

/* every fine y, row and nametable: v after the line, with t's bits 10 and 4-0 and no others */
static void steps_down(void)
{
    static const unsigned sides[][2] = { { 0, 0x7FFF }, { 31, 0x7BE0 }, { 10, 0x0415 }, { 21, 0x040A } };
    begin(0, 0, 0x10);
    for (unsigned n = 0; n < 4 * 4 * 256; n++) {
        unsigned column = sides[n % 4][0], t = sides[n % 4][1], nametable = n / 4 % 4, row = n / 16 % 32, y = n / 512;
        unsigned down = y < 7 ? row : row == 29 || row == 31 ? 0 : row + 1, turned = y == 7 && row == 29;
        at = n;
        set_line(&m, 239, 0, 0);
        set_word(m.unit, PPU_AT_V, y * 4096 + nametable * 1024 + row * 32 + column);
        set_word(m.unit, PPU_AT_T, t);
        EXPECT(one_line(&m), answer(0, 0, 1));
        EXPECT(word(m.unit, PPU_AT_V),
               (y + 1) % 8 * 4096 + (nametable / 2 + turned) % 2 * 2048 + t / 1024 % 2 * 1024 + down * 32 + t % 32);
        EXPECT(word(m.unit, PPU_AT_T), t);
    }
    part("v after a line, from every fine y, row and nametable");
}

static void expect_down(unsigned v, unsigned after)
{
    set_line(&m, 0, 0, 0);
    set_word(m.unit, PPU_AT_V, v);
    one_line(&m);
    EXPECT(word(m.unit, PPU_AT_V), after);
}

static void checked_values(void)
{
    begin(0, 0, 0x08);
    expect_down(29600, 2048);
    expect_down(29664, 0);
    expect_down(29568, 928);
    begin(1, 0, 0x0A);
    set_line(&m, 3, 0, 0);
    set_word(m.unit, PPU_AT_V, 31);
    one_line(&m);
    for (unsigned p = 0; p < 8; p++) {
        EXPECT(m.line[p], background_at(&m, 248 + p, 0));
        EXPECT(m.line[8 + p], background_at(&m, 256 + p, 0));
    }
    part("checked values of row down and column right");
}

int main(void)
{
    m = machine();
    pictures();
    columns(PPU_VERTICAL);
    columns(PPU_FOUR_PAGES);
    part("a line from every column, of two pages and of four: fine x, and the turn of the nametable after column 31");
    upright_borders();
    level_borders();
    fine_x();
    attributes();
    transparent();
    tables();
    masks();
    rows_30_and_31();
    steps_down();
    checked_values();
    release(&m);
    return verdict("tests/background");
}
