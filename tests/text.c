/* The text of a screen: document 02's figures and edges, with rows and pages worked out by plain C beside the calls; then the page that each
   quarter has, by what port 7 stores and by what a unit draws. */
#include "picture.h"

/* What the calls are lent, each on the heap by itself with exactly its length. `wanted` is what must stand there after a call. */
enum { SHEET, TABLE, ROWS, LENT };

static const size_t lent_lengths[LENT] = { 1024, 256, 960 };
static uint8_t *lent[LENT], *wanted[LENT];
static size_t length[LENT];
static Machine m;
static unsigned number_drawn = 1;

/* the next of a row of numbers that follow no rule of the calls */
static unsigned any(unsigned below)
{
    number_drawn = (number_drawn * 75 + 74) % 65537;
    return number_drawn / 3 % below;
}

/* a buffer of this length with any bytes in place of the one that is there; one of length 0 has an address, too */
static void lend_any(int which, size_t bytes)
{
    free(lent[which]);
    free(wanted[which]);
    lent[which] = malloc(bytes ? bytes : 1);
    wanted[which] = malloc(bytes ? bytes : 1);
    if (!lent[which] || !wanted[which])
        exit(2);
    length[which] = bytes;
    for (size_t i = 0; i < bytes; i++)
        lent[which][i] = (uint8_t)any(256);
}

/* all three with their right lengths */
static void lend_all(void)
{
    for (int i = 0; i < LENT; i++)
        lend_any(i, lent_lengths[i]);
}

static uint64_t text(void) { return ppu_text(lent[SHEET], length[SHEET], lent[TABLE], length[TABLE], lent[ROWS], length[ROWS]); }

static uint64_t page(void) { return ppu_page(lent[ROWS], length[ROWS], lent[TABLE], length[TABLE], lent[SHEET], length[SHEET]); }

/* all that is lent must stay, but for what a test then puts into `wanted` */
static void keep(void)
{
    for (int i = 0; i < LENT; i++)
        memcpy(wanted[i], lent[i], length[i]);
}

static void expect_wanted(void)
{
    EXPECT_BYTES(lent[SHEET], wanted[SHEET], length[SHEET]);
    EXPECT_BYTES(lent[TABLE], wanted[TABLE], length[TABLE]);
    EXPECT_BYTES(lent[ROWS], wanted[ROWS], length[ROWS]);
}

/* both calls refuse what is lent now with these numbers, 0 for a call that is not tried, and nothing changes */
static void expect_refused(unsigned of_text, unsigned of_page)
{
    keep();
    if (of_text)
        EXPECT(text(), of_text);
    if (of_page)
        EXPECT(page(), of_page);
    expect_wanted();
}

/* the rows of tile bytes by a table, row by row; how many tiles have no character */
static unsigned characters(uint8_t *rows, const uint8_t *tiles, const uint8_t *table)
{
    unsigned without = 0;
    for (unsigned row = 0; row < 30; row++)
        for (unsigned column = 0; column < 32; column++) {
            unsigned character = table[tiles[32 * row + column]];
            rows[32 * row + column] = (uint8_t)(character ? character : 32);
            without += character == 0;
        }
    return without;
}

/* ppu_text writes these rows, answers their count and nothing else, and changes nothing else */
static unsigned expect_text(void)
{
    keep();
    unsigned without = characters(wanted[ROWS], lent[SHEET], lent[TABLE]);
    uint64_t got = text();
    EXPECT(got, (uint64_t)without << 32);
    EXPECT(ppu_count(got), without);
    expect_wanted();
    return without;
}

/* ppu_page writes the lowest tiles and nothing else; or it refuses with 8, where a character is 0 or has no tile */
static unsigned expect_page(void)
{
    unsigned tile_of[256], bad = 0;
    for (unsigned character = 0; character < 256; character++)
        tile_of[character] = 256;
    for (unsigned tile = 256; tile-- > 0;)
        tile_of[lent[TABLE][tile]] = tile;
    tile_of[0] = 256;
    keep();
    for (unsigned k = 0; k < 960; k++)
        bad |= tile_of[lent[ROWS][k]] == 256;
    for (unsigned k = 0; k < 960 && !bad; k++)
        wanted[SHEET][k] = (uint8_t)tile_of[lent[ROWS][k]];
    EXPECT(page(), bad ? PPU_BAD_CHARACTER : PPU_DONE);
    expect_wanted();
    return bad;
}

static void figures(void)
{
    EXPECT(PPU_ROWS, 30);
    EXPECT(PPU_ROW_LENGTH, 32);
    EXPECT(PPU_ROWS_LENGTH, 30 * 32);
    EXPECT(PPU_NAMETABLE_PAGE_LENGTH, 30 * 32 + 64);
    EXPECT(2 * PPU_NAMETABLE_PAGE_LENGTH, PPU_NAMETABLE_LENGTH);
    EXPECT(4 * PPU_NAMETABLE_PAGE_LENGTH, PPU_FOUR_PAGES_LENGTH);
    EXPECT(PPU_TABLE_LENGTH, 256);
    EXPECT(PPU_BAD_CHARACTER, 8);
    part("the header's figures");
}

/* one tile, or one character, that differs from all others */
static void places(void)
{
    lend_all();
    memset(lent[TABLE], 0, 256);
    lent[TABLE][7] = 'a';
    lent[TABLE][200] = 'b';
    for (unsigned row = 0; row < 30; row++)
        for (unsigned column = 0; column < 32; column++) {
            at = 100 * (long)row + (long)column;
            memset(lent[SHEET], 7, 1024);
            lent[SHEET][32 * row + column] = 200;
            keep();
            memset(wanted[ROWS], 'a', 960);
            wanted[ROWS][32 * row + column] = 'b';
            EXPECT(text(), 0);
            expect_wanted();
            memset(lent[SHEET], 0x5C, 960);
            EXPECT(page(), 0);
            expect_wanted();
        }
    part("every row and column: byte 32 r + c of the page is byte 32 r + c of the rows, there and back");
}

/* rows and page within longer memory */
static void nothing_outside(void)
{
    static uint8_t block[3000], kept[3000];
    lend_all();
    for (unsigned tile = 0; tile < 256; tile++)
        lent[TABLE][tile] = (uint8_t)(tile == 255 ? 0 : 255 - tile);
    for (unsigned k = 0; k < 960; k++)
        lent[SHEET][k] %= 255;
    EXPECT(expect_text(), 0);
    for (unsigned guard = 0; guard < 256; guard += 5) {
        at = guard;
        memset(block, (int)guard, sizeof block);
        memset(kept, (int)guard, sizeof kept);
        memcpy(kept + 1000, lent[ROWS], 960);
        EXPECT(ppu_text(lent[SHEET], 1024, lent[TABLE], 256, block + 1000, 960), 0);
        EXPECT_BYTES(block, kept, sizeof block);
        memset(block, (int)guard, sizeof block);
        memset(kept, (int)guard, sizeof kept);
        memcpy(kept + 1000, lent[SHEET], 960);
        EXPECT(ppu_page(lent[ROWS], 960, lent[TABLE], 256, block + 1000, 1024), 0);
        EXPECT_BYTES(block, kept, sizeof block);
    }
    part("within guard bytes of every kind: exactly 960 bytes are written, by either call");
}

/* 7 and 256 have no common divisor: every tile has every byte of a table once, 0 and 32 too */
static void tiles(void)
{
    lend_all();
    for (unsigned shift = 0; shift < 256; shift++) {
        at = shift;
        for (unsigned tile = 0; tile < 256; tile++)
            lent[TABLE][tile] = (uint8_t)(7 * tile + shift);
        for (unsigned k = 0; k < 960; k++)
            lent[SHEET][k] = (uint8_t)(k * 5 + shift * 3);
        unsigned without = expect_text();
        EXPECT(without == 3 || without == 4, 1);
        expect_page();
    }
    part("every tile with every table byte");
}

/* one more tile without a character each time, here and there over the page */
static void counts(void)
{
    lend_all();
    memset(lent[TABLE], 'A', 256);
    lent[TABLE][9] = 0;
    lent[TABLE][10] = 32;
    for (unsigned k = 0; k < 960; k++)
        lent[SHEET][k] = (uint8_t)(k % 2 ? 10 : 11);
    for (unsigned count = 0; count <= 960; count++) {
        at = count;
        EXPECT(expect_text(), count);
        lent[SHEET][37 * count % 960] = 9;
    }
    memset(lent[TABLE], 32, 256);
    EXPECT(expect_text(), 0);
    memset(lent[TABLE], 0, 256);
    EXPECT(expect_text(), 960);
    part("0 to 960 tiles without a character, each a space; table byte 32 is a space that is not counted");
}

/* any tiles, one of them without a character, whose space comes back as tile 40 */
static void attributes(void)
{
    lend_all();
    lent[TABLE][40] = 32;
    lent[TABLE][41] = 0;
    for (unsigned n = 0; n < 256 + 64; n++) {
        at = n;
        lend_any(SHEET, 1024);
        lent[SHEET][any(960)] = 41;
        memset(lent[SHEET] + 960, (int)(n % 256), 64);
        if (n >= 256)
            lent[SHEET][960 + n - 256] ^= (uint8_t)(1 + any(255));
        EXPECT(expect_text() > 0, 1);
        EXPECT(expect_page(), 0);
    }
    part("attribute bytes of every value: the text does not look at them, the page keeps them");
}

/* the same character at some tiles, named one by one, and a table of zeros else */
static void lowest_of_some(void)
{
    static const unsigned some[][3] = { { 0, 1, 1 }, { 254, 255, 255 }, { 0, 255, 255 }, { 3, 200, 200 }, { 127, 128, 128 },
                                        { 0, 1, 2 }, { 253, 254, 255 }, { 31, 32, 33 }, { 5, 64, 250 }, { 255, 255, 255 } };
    lend_all();
    for (unsigned i = 0; i < sizeof some / sizeof some[0]; i++)
        for (unsigned character = 1; character < 256; character++) {
            at = (long)(1000 * i + character);
            memset(lent[TABLE], 0, 256);
            for (int k = 0; k < 3; k++)
                lent[TABLE][some[i][k]] = (uint8_t)character;
            memset(lent[ROWS], (int)character, 960);
            memset(lent[SHEET], 0x77, 960);
            keep();
            memset(wanted[SHEET], (int)some[i][0], 960);
            EXPECT(page(), 0);
            expect_wanted();
        }
    memset(lent[TABLE], 'z', 256);
    memset(lent[ROWS], 'z', 960);
    keep();
    memset(wanted[SHEET], 0, 960);
    EXPECT(page(), 0);
    expect_wanted();
    part("one, two, three and 256 tiles with the same character: the lowest");
}

/* tables in which each character stands at so many tiles, side by side or far apart */
static void lowest_of_many(void)
{
    lend_all();
    for (unsigned n = 2; n < 2 * 257; n++) {
        unsigned each = n / 2;
        at = n;
        for (unsigned tile = 0; tile < 256; tile++)
            lent[TABLE][tile] = (uint8_t)(1 + (n % 2 ? tile / each : tile % each) % 255);
        for (unsigned k = 0; k < 960; k++)
            lent[ROWS][k] = lent[TABLE][any(256)];
        EXPECT(expect_page(), 0);
    }
    part("tables with doubles side by side and far apart: the lowest tile of each character");
}

/* rows with one character at fault; the table without a 0, or full of zeros else */
static void bad_characters(void)
{
    lend_all();
    for (unsigned k = 0; k < 960; k++)
        for (unsigned n = 0; n < 4; n++) {
            at = (long)(10 * k + n);
            memset(lent[TABLE], n % 2 ? 0 : 'A', 256);
            lent[TABLE][70] = 'B';
            memset(lent[ROWS], 'B', 960);
            lent[ROWS][k] = n < 2 ? 0 : 'C';
            expect_refused(0, PPU_BAD_CHARACTER);
        }
    part("byte 0, or a character without a tile, at each place alone: 8, and the page keeps every byte");
    for (unsigned character = 0; character < 256; character++) {
        unsigned place = any(960);
        at = character;
        for (unsigned tile = 0; tile < 256; tile++)
            lent[TABLE][tile] = (uint8_t)(tile == character ? (character + 1) % 256 : tile);
        memset(lent[ROWS], character == 200 ? 201 : 200, 960);
        lent[ROWS][place] = (uint8_t)character;
        expect_refused(0, PPU_BAD_CHARACTER);
        lent[TABLE][character] = (uint8_t)character;
        EXPECT(expect_page(), character == 0);
    }
    part("every character: refused where it has no tile, done where it has one; byte 0 refused always");
    memset(lent[TABLE], 0, 256);
    for (unsigned character = 0; character < 256; character++) {
        at = character;
        memset(lent[ROWS], (int)character, 960);
        expect_refused(0, PPU_BAD_CHARACTER);
    }
    part("a table of zeros has no character, and 0 is none");
}

/* the space of a tile without a character is not in the table, unless 32 is */
static void spaces(void)
{
    for (unsigned tile = 0; tile < 256; tile++) {
        at = tile;
        lend_all();
        for (unsigned i = 0; i < 256; i++)
            lent[TABLE][i] = (uint8_t)(i == tile ? 0 : 33 + i % 200);
        memset(lent[SHEET], (int)((tile + 1) % 256), 960);
        lent[SHEET][any(960)] = (uint8_t)tile;
        EXPECT(expect_text(), 1);
        expect_refused(0, PPU_BAD_CHARACTER);
        lent[TABLE][tile] = 32;
        EXPECT(expect_page(), 0);
        EXPECT(expect_text(), 0);
    }
    part("the space of a tile without a character: refused on the way back, done once 32 stands in the table");
}

/* what is lent, with each thing of the set wrong: bit 3 a character, the others the length of a buffer, wrong in this way */
static void together(unsigned set, unsigned way)
{
    static const size_t other[LENT] = { 960, 255, 1024 };
    lend_all();
    for (int i = 0; i < LENT; i++)
        if (set >> i & 1) {
            size_t right = lent_lengths[i], ways[] = { right - 1, right + 1, 0, 1, right / 2, 2 * right, right + 256, right + 65536, other[i] };
            lend_any(i, ways[way]);
        }
    memset(lent[TABLE], 'A', length[TABLE]);
    memset(lent[ROWS], 'A', length[ROWS]);
    if (set >> 3 && length[ROWS])
        lent[ROWS][any((unsigned)length[ROWS])] = (uint8_t)any(2);
    if (set & 7)
        expect_refused(PPU_BAD_LENGTH, PPU_BAD_LENGTH);
    else if (set)
        expect_refused(0, PPU_BAD_CHARACTER);
    else
        EXPECT(expect_page() + expect_text(), 0);
}

static void wrong_lengths(void)
{
    for (unsigned set = 0; set < 16; set++)
        for (unsigned way = 0; way < 9; way++) {
            at = 16 * (long)set + (long)way;
            together(set, way);
        }
    part("every set of things wrong at once: 2 for a length, then 8, and nothing changes");
    for (int which = 0; which < LENT; which++) {
        for (size_t bytes = 0; bytes < 1100; bytes++) {
            at = (long)bytes;
            lend_all();
            lend_any(which, bytes);
            if (bytes != lent_lengths[which])
                expect_refused(PPU_BAD_LENGTH, PPU_BAD_LENGTH);
            else
                expect_text();
        }
    }
    part("each memory with every length from 0 to 1099: 2 but for the right one");
}

/* a table of this number: none of its bytes is 0 if it is even */
static void make_table(unsigned number)
{
    unsigned step = 2 * any(128) + 1, shift = any(256), characters_in_it = 1 + any(256);
    for (unsigned tile = 0; tile < 256; tile++) {
        unsigned byte = number % 3 == 0 ? tile * step + shift : number % 3 == 1 ? any(characters_in_it) + shift : any(256);
        lent[TABLE][tile] = (uint8_t)(number % 2 == 0 && byte % 256 == 0 ? 1 + any(255) : byte);
    }
}

/* rows of characters that stand in the table, then the page, then the rows */
static void rows_back(void)
{
    static uint8_t given[960];
    for (unsigned n = 0; n < 300; n++) {
        at = n;
        lend_all();
        make_table(n);
        lent[TABLE][any(256)] = 'x';
        for (unsigned k = 0; k < 960; k++) {
            unsigned character = lent[TABLE][any(256)];
            given[k] = lent[ROWS][k] = (uint8_t)(character ? character : 'x');
        }
        EXPECT(expect_page(), 0);
        memset(lent[ROWS], 0xDD, 960);
        EXPECT(expect_text(), 0);
        EXPECT_BYTES(lent[ROWS], given, 960);
    }
    part("rows of characters of permutations and of tables with doubles: page, then the same rows, count 0");
}

/* a page whose tiles have characters of their own, then the rows, then the page */
static void page_back(void)
{
    static uint8_t given[1024];
    for (unsigned n = 0; n < 100; n++) {
        unsigned step = 2 * any(128) + 1, shift = any(256);
        at = n;
        lend_all();
        for (unsigned tile = 0; tile < 256; tile++)
            lent[TABLE][tile] = (uint8_t)(tile * step + shift);
        for (unsigned k = 0; k < 960; k++)
            while (lent[TABLE][lent[SHEET][k]] == 0)
                lent[SHEET][k] = (uint8_t)any(256);
        memcpy(given, lent[SHEET], 1024);
        EXPECT(expect_text(), 0);
        memset(lent[SHEET], 0xDD, 960);
        EXPECT(expect_page(), 0);
        EXPECT_BYTES(lent[SHEET], given, 1024);
    }
    part("pages under tables without doubles: rows, then the same page");
}

/* the n-th of the ten well-formed boards: 0 to 4, 8 to 12 */
static unsigned board_of(unsigned n) { return n / 5 * 8 + n % 5; }

/* documents 01 and 02, by wiring and quarter; the quarter is taken modulo 4 */
static void pages_of_quarters(void)
{
    for (unsigned n = 0; n < 10; n++) {
        uint8_t board = (uint8_t)board_of(n);
        at = board;
        EXPECT(ppu_nametable_length(board), n % 5 == 4 ? 4096 : 2048);
        for (unsigned quarter = 0; quarter < 1024; quarter++)
            EXPECT(ppu_quarter(board, quarter), 1024 * page_of(board, quarter % 4));
    }
    for (unsigned byte = 0; byte < 256; byte++)
        for (unsigned quarter = 0; quarter < 4; quarter++) {
            at = byte;
            EXPECT(ppu_quarter((uint8_t)byte, quarter) + 1024 <= ppu_nametable_length((uint8_t)byte), 1);
        }
    part("ppu_nametable_length of each board, ppu_quarter's page of each quarter, and within that length for every byte");
}

/* what port 7 stores at $2000 + 1024 x quarter + k is at ppu_quarter + k of nametable RAM; 4 to 7 are 0 to 3 again */
static void quarters(void)
{
    static const unsigned places_in[] = { 0, 1, 31, 32, 255, 256, 511, 512, 767, 768, 958, 959, 960, 961, 1000, 1022, 1023 };
    uint8_t kept[PPU_FOUR_PAGES_LENGTH];
    for (unsigned n = 0; n < 80; n++) {
        unsigned board = board_of(n % 10), quarter = n / 10;
        scatter(&m, 31 + n);
        set_unit(&m, board, 0, 0);
        set_word(m.unit, PPU_AT_NEXT_LINE, 245);
        memcpy(kept, m.nametables, sizeof kept);
        for (unsigned i = 0; i < sizeof places_in / sizeof places_in[0]; i++) {
            unsigned address = 0x2000 + 1024 * (quarter % 4) + places_in[i];
            size_t place = ppu_quarter((uint8_t)board, quarter) + places_in[i];
            at = 10000 * (long)n + (long)places_in[i];
            kept[place] ^= (uint8_t)(1 + any(255));
            EXPECT(write_at(&m, 0x2006, address / 256), 0);
            EXPECT(write_at(&m, 0x2006, address % 256), 0);
            EXPECT(write_at(&m, 0x2007, kept[place]), 0);
            EXPECT_BYTES(m.nametables, kept, sizeof kept);
        }
    }
    part("ppu_quarter under each board: where port 7 stores, tile and attribute bytes");
}

/* each tile shows its own number, in every row: its pixels that are not of colour 0 are the number's bits */
static void numbered_tiles(void)
{
    for (int table = 0; table < 2; table++)
        for (int tile = 0; tile < 256; tile++)
            for (int row = 0; row < 8; row++)
                for (int column = 0; column < 8; column++)
                    tile_colours[table][tile][row][column] = (uint8_t)(tile >> (7 - column) & 1 ? 1 + (row + table) % 3 : 0);
    store_tiles(&m);
}

/* the 32 tiles that the line buffer shows */
static void tiles_shown(uint8_t *shown)
{
    for (unsigned p = 0; p < 256; p++)
        shown[p / 8] = (uint8_t)((p % 8 ? shown[p / 8] * 2 : 0) + (m.line[p] != 0));
}

/* a picture begins in this quarter, that many lines down; line 261 is run, and line 0 comes next */
static void begin_picture(unsigned board, unsigned quarter, unsigned down)
{
    set_unit(&m, board, 0, 0);
    set_word(m.unit, PPU_AT_NEXT_LINE, 261);
    EXPECT(write_at(&m, 0x2000, quarter + (down % 3 ? 0x10 : 0)), 0);
    EXPECT(write_at(&m, 0x2005, 0), 0);
    EXPECT(write_at(&m, 0x2005, down), 0);
    EXPECT(write_at(&m, 0x2001, 0x0A), 0);
    EXPECT(one_line(&m), answer(0, 0, 1));
}

/* the tiles shown are the page's, and so the page's text is the characters of what is shown */
static void expect_shown(const uint8_t *shown, unsigned board, unsigned quarter)
{
    const uint8_t *shown_page = m.nametables + ppu_quarter((uint8_t)board, quarter);
    uint8_t rows[960], of_picture[960];
    uint64_t without = characters(of_picture, shown, lent[TABLE]);
    EXPECT_BYTES(shown_page, shown, 960);
    EXPECT(ppu_text(shown_page, 1024, lent[TABLE], 256, rows, 960), without << 32);
    EXPECT_BYTES(rows, of_picture, 960);
}

static void pictures(void)
{
    uint8_t by_rows[960], whole[240 * 32];
    for (unsigned n = 0; n < 40; n++) {
        unsigned board = board_of(n % 10), quarter = n / 10;
        at = n;
        lend_all();
        scatter(&m, 500 + n);
        no_sprites(&m);
        numbered_tiles();
        for (unsigned row = 0; row < 30; row++) {
            begin_picture(board, quarter, 8 * row);
            EXPECT(one_line(&m), answer(0, 0, 1));
            tiles_shown(by_rows + 32 * row);
        }
        expect_shown(by_rows, board, quarter);
        begin_picture(board, quarter, 0);
        for (unsigned line = 0; line < 240; line++) {
            EXPECT(one_line(&m), answer(0, 0, 1));
            tiles_shown(whole + 32 * line);
            EXPECT_BYTES(whole + 32 * line, by_rows + 32 * (line / 8), 32);
        }
    }
    part("what a unit draws, read back from its pixels, under each board and quarter: the page's tiles, and its text");
}

int main(void)
{
    m = machine();
    figures();
    places();
    nothing_outside();
    tiles();
    counts();
    attributes();
    lowest_of_some();
    lowest_of_many();
    bad_characters();
    spaces();
    wrong_lengths();
    rows_back();
    page_back();
    pages_of_quarters();
    quarters();
    pictures();
    for (int i = 0; i < LENT; i++) {
        free(lent[i]);
        free(wanted[i]);
    }
    release(&m);
    return verdict("tests/text");
}
