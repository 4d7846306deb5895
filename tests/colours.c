/* Finished colours: what each pixel number becomes, greyscale and emphasis, backdrop override, and which lines leave the colours as they were.
   What is wanted are figures written out by hand, and the rule of document 02 as picture.h has it on pixel numbers that are worked out here. */
#include "picture.h"

static Machine m, wanted;

/* A scene whose line 21 has each of the 25 pixel numbers. Of the background the columns from 0 are transparent, from 64, 128 and 192 of colour 1, 2
   and 3, and each 16 columns have the next palette. Eight sprites, two of each palette, half of them behind the background; tile 4 is theirs. */
static const char sprite_row[] = "01233210";

static void begin(void)
{
    static const unsigned sprites[8][2] = { { 4, 0 }, { 20, 1 }, { 36, 0x22 }, { 52, 0x23 }, { 68, 1 }, { 116, 0x22 }, { 164, 3 }, { 212, 0x20 } };
    scatter(&m, 21);
    for (int tile = 0; tile < 4; tile++)
        solid(0, tile, tile);
    for (int row = 0; row < 8; row++)
        paint(0, 4, row, sprite_row);
    store_tiles(&m);
    for (int i = 0; i < 1024; i++)
        m.nametables[i] = i < 960 ? (uint8_t)(i % 32 / 8) : i % 2 ? 0xEE : 0x44;
    no_sprites(&m);
    for (int i = 0; i < 8; i++)
        set_sprite(&m, i, 20, 4, sprites[i][1], sprites[i][0]);
    set_unit(&m, PPU_FIRST_PAGE, 0, 0);
}

static unsigned scene_number(unsigned mask, unsigned p)
{
    unsigned back = mask & 8 && (p >= 8 || mask & 2) && p >= 64 ? 4 * (p / 16 % 4) + p / 64 : 0;
    for (int i = 0; i < 8 && mask & 16 && (p >= 8 || mask & 4); i++) {
        const uint8_t *sprite = m.oam + 4 * i;
        unsigned colour = p >= sprite[3] && p < sprite[3] + 8u ? (unsigned)(sprite_row[p - sprite[3]] - '0') : 0;
        if (colour && !(sprite[2] & 0x20 && back))
            return sprite_number(sprite, colour);
    }
    return back;
}

/* line 21 of the scene under this mask, off with mask bits 3 and 4 clear: numbers, colours, and a palette that stays as it was lent */
static void expect_scene(unsigned mask)
{
    m.unit[PPU_AT_MASK] = (uint8_t)mask;
    set_line(&m, 21, 0, 0);
    spoil_line(&m);
    memcpy(wanted.palette, m.palette, 32);
    for (unsigned p = 0; p < 256; p++)
        wanted.line[p] = (uint8_t)scene_number(mask, p);
    colour_line(&wanted, &m);
    EXPECT(one_line(&m), answer(0, 0, 1));
    EXPECT_BYTES(m.line, wanted.line, 256);
    EXPECT_BYTES(m.colours, wanted.colours, 512);
    EXPECT_BYTES(m.palette, wanted.palette, 32);
}

/* palette bytes that differ from each other modulo 64; round 0 to 255 brings each byte into each cell */
static void set_palette(unsigned round)
{
    for (unsigned cell = 0; cell < 32; cell++)
        m.palette[cell] = (uint8_t)(round + 37 * cell);
}

/* the same byte in every cell; mask bits 7, 6 and 5 become colour bits 8, 7 and 6, and greyscale leaves those alone */
static void figures(void)
{
    static const struct {
        uint8_t byte, mask, low, high;
    } cases[] = {
        { 0x16, 0x1E, 0x16, 0x00 }, { 0xD6, 0x1E, 0x16, 0x00 }, { 0x16, 0x1F, 0x10, 0x00 }, { 0x3F, 0x1F, 0x30, 0x00 },
        { 0x0F, 0x1F, 0x00, 0x00 }, { 0x16, 0x3E, 0x56, 0x00 }, { 0x16, 0x5E, 0x96, 0x00 }, { 0x16, 0x9E, 0x16, 0x01 },
        { 0x16, 0x7E, 0xD6, 0x00 }, { 0x16, 0xBE, 0x56, 0x01 }, { 0x16, 0xDE, 0x96, 0x01 }, { 0x16, 0xFE, 0xD6, 0x01 },
        { 0xFF, 0xFE, 0xFF, 0x01 }, { 0xFF, 0xFF, 0xF0, 0x01 }, { 0x16, 0x00, 0x16, 0x00 }, { 0x2A, 0xE1, 0xE0, 0x01 },
        { 0x00, 0xE0, 0xC0, 0x01 }, { 0x4D, 0x81, 0x00, 0x01 }, { 0xBF, 0x46, 0xBF, 0x00 }, { 0xBF, 0x27, 0x70, 0x00 },
    };
    begin();
    for (size_t i = 0; i < sizeof cases / sizeof cases[0]; i++) {
        at = (long)(1000 * i);
        memset(m.palette, cases[i].byte, 32);
        expect_scene(cases[i].mask);
        for (unsigned p = 0; p < 256; p++) {
            at = (long)(1000 * i + p);
            EXPECT(m.colours[2 * p], cases[i].low);
            EXPECT(m.colours[2 * p + 1], cases[i].high);
            EXPECT(ppu_colour(m.colours, p), cases[i].low + 256u * cases[i].high);
        }
    }
    part("colours written out by hand, all 512 bytes, the low one first: modulo 64, greyscale, each emphasis, drawn and off");
}

/* $2A in one cell and $0F in the others */
static void cells(void)
{
    unsigned arisen = 0;
    begin();
    for (unsigned cell = 0; cell < 32; cell++) {
        unsigned shown = 0;
        at = cell;
        memset(m.palette, 0x0F, 32);
        m.palette[cell] = 0x2A;
        expect_scene(0x1E);
        for (unsigned p = 0; p < 256; p++) {
            EXPECT(ppu_colour(m.colours, p), m.line[p] == cell ? 0x2A : 0x0F);
            shown += m.line[p] == cell;
        }
        EXPECT(shown > 0, cell == 0 || cell % 4 != 0);
        arisen += shown > 0;
    }
    EXPECT(arisen, 25);
    part("each cell alone, of every background and sprite palette: the pixels of its number show it, and no others");
}

static void bytes(void)
{
    static const unsigned masks[] = { 0x1E, 0x1F, 0x3E, 0x5F, 0x9E, 0xFF, 0x08, 0x11, 0x00, 0xE7 };
    begin();
    for (unsigned round = 0; round < 256; round++)
        for (int i = 0; i < 10; i++) {
            at = (long)(1000 * round) + i;
            set_palette(round);
            expect_scene(masks[i]);
        }
    part("every byte in every palette cell under ten masks: its value modulo 64, and the palette stays as it was");
}

static void masks(void)
{
    begin();
    for (unsigned mask = 0; mask < 256; mask++)
        for (unsigned round = 0; round < 256; round += 51) {
            at = mask;
            set_palette(round);
            expect_scene(mask);
            for (unsigned p = 0; p < 256; p += 15)
                EXPECT(ppu_colour(m.colours, p) / 64, mask / 32);
        }
    part("every mask, drawn and off: greyscale by bit 0, then emphasis by bits 7 to 5");
}

/* a line with mask bits 3 and 4 clear: pixel numbers 0, and 256 times the colour of this cell */
static void expect_off(unsigned line, unsigned mask, unsigned v, unsigned cell)
{
    static const uint8_t zeros[256];
    m.unit[PPU_AT_MASK] = (uint8_t)mask;
    set_word(m.unit, PPU_AT_V, v);
    set_word(m.unit, PPU_AT_NEXT_LINE, line);
    spoil_line(&m);
    EXPECT(one_line(&m), answer(0, 0, 1));
    EXPECT_BYTES(m.line, zeros, 256);
    EXPECT(ppu_colour(m.colours, 0), finished_colour(&m, cell));
    EXPECT_BYTES(m.colours + 2, m.colours, 510);
    EXPECT(word(m.unit, PPU_AT_V), v);
}

static void off_lines(void)
{
    begin();
    for (unsigned line = 0; line < 240; line++)
        for (unsigned mask = 0; mask < 256; mask += mask % 8 == 7 ? 25 : 1) {
            at = (long)(1000 * line + mask);
            set_palette(line);
            expect_off(line, mask, 0x2000 + line, 0);
            expect_off(line, mask, 0x3F00 + line / 32 * 32 + 9, 9);
        }
    part("lines 0 to 239 switched off, under each mask that does so: 256 times cell 0, or the cell at v; pixel numbers 0");
}

/* the cell of each address from $3F00 on, modulo 32 */
static const uint8_t cell_at[32] = { 0, 1, 2,  3,  4, 5,  6,  7,  8, 9,  10, 11, 12, 13, 14, 15,
                                     0, 17, 18, 19, 4, 21, 22, 23, 8, 25, 26, 27, 12, 29, 30, 31 };

static void override(void)
{
    begin();
    set_palette(200);
    for (unsigned v = 0; v < 32768; v++) {
        unsigned a = v % 0x4000, cell = a < 0x3F00 ? 0 : cell_at[a % 32];
        at = v;
        expect_off(v % 240, 0x00, v, cell);
        expect_off(v % 240, v * 7 % 256 & 0xE6, v, cell);
        expect_off(v % 240, v * 5 % 256 & 0xE7, v, cell);
    }
    part("switched off at every v: cell 0 below $3F00 modulo $4000, from there the cell at v by its mirrors, in grey and emphasis too");
}

/* v from $3F00 modulo $4000 is fine y 3 or 7 of rows 24 to 31 of the last nametable; here of rows 24 to 29, which hold tiles */
static void scrolled(void)
{
    static const unsigned masks[] = { 0x08, 0x10, 0x18, 0x0A, 0xFF };
    begin();
    scatter(&m, 4);
    scatter_tiles(6);
    store_tiles(&m);
    no_sprites(&m);
    for (unsigned n = 0; n < 2 * 6 * 32; n++)
        for (int i = 0; i < 5; i++) {
            unsigned column = 256 + n % 32 * 8 + n % 7, row = 240 + (24 + n / 32 % 6) * 8 + (n < 6 * 32 ? 3 : 7);
            at = (long)(10 * n) + i;
            m.unit[PPU_AT_MASK] = (uint8_t)masks[i];
            m.unit[PPU_AT_BOARD] = n % 3 ? PPU_FOUR_PAGES : PPU_FIRST_PAGE;
            set_line(&m, 77, column, row);
            EXPECT(word(m.unit, PPU_AT_V) % 0x4000 >= 0x3F00, 1);
            for (unsigned p = 0; p < 256; p++) {
                wanted.line[p] = (uint8_t)(masks[i] & 8 && (p >= 8 || masks[i] & 2) ? background_at(&m, column + p, row) : 0);
                set_word(wanted.colours, 2 * (int)p, finished_colour(&m, wanted.line[p]));
            }
            EXPECT(one_line(&m), answer(0, 0, 1));
            EXPECT_BYTES(m.line, wanted.line, 256);
            EXPECT_BYTES(m.colours, wanted.colours, 512);
        }
    part("scrolled to v from $3F00 with mask bit 3 or 4 set: no override, each pixel its own colour");
}

/* mask bit 3 or 4 set and nothing opaque, at each v from $3F00 modulo $4000 */
static void nothing_shown(void)
{
    static const unsigned masks[] = { 0x08, 0x10, 0x18, 0xF1 };
    begin();
    set_palette(60);
    memset(m.nametables, 0, m.length[NAMETABLES]);
    no_sprites(&m);
    for (unsigned v = 0x3F00; v < 0x8000; v += v == 0x3FFF ? 0x3F01 : 1)
        for (int i = 0; i < 4; i++) {
            at = v;
            m.unit[PPU_AT_MASK] = (uint8_t)masks[i];
            set_line(&m, v % 240, 0, 0);
            set_word(m.unit, PPU_AT_V, v);
            spoil_line(&m);
            EXPECT(one_line(&m), answer(0, 0, 1));
            EXPECT(ppu_colour(m.colours, 0), finished_colour(&m, 0));
            EXPECT_BYTES(m.colours + 2, m.colours, 510);
        }
    part("drawn with nothing opaque at each v from $3F00: cell 0, and no override");
}

/* v goes through $3F00-$3FFF by reads of port 7, with a line before each; then it is $4000, which is address 0 */
static void as_port_7(void)
{
    static const unsigned masks[] = { 0x00, 0x01, 0xE6, 0xA7 };
    begin();
    set_palette(99);
    for (int i = 0; i < 4; i++) {
        unsigned grey = masks[i] % 2 ? 0x30 : 0x3F;
        m.unit[PPU_AT_MASK] = (uint8_t)masks[i];
        EXPECT(write_at(&m, 0x2006, 0x3F), 0);
        EXPECT(write_at(&m, 0x2006, 0x00), 0);
        for (unsigned a = 0x3F00; a < 0x4000; a++) {
            at = (long)a;
            set_word(m.unit, PPU_AT_NEXT_LINE, a % 240);
            EXPECT(one_line(&m), answer(0, 0, 1));
            EXPECT(ppu_byte(read_at(&m, 0x2007)) % 64, ppu_colour(m.colours, a % 256) % 64);
            EXPECT(ppu_colour(m.colours, 0), (m.palette[cell_at[a % 32]] & grey) + 64 * (masks[i] / 32));
        }
        set_word(m.unit, PPU_AT_NEXT_LINE, 50);
        EXPECT(one_line(&m), answer(0, 0, 1));
        EXPECT(ppu_colour(m.colours, 0), finished_colour(&m, 0));
    }
    part("the override at each address from $3F00: what a read of port 7 gives there, modulo 64");
}

/* a drawn line at $2F00 to $2FFF steps v one row down: it shows nothing of the palette at v, and the next line, switched off, does */
static void stepped_there(void)
{
    begin();
    set_palette(5);
    for (unsigned n = 0; n < 256; n++) {
        at = n;
        m.unit[PPU_AT_MASK] = 0x10;
        set_line(&m, 30, 0, 0);
        set_word(m.unit, PPU_AT_V, 0x2F00 + n);
        set_word(m.unit, PPU_AT_T, 0x0400 + n % 32);
        EXPECT(one_line(&m), answer(0, 0, 1));
        EXPECT(word(m.unit, PPU_AT_V), 0x3F00 + n);
        EXPECT(ppu_colour(m.colours, n), m.palette[0] % 64);
        EXPECT(ppu_colour(m.colours, 255 - n), m.palette[0] % 64);
        expect_off(31, 0x00, 0x3F00 + n, cell_at[n % 32]);
    }
    part("the cell is that of v at the line's beginning: a drawn line that leads v there shows none of it, the next line off does");
}

/* so many lines: by ppu_run with the way for its reason, or by a log's record of kind 2 */
enum { BY_PLAY = PPU_UNTIL_HIT + 1, WAYS };

static uint64_t lines_by(unsigned way, unsigned lines)
{
    const uint8_t log[4] = { 2, (uint8_t)(lines / 256), (uint8_t)(lines % 256), 0 };
    return way == BY_PLAY ? play_log(&m, log, 4) : run_lines(&m, lines, way);
}

/* one line and all that are left of the frame, in each way; control bit 7 is clear and nothing hits there, so that none stops before */
static void blank_lines(void)
{
    static const unsigned masks[] = { 0x00, 0xE7, 0x08, 0x10, 0xFF }, places[] = { 0x2134, 0x3F01, 0x7FFF };
    begin();
    for (unsigned line = 240; line < 262; line++)
        for (unsigned n = 0; n < 5 * 3 * 2 * WAYS; n++) {
            unsigned way = n / 30, lines = n / 15 % 2 ? 262 - line : 1;
            at = (long)(1000 * line + n);
            m.unit[PPU_AT_MASK] = (uint8_t)masks[n % 5];
            set_line(&m, line, 0, 0);
            set_word(m.unit, PPU_AT_V, places[n / 5 % 3]);
            for (int i = 0; i < 512; i++)
                m.colours[i] = m.line[i % 256] = (uint8_t)(i * 5 + (int)n);
            copy(&wanted, &m);
            EXPECT(lines_by(way, lines), answer(0, 0, lines));
            for (int i = LEFT; i < BUFFERS; i++)
                EXPECT_BYTES(*buffer(&m, i), *buffer(&wanted, i), wanted.length[i]);
        }
    part("lines 240 to 261, by ppu_run with each reason and by ppu_play: neither buffer is touched, with v in the palette or not");
}

/* a frame, line by line: both buffers after each of lines 0 to 239, and the record before each line */
static struct {
    uint8_t line[240][256], colours[240][512], unit[262][16];
} frame;

static void keep_frame(unsigned mask, unsigned v)
{
    m.unit[PPU_AT_MASK] = (uint8_t)mask;
    set_line(&m, 261, 0, 0);
    set_word(m.unit, PPU_AT_T, v);
    set_word(m.unit, PPU_AT_V, v);
    EXPECT(one_line(&m), answer(0, 0, 1));
    for (unsigned line = 0; line < 262; line++) {
        memcpy(frame.unit[line], m.unit, 16);
        spoil_line(&m);
        EXPECT(one_line(&m), answer(0, 0, 1));
        if (line < 240) {
            memcpy(frame.line[line], m.line, 256);
            memcpy(frame.colours[line], m.colours, 512);
        }
    }
}

/* a run from this line of the frame leaves that line of it, or 240: what was there before */
static void expect_left(unsigned way, unsigned from, unsigned lines, unsigned last)
{
    spoil_line(&m);
    spoil_line(&wanted);
    memcpy(m.unit, frame.unit[from], 16);
    EXPECT(lines_by(way, lines), answer(0, 0, lines));
    EXPECT_BYTES(m.unit, frame.unit[(from + lines) % 262], 16);
    EXPECT_BYTES(m.line, last < 240 ? frame.line[last] : wanted.line, 256);
    EXPECT_BYTES(m.colours, last < 240 ? frame.colours[last] : wanted.colours, 512);
}

static void frames(void)
{
    static const unsigned runs[][3] = {
        { 0, 0, 240 },   { 0, 1, 0 },     { 0, 2, 1 },     { 0, 239, 238 }, { 0, 240, 239 },   { 0, 241, 239 },
        { 0, 262, 239 }, { 0, 263, 0 },   { 17, 3, 19 },   { 17, 262, 16 }, { 238, 1, 238 },   { 239, 1, 239 },
        { 239, 23, 239 }, { 239, 24, 0 }, { 240, 22, 240 }, { 240, 23, 0 }, { 241, 1, 240 },   { 250, 50, 37 },
        { 261, 1, 240 }, { 261, 2, 0 },   { 261, 241, 239 }, { 100, 600, 175 },
    };
    static const unsigned kinds[][2] = { { 0x1E, 0x0000 }, { 0xFF, 0x7FFF }, { 0x18, 0x2F64 }, { 0x00, 0x3F1B }, { 0xC1, 0x2F64 } };
    for (int kind = 0; kind < 5; kind++) {
        begin();
        scatter(&m, 30);
        keep_frame(kinds[kind][0], kinds[kind][1]);
        for (size_t i = 0; i < sizeof runs / sizeof runs[0]; i++)
            for (unsigned way = PPU_RUN_ALL; way < WAYS; way++) {
                at = 1000 * kind + (long)i;
                if (way != PPU_UNTIL_HIT) /* a hit may cut it short; tests/runs.c */
                    expect_left(way, runs[i][0], runs[i][1], runs[i][2]);
            }
        EXPECT(memcmp(frame.colours[99], frame.colours[98], 512) != 0, (kinds[kind][0] & 0x18) != 0);
    }
    part("a run of frames drawn and off, by ppu_run and ppu_play: line and colours are the last of lines 0 to 239 run, as it alone leaves them");
}

/* control bit 7 set: a run that ends early after line 241 leaves line 239 */
static void early_stop(void)
{
    begin();
    scatter(&m, 31);
    keep_frame(0x1E, 0x0000);
    for (unsigned from = 0; from < 262; from += 9) {
        at = from;
        spoil_line(&m);
        memcpy(m.unit, frame.unit[from], 16);
        m.unit[PPU_AT_CONTROL] |= 0x80;
        EXPECT(run_lines(&m, 300, PPU_UNTIL_NMI), run_answer(1, 1, (241 + 262 - from) % 262 + 1));
        EXPECT_BYTES(m.line, frame.line[239], 256);
        EXPECT_BYTES(m.colours, frame.colours[239], 512);
    }
    part("a run that ends early after line 241: line and colours of line 239");
}

/* a program's writes: $20 to $3F to the addresses $3F00 to $3F1F, so that those at $3F10, $3F14, $3F18, $3F1C are in cells 0, 4, 8, 12 */
static void by_ports(void)
{
    static const struct {
        uint8_t high, low, mask;
        unsigned colour;
    } cases[] = { { 0x3F, 0x04, 0x00, 0x34 },  { 0x3F, 0x14, 0x00, 0x34 },  { 0x3F, 0x17, 0x00, 0x37 },  { 0x3F, 0xF0, 0x00, 0x30 },
                  { 0xFF, 0x05, 0x00, 0x25 },  { 0x3E, 0xFF, 0x00, 0x30 },  { 0x00, 0x05, 0x00, 0x30 },  { 0x3F, 0x0F, 0x01, 0x20 },
                  { 0x3F, 0x0F, 0x20, 0x6F },  { 0x3F, 0x0F, 0x40, 0xAF },  { 0x3F, 0x0F, 0x80, 0x12F }, { 0x3F, 0x1D, 0xE1, 0x1F0 },
                  { 0x00, 0x05, 0xE7, 0x1F0 }, { 0x3F, 0x1D, 0xE6, 0x1FD }, { 0x3F, 0xFF, 0x66, 0xFF } };
    begin();
    EXPECT(ppu_fresh(m.unit, 16, PPU_VERTICAL), 0);
    EXPECT(run_lines(&m, 262, PPU_RUN_ALL), answer(0, 0, 262));
    EXPECT(write_at(&m, 0x2006, 0x3F) + write_at(&m, 0x2006, 0x00), 0);
    for (unsigned i = 0; i < 32; i++)
        EXPECT(write_at(&m, 0x2007, 0x20 + i), 0);
    EXPECT(one_line(&m), answer(0, 0, 1)); /* v is $3F20 now */
    EXPECT(ppu_colour(m.colours, 128), 0x30);
    for (size_t i = 0; i < sizeof cases / sizeof cases[0]; i++) {
        at = (long)i;
        EXPECT(write_at(&m, 0x2006, cases[i].high) + write_at(&m, 0x2006, cases[i].low) + write_at(&m, 0x2001, cases[i].mask), 0);
        EXPECT(one_line(&m), answer(0, 0, 1));
        for (unsigned p = 0; p < 256; p++)
            EXPECT(ppu_colour(m.colours, p), cases[i].colour);
    }
    part("a palette and v written through ports 6 and 7, the mask through port 1: the override's colours written out by hand");
}

int main(void)
{
    m = machine();
    wanted = machine();
    figures();
    cells();
    bytes();
    masks();
    off_lines();
    override();
    scrolled();
    nothing_shown();
    as_port_7();
    stepped_there();
    blank_lines();
    frames();
    early_stop();
    by_ports();
    release(&m);
    release(&wanted);
    return verdict("tests/colours");
}
