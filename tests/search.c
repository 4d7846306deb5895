/* Sprite overflow: ppu_search, and status bit 5 of a drawn line. What is wanted are figures written out by hand, what document 02 says of each
   place and each edge, and its search as picture.h has it step by step. */
#include "picture.h"

static Machine m, wanted;

/* how often the searches wanted so far looked at so many sprites, with the bit not set and set */
static unsigned long times[2][65];

/* no byte in range of any line, and no opaque pixel, so that overflow is all that a drawn line can set */
static void begin(unsigned control, unsigned mask)
{
    memset(m.left, 0, 4096);
    memset(m.right, 0, 4096);
    no_sprites(&m);
    set_unit(&m, 0, control, mask);
    memset(times, 0, sizeof times);
}

/* a byte in range of this line, another one for each k below the height */
static uint8_t some_in_range(unsigned line, unsigned k) { return (uint8_t)(line - k % sprite_height(&m)); }

/* the search on this line, and status bit 5 after the same line is drawn */
static void expect_search(unsigned line, unsigned looked, int set)
{
    EXPECT(search_on(&m, line), looked_answer(looked, 0));
    set_line(&m, line, 0, 0);
    EXPECT(one_line(&m), answer(0, 0, 1));
    EXPECT(m.unit[PPU_AT_STATUS], set ? 0x20 : 0);
    times[set][looked]++;
}

/* with the bit set each number from 9 to 64 was wanted, and 64 without it as well */
static void expect_all_numbers(void)
{
    for (unsigned looked = 9; looked <= 64; looked++) {
        at = looked;
        EXPECT(times[1][looked] > 0, 1);
    }
    EXPECT(times[0][64] > 0, 1);
}

/* on line 20: a row of sprites with Y byte 20, and one OAM byte more that is 20, by sprite and byte */
static void figures(void)
{
    static const struct {
        int first, count, sprite, byte;
        unsigned looked;
        int set;
    } cases[] = {
        { 0, 9, -1, 0, 9, 1 },   /* the ninth is the next after the eighth */
        { 0, 8, 9, 0, 64, 0 },   /* it is not: byte 0 of sprite 9 is not looked at */
        { 0, 8, 9, 1, 10, 1 },   /* but its tile byte is */
        { 0, 8, 10, 2, 11, 1 },  /* then the attribute byte of the next */
        { 0, 8, 11, 3, 12, 1 },  /* the X byte of the next */
        { 0, 8, 12, 0, 13, 1 },  /* and byte 0 again */
        { 0, 8, 12, 1, 64, 0 },
        { 0, 8, 63, 3, 64, 1 },  /* the last sprite sets the bit */
        { 0, 8, 63, 0, 64, 0 },  /* or does not */
        { 55, 9, -1, 0, 64, 1 }, /* by its Y byte */
        { 56, 8, -1, 0, 64, 0 }, /* none is left after the eighth */
        { 0, 7, 63, 0, 64, 0 },
        { 0, 7, 9, 1, 64, 0 },   /* seven are found, and no byte but Y bytes is tried */
        { 0, 0, -1, 0, 64, 0 },
        { 0, 64, -1, 0, 9, 1 },
    };
    for (size_t i = 0; i < sizeof cases / sizeof cases[0]; i++) {
        begin(0, 0x18);
        at = (long)i;
        for (int k = 0; k < cases[i].count; k++)
            m.oam[4 * (cases[i].first + k)] = 20;
        if (cases[i].sprite >= 0)
            m.oam[4 * cases[i].sprite + cases[i].byte] = 20;
        expect_search(20, cases[i].looked, cases[i].set);
        EXPECT(search_by_steps(&m, 20).looked, cases[i].looked);
        EXPECT(search_by_steps(&m, 20).set, cases[i].set);
    }
    part("figures by hand, of the call, of a drawn line and of the search step by step");
}

/* EIGHT FOUND, the last of them at this place: side by side, the others at the front, or all far apart */
static void set_eight(unsigned eighth, unsigned how, unsigned line)
{
    no_sprites(&m);
    for (unsigned i = 0; i < 8; i++) {
        unsigned place = how == 0 ? eighth - 7 + i : how == 1 ? (i < 7 ? i : eighth) : eighth * i / 7;
        m.oam[4 * place] = some_in_range(line, i);
    }
}

/* one more byte in range, at each place of OAM that leaves the eighth where it is: it sets the bit exactly where the search looks at it */
static void one_more(unsigned eighth, unsigned line)
{
    for (unsigned i = 0; i < 256; i++) {
        unsigned sprite = i / 4, byte = i % 4;
        int sets = sprite > eighth && byte == (sprite - eighth - 1) % 4;
        if (byte == 0 && sprite <= eighth)
            continue;
        at = (long)(1000 * eighth + i);
        m.oam[i] = some_in_range(line, i);
        expect_search(line, sets ? sprite + 1 : 64, sets);
        m.oam[i] = 0xFF;
    }
}

static void eighth_places(void)
{
    begin(0, 0x10);
    for (unsigned n = 0; n < 6; n++)
        for (unsigned eighth = 7; eighth < 64; eighth++) {
            m.unit[PPU_AT_CONTROL] = n % 2 ? 0x20 : 0;
            at = (long)(1000 * eighth);
            set_eight(eighth, n / 2, 100 + eighth);
            expect_search(100 + eighth, 64, 0);
            one_more(eighth, 100 + eighth);
        }
    expect_all_numbers();
    part("the eighth at each of the 57 places, one more byte in range at each place of OAM, both heights");
}

/* each of 1 to 64 sprites in a row from each place: the ninth of them sets the bit */
static void rows(void)
{
    for (unsigned tall = 0; tall < 2; tall++) {
        begin(tall ? 0x20 : 0, 0x08);
        for (unsigned first = 0; first < 64; first++) {
            no_sprites(&m);
            for (unsigned count = 1; first + count <= 64; count++) {
                at = (long)(1000 * first + count);
                m.oam[4 * (first + count - 1)] = some_in_range(200, 5 * first + count);
                expect_search(200, count > 8 ? first + 9 : 64, count > 8);
            }
        }
    }
    part("1 to 64 in a row from each place: from nine on the ninth sets the bit");
}

/* every byte but the Y bytes in range: it counts only after the eighth, and then the next sprite but one sets the bit */
static void other_bytes(void)
{
    for (unsigned found = 0; found <= 8; found++)
        for (unsigned last = found ? found - 1 : 0; last < 64; last++) {
            begin(last % 2 ? 0x20 : 0, 0x18);
            at = (long)(1000 * found + last);
            for (unsigned i = 0; i < 256; i++)
                m.oam[i] = i % 4 || (found && (i / 4 + 1 < found || i / 4 == last)) ? some_in_range(150, i) : 0xFF;
            int set = found == 8 && last + 2 < 64;
            expect_search(150, set ? last + 3 : 64, set);
        }
    part("0 to 8 found, every tile, attribute and X byte in range: none is tried before the eighth is found");
}

/* EDGES of y <= L < y + h, and the ends of a byte */
static int is_edge(unsigned y, unsigned line)
{
    unsigned end = y + sprite_height(&m);
    return y == line || y == line + 1 || end == line || end == line + 1 || y == 0 || y == 255;
}

/* sprites 0 to 7 are found and y is sprite 8's Y byte; then y is the eighth's; then the second byte tried, sprite 9's tile */
static void expect_edge(unsigned y, unsigned line)
{
    int set = in_range(&m, y, line);
    expect_search(line, set ? 9 : 64, set);
    m.oam[4 * 7] = (uint8_t)y;
    m.oam[4 * 8] = (uint8_t)line;
    expect_search(line, set ? 9 : 64, set);
    m.oam[4 * 7] = (uint8_t)line;
    m.oam[4 * 8] = 0xFF;
    m.oam[4 * 9 + 1] = (uint8_t)y;
    expect_search(line, set ? 10 : 64, set);
    m.oam[4 * 9 + 1] = 0xFF;
}

static void edges(void)
{
    for (unsigned tall = 0; tall < 2; tall++)
        for (unsigned line = 0; line < 240; line++) {
            begin(tall ? 0x20 : 0, 0x18);
            for (int i = 0; i < 8; i++)
                m.oam[4 * i] = (uint8_t)line;
            for (unsigned y = 0; y < 256; y++) {
                at = (long)(1000 * line + y);
                m.oam[4 * 8] = (uint8_t)y;
                EXPECT(search_on(&m, line), looked_answer(in_range(&m, y, line) ? 9 : 64, 0));
                if (is_edge(y, line))
                    expect_edge(y, line);
            }
        }
    part("every Y on every line, both heights; drawn too where y is L, L + 1, L - h, L - h + 1, 0 or 255");
}

/* each value of each of the four bytes, attributes with bits 2 to 4, too */
static void values(void)
{
    static const unsigned lines[] = { 0, 7, 15, 28, 31, 60, 200, 239 };
    for (unsigned n = 0; n < 16; n++) {
        unsigned line = lines[n / 2];
        begin(n % 2 ? 0x20 : 0, 0x18);
        for (int i = 0; i < 8; i++)
            m.oam[4 * i] = (uint8_t)line;
        for (unsigned byte = 0; byte < 4; byte++)
            for (unsigned value = 0; value < 256; value++) {
                unsigned place = 4 * (8 + byte) + byte;
                at = (long)(1000 * line + value);
                m.oam[place] = (uint8_t)value;
                int set = in_range(&m, value, line);
                expect_search(line, set ? 9 + byte : 64, set);
                m.oam[place] = 0xFF;
            }
    }
    part("each value of a Y, tile, attribute and X byte");
}

/* attribute bytes written by port 4 and by sprite DMA are looked at whole, though port 4 reads them without bits 2 to 4 */
static void whole_attributes(void)
{
    static const struct {
        unsigned byte, line, looked;
    } cases[] = { { 0x1C, 0x1C, 11 }, { 0x1C, 0, 64 }, { 0xFF, 0xE8, 64 }, { 0xBF, 0xC0, 11 }, { 0x1F, 7, 64 }, { 0x3E, 0x24, 64 } };
    for (size_t i = 0; i < sizeof cases / sizeof cases[0]; i++)
        for (int by_dma = 0; by_dma < 2; by_dma++) {
            at = (long)i;
            begin(0, 0);
            memset(m.page, 0xFF, 256);
            for (int k = 0; k < 8; k++)
                m.page[4 * k] = m.oam[4 * k] = (uint8_t)cases[i].line;
            m.page[4 * 10 + 2] = (uint8_t)cases[i].byte;
            m.unit[PPU_AT_OAMADDR] = by_dma ? 0 : 4 * 10 + 2;
            EXPECT(by_dma ? sprite_dma(&m) : write_at(&m, 0x2004, cases[i].byte), 0);
            m.unit[PPU_AT_OAMADDR] = 4 * 10 + 2;
            EXPECT(ppu_byte(read_at(&m, 0x2004)), cases[i].byte & 0xE3);
            EXPECT(search_on(&m, cases[i].line), looked_answer(cases[i].looked, 0));
        }
    part("attribute bytes by port 4 and sprite DMA: looked at whole");
}

/* ANY OAM: bits that follow no rule of the search */
static uint64_t any_bits(void)
{
    static uint64_t bits = 2;
    bits ^= bits << 13;
    bits ^= bits >> 7;
    bits ^= bits << 17;
    return bits;
}

static unsigned any(unsigned below) { return (unsigned)(any_bits() % below); }

/* n chooses how crowded OAM is, from no byte in range to all, and what the other bytes are: $FF, next to the range, or any */
static void any_oam(unsigned line, unsigned n)
{
    static const unsigned chances[][2] = { { 0, 0 }, { 24, 4 }, { 40, 16 }, { 128, 128 }, { 256, 256 } }; /* in 256, of Y and of other bytes */
    const unsigned *chance = chances[n % 5], others = n / 5 % 3, h = sprite_height(&m);
    uint64_t bits = 0;
    for (unsigned i = 0; i < 256; i++) {
        bits = i % 4 ? bits >> 16 : any_bits();
        unsigned value = bits & 255, edge = value & 1 ? line + 1 : line - h;
        if ((bits >> 8 & 255) < chance[i % 4 != 0])
            value = line - (value & (h - 1));
        else if (others < 2)
            value = others ? edge : 0xFF;
        m.oam[i] = (uint8_t)value;
    }
}

static unsigned any_line(void)
{
    unsigned n = any(320);
    return n < 240 ? n : n < 280 ? 0 : 239;
}

static void any_oams(void)
{
    begin(0, 0);
    for (unsigned n = 0; n < 200000; n++) {
        unsigned line = any_line();
        at = n;
        m.unit[PPU_AT_CONTROL] = (uint8_t)any(256);
        m.unit[PPU_AT_MASK] = (uint8_t)(n % 8 ? 0x10 : n % 16 ? 0x08 : 0x18);
        any_oam(line, n);
        Search s = search_by_steps(&m, line);
        expect_search(line, s.looked, s.set);
    }
    expect_all_numbers();
    part("200000 OAMs from empty to crowded: the document's search step by step, on every line and at both heights");
}

/* a run and a run of a log set the bit if the search on one of their lines does */
static void runs(void)
{
    unsigned with = 0;
    for (unsigned n = 0; n < 400; n++) {
        unsigned from = any(236), count = 1 + any(n % 4 ? 4 : 240 - from), status = 0;
        uint8_t log[4] = { 2, 0, (uint8_t)count, 0 };
        at = n;
        begin(any(256), 8 + 8 * (n % 3));
        any_oam(from + count / 2, n);
        for (unsigned line = from; line < from + count; line++)
            status |= search_by_steps(&m, line).set ? 0x20 : 0;
        with += status > 0;
        for (int by_log = 0; by_log < 2; by_log++) {
            set_line(&m, from, 0, 0);
            EXPECT(by_log ? play_log(&m, log, 4) : run_lines(&m, count, PPU_RUN_ALL), answer(0, 0, count));
            EXPECT(m.unit[PPU_AT_STATUS], status);
        }
    }
    EXPECT(with > 0 && with < 400, 1);
    part("runs and runs of a log: the bit is set if one of their lines sets it");
}

/* PICTURES. On line 100 eight sprites are shown; other ones that cover it come later, where the search does not look at their Y bytes */
static void set_scene(unsigned eighth)
{
    for (unsigned i = 0; i < 256; i++)
        m.oam[i] = (uint8_t)(101 + any(155));
    for (unsigned i = 0; i < 8; i++)
        m.oam[4 * (i < 7 ? eighth * i / 7 : eighth)] = 99;
    for (unsigned sprite = eighth + 1; sprite < 64; sprite++)
        if ((sprite - eighth) % 4 != 1 && any(2))
            m.oam[4 * sprite] = 99;
}

/* the line of two OAMs that differ in one byte, which only the search looks at: only status bit 5 differs */
static void expect_same_picture(unsigned eighth, unsigned sprite)
{
    set_unit(&m, any(5), any(2) ? 0x38 : 0x10, 0x1E);
    set_line(&m, 100, any(512), any(480));
    set_scene(eighth);
    copy(&wanted, &m);
    m.oam[4 * sprite + (sprite - eighth - 1) % 4] = 100;
    EXPECT(one_line(&wanted), answer(0, 0, 1));
    EXPECT(wanted.unit[PPU_AT_STATUS] & 0x20, 0);
    wanted.unit[PPU_AT_STATUS] |= 0x20;
    EXPECT(one_line(&m), answer(0, 0, 1));
    EXPECT_BYTES(m.line, wanted.line, 256);
    EXPECT_BYTES(m.colours, wanted.colours, 512);
    EXPECT_BYTES(m.unit, wanted.unit, 16);
}

static void pictures(void)
{
    unsigned sprite_pixels = 0;
    scatter(&m, 17);
    scatter_tiles(17);
    store_tiles(&m);
    for (unsigned eighth = 7; eighth < 63; eighth++)
        for (unsigned sprite = eighth + 1; sprite < 64; sprite++) {
            at = (long)(1000 * eighth + sprite);
            expect_same_picture(eighth, sprite);
            for (int p = 0; p < 256; p++)
                sprite_pixels += m.line[p] >= 16;
        }
    EXPECT(sprite_pixels > 0, 1);
    part("lines of OAMs that differ only where the search looks: the same picture, and status bit 5");
}

/* THE RECORD. Eight in range of line 120, and one byte more, of sprite 40 */
static void set_forty(void)
{
    begin(0, 0);
    set_eight(7, 0, 120);
    m.oam[4 * 40] = 120;
}

static void mask_and_next_line(void)
{
    set_forty();
    for (unsigned mask = 0; mask < 256; mask++)
        for (unsigned line = 0; line < 262; line++) {
            at = (long)(1000 * mask + line);
            m.unit[PPU_AT_MASK] = (uint8_t)mask;
            set_word(m.unit, PPU_AT_NEXT_LINE, line);
            EXPECT(search_on(&m, 120), looked_answer(41, 0));
        }
    part("every mask before every next line: the same search");
}

/* the ninth is in range only at height 16 */
static void control_and_status(void)
{
    set_forty();
    m.oam[4 * 8] = 120 - 8;
    for (unsigned control = 0; control < 256; control++)
        for (unsigned status = 0; status < 256; status += 32) {
            at = (long)(1000 * control + status);
            m.unit[PPU_AT_CONTROL] = (uint8_t)control;
            m.unit[PPU_AT_STATUS] = (uint8_t)status;
            EXPECT(search_on(&m, 120), looked_answer(control & 0x20 ? 9 : 41, control >= 128 && status >= 128));
            EXPECT(m.unit[PPU_AT_STATUS], status);
        }
    part("every control and status: height by control bit 5, and the unit's NMI level");
}

static void any_record(void)
{
    for (int i = 0; i < 16; i++)
        m.unit[i] = (uint8_t)any(256);
    m.unit[PPU_AT_STATUS] &= 0xE0;
    m.unit[PPU_AT_V + 1] &= 0x7F;
    m.unit[PPU_AT_T + 1] &= 0x7F;
    m.unit[PPU_AT_FINE_X] &= 7;
    m.unit[PPU_AT_W] &= 1;
    m.unit[PPU_AT_WARMED_UP] &= 1;
    m.unit[PPU_AT_BOARD] = (uint8_t)(any(5) + 8 * any(2));
    set_word(m.unit, PPU_AT_NEXT_LINE, any(262));
}

static void any_records(void)
{
    for (unsigned n = 0; n < 20000; n++) {
        unsigned line = any_line();
        at = n;
        any_record();
        any_oam(line, n);
        memcpy(wanted.unit, m.unit, 16);
        memcpy(wanted.oam, m.oam, 256);
        unsigned level = m.unit[PPU_AT_CONTROL] >= 128 && m.unit[PPU_AT_STATUS] >= 128;
        EXPECT(search_on(&m, line), looked_answer(search_by_steps(&m, line).looked, level));
        EXPECT_BYTES(m.unit, wanted.unit, 16);
        EXPECT_BYTES(m.oam, wanted.oam, 256);
    }
    part("20000 records and OAMs: the same search by control bit 5 and OAM alone; not a byte changes");
}

/* record and OAM within guard bytes that are in range, at every offset to a word: a sprite 64 would set the bit */
static void guards(void)
{
    enum { GUARD = 32, OFFSETS = 16 };
    uint8_t unit[16 + OFFSETS + 2 * GUARD], oam[256 + OFFSETS + 2 * GUARD], unit_before[sizeof unit], oam_before[sizeof oam];
    for (int n = 0; n < 2 * OFFSETS; n++) {
        int place = GUARD + n / 2;
        at = n;
        begin(0, 0);
        set_eight(n % 2 ? 63 : 7, 2, 120);
        memset(unit, 120, sizeof unit);
        memset(oam, 120, sizeof oam);
        memcpy(unit + place, m.unit, 16);
        memcpy(oam + place, m.oam, 256);
        memcpy(unit_before, unit, sizeof unit);
        memcpy(oam_before, oam, sizeof oam);
        EXPECT(ppu_search(unit + place, 16, 120, oam + place, 256), looked_answer(64, 0));
        EXPECT_BYTES(unit, unit_before, sizeof unit);
        EXPECT_BYTES(oam, oam_before, sizeof oam);
    }
    part("record and OAM within guard bytes: nothing is seen of them, and not a byte changes");
}

/* REFUSALS. Of every line of 16 bits only 0 to 239 are searched */
static void every_line(void)
{
    renew(&m, 5, 0x18, 100);
    for (unsigned line = 0; line < 65536; line++) {
        at = line;
        EXPECT(search_on(&m, line), line < 240 ? looked_answer(search_by_steps(&m, line).looked, 1) : PPU_BAD_REQUEST);
    }
    part("every line of 16 bits: refused 5 from 240");
}

/* a search with each thing of the set wrong: its line, the record by its length and by its bytes, OAM */
static void together(unsigned set, unsigned line, size_t off, int field)
{
    at = (long)(1000 * set + line);
    renew(&m, 5, 0x18, 100);
    if (set >> MEMORY & 1)
        lend_filled(&m, OAM, 256 + off);
    if (set >> MALFORMED & 1)
        m.unit[field] = 0xFF;
    if (set >> RECORD & 1)
        lend_filled(&m, UNIT, 16 + off);
    copy(&wanted, &m);
    EXPECT(search_on(&m, set >> REQUEST & 1 ? line : line % 240), number_for(set));
    EXPECT_SAME(&m, &wanted);
}

static void order(void)
{
    static const unsigned lines[] = { 240, 241, 255, 256, 261, 262, 495, 32768, 65535 };
    static const int fields[] = { PPU_AT_STATUS, PPU_AT_V + 1, PPU_AT_FINE_X, PPU_AT_NEXT_LINE + 1, PPU_AT_BOARD };
    static const size_t off[] = { 1, (size_t)-1, 256, 65536 };
    for (unsigned set = 1; set < 1u << OUTSIDE; set++)
        for (int i = 0; i < 9; i++)
            for (int k = 0; k < 4; k++)
                together(set, lines[i], off[k], fields[(i + k) % 5]);
    part("every set of things wrong at once: the first in the order 5, 2 for the record, 3, 2 for OAM, the answer its number, and nothing changes");
}

/* THE OTHER CALLS, where a search would look at nine sprites */
static void expect_none_looked(uint64_t given, unsigned level)
{
    EXPECT(ppu_number(given), 0);
    EXPECT(ppu_nmi(given), level);
    EXPECT(ppu_looked(given), 0);
    EXPECT(given >> 18 & 0x3F, 0);
}

static void other_calls(void)
{
    renew(&m, 5, 0, 241);
    memset(m.oam, 120, 256);
    memset(m.page, 120, 256);
    EXPECT(search_on(&m, 120), looked_answer(9, 1));
    for (unsigned port = 0; port < 8; port++) {
        at = port;
        good_record(&m, 0, 241);
        expect_none_looked(write_at(&m, 0x2000 + port, 0xFF), 1);
        expect_none_looked(read_at(&m, 0x2000 + port), port != 2);
    }
    good_record(&m, 0, 241);
    expect_none_looked(sprite_dma(&m), 1);
    for (unsigned line = 0; line < 262; line++) {
        uint8_t log[4] = { 2, 0, 1, 0 };
        at = line;
        for (unsigned reason = PPU_RUN_ALL; reason <= PPU_UNTIL_HIT; reason++) {
            good_record(&m, 0x18, line);
            expect_none_looked(run_lines(&m, 1, reason), line != 261);
        }
        good_record(&m, 0x18, line);
        expect_none_looked(play_log(&m, log, 4), line != 261);
    }
    expect_none_looked(ppu_fresh(m.unit, 16, 9), 0);
    part("no sprites looked at in the answers of the other calls");
}

int main(void)
{
    m = machine();
    wanted = machine();
    figures();
    eighth_places();
    rows();
    other_bytes();
    edges();
    values();
    whole_attributes();
    any_oams();
    runs();
    pictures();
    mask_and_next_line();
    control_and_status();
    any_records();
    guards();
    every_line();
    order();
    other_calls();
    release(&m);
    release(&wanted);
    return verdict("tests/search");
}
