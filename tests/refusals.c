/* Refusals: each number at its edges and only there, their order when several hold, and that a refused call changes nothing.
   Every unit here has bit 7 of control and status set, so that the NMI level 0 of a refusal is not the unit's own. */
#include "machine.h"

/* SEARCH on a line that the address gives; of the runs A_LINE of one line, TO_NMI and TO_HIT of five with that reason, NO_RUN of none with a reason
   that the address gives */
enum { READ, WRITE, DMA, SEARCH, A_LINE, TO_NMI, TO_HIT, NO_RUN, CALLS };

static const int takes[CALLS][BUFFERS] = {
    { UNIT, LEFT, RIGHT, NAMETABLES, OAM, PALETTE, -1 },
    { UNIT, LEFT, RIGHT, NAMETABLES, OAM, PALETTE, -1 },
    { UNIT, OAM, PAGE, -1 },
    { UNIT, OAM, -1 },
    { UNIT, LEFT, RIGHT, NAMETABLES, OAM, PALETTE, LINE, COLOURS, -1 },
    { UNIT, LEFT, RIGHT, NAMETABLES, OAM, PALETTE, LINE, COLOURS, -1 },
    { UNIT, LEFT, RIGHT, NAMETABLES, OAM, PALETTE, LINE, COLOURS, -1 },
    { UNIT, LEFT, RIGHT, NAMETABLES, OAM, PALETTE, LINE, COLOURS, -1 },
};

/* a board with two pages and one with four */
enum { TWO = PPU_VERTICAL + PPU_WRITABLE, FOUR = PPU_FOUR_PAGES + PPU_WRITABLE };

static Machine m, before, whole;

static uint64_t call(int which, unsigned address)
{
    switch (which) {
    case READ:
        return read_at(&m, address);
    case WRITE:
        return write_at(&m, address, 0x3C);
    case DMA:
        return sprite_dma(&m);
    case SEARCH:
        return search_on(&m, address % 240);
    case A_LINE:
        return one_line(&m);
    case NO_RUN:
        return run_lines(&m, 0, address % 3);
    default:
        return run_lines(&m, 5, which == TO_NMI ? PPU_UNTIL_NMI : PPU_UNTIL_HIT);
    }
}

/* a good unit with this board, and scattered memory of its right lengths */
static void restart(unsigned board, unsigned mask, unsigned line)
{
    copy(&m, &whole);
    good_record(&m, mask, line);
    m.unit[PPU_AT_BOARD] = (uint8_t)board;
}

/* what stands in m now is refused with this number, and stays */
static void expect_refused(int which, unsigned address, unsigned number)
{
    copy(&before, &m);
    EXPECT(call(which, address), number);
    EXPECT_SAME(&m, &before);
}

/* before a blank line, a line that is off and one that is drawn */
static void wrong_length(int which, unsigned board, int lent, size_t length)
{
    static const unsigned states[][2] = { { 0, 241 }, { 0, 100 }, { 0x1E, 100 } };
    for (int i = 0; i < 3; i++) {
        at = (long)length;
        restart(board, states[i][0], states[i][1]);
        lend_filled(&m, lent, length);
        copy(&before, &m);
        for (unsigned address = 0x2000; address < 0x2008; address++)
            EXPECT(call(which, address), 2);
        EXPECT_SAME(&m, &before);
    }
}

/* every buffer of a call: one and two bytes either side of its length, the other memories' lengths, and lengths equal modulo 256 and 65536 */
static void lengths_of(int which, unsigned board)
{
    static const size_t others[] = { 0, 1, 16, 32, 256, 512, 1024, 2048, 4096, 8192 };
    for (int i = 0; takes[which][i] >= 0; i++) {
        int lent = takes[which][i];
        size_t right = lent == NAMETABLES ? board == FOUR ? 4096 : 2048 : held[lent];
        for (size_t length = right - 2; length <= right + 2; length++)
            if (length != right)
                wrong_length(which, board, lent, length);
        wrong_length(which, board, lent, right + 256);
        wrong_length(which, board, lent, right + 65536);
        for (size_t k = 0; k < sizeof others / sizeof others[0]; k++)
            if (others[k] != right)
                wrong_length(which, board, lent, others[k]);
    }
}

/* a board's nametable RAM has one length, and what is right for another board is wrong for it */
static void nametable_lengths(void)
{
    static const size_t tried[] = { 0, 1, 1023, 1024, 1025, 2047, 2048, 2049, 3072, 4095, 4096, 4097, 6144, 8192, 67584, 69632 };
    for (unsigned n = 0; n < 10 * 16; n++)
        for (int which = 0; which < CALLS; which++) {
            unsigned board = n / 80 * 8 + n / 16 % 5;
            size_t length = tried[n % 16];
            if (which == DMA || which == SEARCH)
                continue;
            at = (long)(100000 * board + length);
            restart(board, 0, 241);
            lend_filled(&m, NAMETABLES, length);
            if (length == (board % 8 == PPU_FOUR_PAGES ? 4096 : 2048))
                EXPECT(ppu_number(call(which, 0x2007)), 0);
            else
                expect_refused(which, 0x2007, 2);
        }
    part("nametable RAM of ten boards: 4096 bytes for the two with four pages, 2048 for the others, all else refused 2");
    for (size_t length = 0; length < 5000; length++) {
        at = (long)length;
        restart(TWO, 0, 241);
        lend(&m, NAMETABLES, length);
        EXPECT(ppu_number(read_at(&m, 0x2007)), length == 2048 ? 0 : 2);
        restart(FOUR, 0, 241);
        lend(&m, NAMETABLES, length);
        EXPECT(ppu_number(read_at(&m, 0x2007)), length == 4096 ? 0 : 2);
    }
    part("nametable RAM of every length to 4999, read by a board with two pages and one with four");
}

static void lengths(void)
{
    for (int which = 0; which < CALLS; which++) {
        lengths_of(which, TWO);
        lengths_of(which, FOUR);
    }
    part("every buffer of every call with other lengths, at each port, before lines blank, off and drawn: refused 2");
    for (int which = 0; which < CALLS; which++)
        for (int i = 0; takes[which][i] >= 0; i++)
            for (int k = 0; k < i; k++) {
                int high = takes[which][i], low = takes[which][k];
                at = 16 * i + k;
                restart(i % 2 ? TWO : FOUR, 0, 241);
                lend_filled(&m, high, right_length(&m, high) - 1);
                lend_filled(&m, low, right_length(&m, low) + 1);
                expect_refused(which, 0x2002, 2);
            }
    part("two wrong lengths at once: refused 2");
    for (int which = 0; which < CALLS; which++)
        for (size_t length = 255; length <= 257; length++) {
            at = (long)length;
            restart(FOUR, 0, 241);
            lend(&m, OAM, length);
            EXPECT(ppu_number(call(which, 0x2003)), length == 256 ? 0 : 2);
        }
    part("255, 256 and 257 bytes of OAM: only 256 accepted");
}

/* whether a record with this byte there, and otherwise good with next line 0, is well formed */
static int byte_ok(int offset, unsigned byte)
{
    switch (offset) {
    case PPU_AT_STATUS:
        return byte % 32 == 0;
    case PPU_AT_V + 1:
    case PPU_AT_T + 1:
        return byte < 128;
    case PPU_AT_FINE_X:
        return byte < 8;
    case PPU_AT_W:
    case PPU_AT_WARMED_UP:
    case PPU_AT_NEXT_LINE + 1:
        return byte < 2;
    case PPU_AT_BOARD:
        return byte < 5 || (byte >= 8 && byte < 13);
    default:
        return 1;
    }
}

static void bytes_of_a_record(void)
{
    restart(TWO, 0, 0);
    for (int which = 0; which < CALLS; which++)
        for (int offset = 0; offset < 16; offset++)
            for (unsigned byte = 0; byte < 256; byte++) {
                at = 256 * offset + (long)byte;
                good_record(&m, 0, 0);
                m.unit[offset] = (uint8_t)byte;
                if (!byte_ok(offset, byte))
                    expect_refused(which, 0x2000 + byte % 8, 3);
                else if (offset == PPU_AT_MASK)
                    EXPECT(ppu_number(call(which, 0x2000)), 0);
                else
                    EXPECT(ppu_number(call(which, 0x2000 + byte % 8)), 0);
            }
    part("each byte of a record with each value: refused 3 exactly if it is not well formed");
}

static void numbers_of_a_record(void)
{
    static const struct {
        int offset;
        unsigned limit;
    } numbers[] = { { PPU_AT_V, 32768 }, { PPU_AT_T, 32768 }, { PPU_AT_NEXT_LINE, 262 } };
    restart(TWO, 0, 0);
    for (int i = 0; i < 3; i++) {
        for (unsigned n = 0; n < 65536; n++) {
            at = n;
            good_record(&m, 0, 0);
            set_word(m.unit, numbers[i].offset, n);
            EXPECT(ppu_number(read_at(&m, 0x2000)), n < numbers[i].limit ? 0 : 3);
        }
        for (int which = 0; which < CALLS; which++) {
            at = numbers[i].offset;
            good_record(&m, 0, 0);
            set_word(m.unit, numbers[i].offset, numbers[i].limit - 1);
            EXPECT(ppu_number(call(which, 0x2005)), 0);
            good_record(&m, 0, 0);
            set_word(m.unit, numbers[i].offset, numbers[i].limit);
            expect_refused(which, 0x2005, 3);
        }
    }
    part("every v, t and next line of 16 bits: refused 3 from 32768, 32768 and 262");
}

/* a board that is not well formed asks for no length: it is refused whatever is lent of nametable RAM */
static void bad_boards(void)
{
    static const size_t tried[] = { 0, 1024, 2047, 2048, 2049, 4095, 4096, 4097 };
    for (int i = 0; i < 8; i++) {
        restart(TWO, 0, 241);
        lend_filled(&m, NAMETABLES, tried[i]);
        for (unsigned byte = 0; byte < 256; byte++)
            for (int which = 0; which < CALLS && !byte_ok(PPU_AT_BOARD, byte); which++) {
                at = (long)(10000 * byte + tried[i]);
                m.unit[PPU_AT_BOARD] = (uint8_t)byte;
                expect_refused(which, 0x2000 + byte % 8, 3);
            }
    }
    part("board bytes 5 to 7 and from 13 on, with any length of nametable RAM: refused 3");
}

static void addresses(void)
{
    static const unsigned edges[] = { 0, 1, 0x1FF7, 0x1FFE, 0x1FFF, 0x4000, 0x4001, 0x4007, 0x5FFF, 0x6000, 0x8000, 0xA007, 0xFFFF };
    restart(TWO, 0, 241);
    for (unsigned address = 0; address < 65536; address++) {
        unsigned number = address >= 0x2000 && address <= 0x3FFF ? 0 : 1;
        at = address;
        good_record(&m, 0, 241);
        EXPECT(ppu_number(read_at(&m, address)), number);
        good_record(&m, 0, 241);
        EXPECT(ppu_number(write_at(&m, address, 0x3C)), number);
    }
    for (size_t i = 0; i < sizeof edges / sizeof edges[0]; i++) {
        at = edges[i];
        good_record(&m, 0, 241);
        expect_refused(READ, edges[i], 1);
        expect_refused(WRITE, edges[i], 1);
    }
    part("every address: refused 1 exactly outside $2000-$3FFF");
}

/* the number of a read or write of this port by a unit with this mask and next line */
static unsigned number_while(int which, unsigned port, unsigned mask, unsigned line)
{
    int drawing = (mask & 0x18) != 0 && (line <= 239 || line == 261);
    return drawing && (port == 7 || (port == 4 && which == READ)) ? 4 : 0;
}

static void drawing_with(unsigned mask, unsigned line)
{
    for (int which = READ; which <= WRITE; which++)
        for (unsigned port = 0; port < 8; port++) {
            good_record(&m, mask, line);
            EXPECT(ppu_number(call(which, 0x2000 + port)), number_while(which, port, mask, line));
        }
    for (int which = DMA; which < CALLS; which++) {
        good_record(&m, mask, line);
        EXPECT(ppu_number(call(which, 0)), 0);
    }
}

static void drawing(void)
{
    static const unsigned masks[] = { 0x00, 0x08, 0x10, 0x18, 0xE7 }, edges[] = { 0, 239, 240, 241, 260, 261 };
    restart(TWO, 0, 0);
    for (unsigned line = 0; line < 262; line++)
        for (int i = 0; i < 5; i++) {
            at = line;
            drawing_with(masks[i], line);
        }
    for (unsigned mask = 0; mask < 256; mask++)
        for (int i = 0; i < 6; i++) {
            at = mask;
            drawing_with(mask, edges[i]);
        }
    for (int i = 0; i < 6; i++)
        for (unsigned mirror = 0x2000; mirror < 0x4000; mirror += 0x3F8) {
            good_record(&m, 0x1E, edges[i]);
            at = mirror;
            if (edges[i] <= 239 || edges[i] == 261) {
                expect_refused(READ, mirror + 4, 4);
                expect_refused(READ, mirror + 7, 4);
                expect_refused(WRITE, mirror + 7, 4);
            }
        }
    part("every next line and mask, each port: refused 4 exactly while drawing, reads of 4 and 7, writes of 7");
}

/* THE ORDER. Three wrong lengths */
static size_t wrong_way(int lent, unsigned way)
{
    return way == 0 ? right_length(&m, lent) - 1 : way == 1 ? right_length(&m, lent) + 1 : other_length(&m, lent);
}

/* each thing of the set wrong, of a unit with this board: the number is that of the first */
static void together(int which, unsigned set, unsigned board, int lent, int field, unsigned way)
{
    at = (long)(100 * set + way);
    for (unsigned port = which == READ ? 4 : 7; port < 8; port += 3) {
        restart(board, set >> SHUT & 1 ? 0x18 : 0, 100);
        if (set >> MEMORY & 1)
            lend_filled(&m, lent, wrong_way(lent, way));
        if (set >> MALFORMED & 1)
            m.unit[field] = 0xFF;
        if (set >> RECORD & 1)
            lend_filled(&m, UNIT, wrong_way(UNIT, way));
        expect_refused(which, (set >> OUTSIDE & 1 ? 0x4000 : 0x2000) + port, number_for(set));
    }
}

/* with each memory and each field of the record, where these are wrong */
static void each_together(int which, unsigned set, unsigned board)
{
    static const int fields[] = { PPU_AT_STATUS, PPU_AT_V + 1, PPU_AT_T + 1, PPU_AT_FINE_X, PPU_AT_W, PPU_AT_NEXT_LINE + 1,
                                  PPU_AT_WARMED_UP, PPU_AT_BOARD };
    for (int i = 1; takes[which][i] >= 0 && (i == 1 || set >> MEMORY & 1); i++)
        for (int k = 0; k < 8 && (k == 0 || set >> MALFORMED & 1); k++)
            for (unsigned way = 0; way < 3; way++)
                together(which, set, board, takes[which][i], fields[k], way);
}

/* every memory of a call wrong at once */
static void all_memories(int which, unsigned way)
{
    for (unsigned board = TWO; board <= FOUR; board += FOUR - TWO) {
        at = 10 * which + (long)way;
        restart(board, 0x18, 100);
        for (int i = 1; takes[which][i] >= 0; i++)
            lend_filled(&m, takes[which][i], wrong_way(takes[which][i], way));
        expect_refused(which, 0x4007, 2);
        m.unit[PPU_AT_W] = 2;
        expect_refused(which, 0x4007, 3);
        lend_filled(&m, UNIT, wrong_way(UNIT, way));
        expect_refused(which, 0x4007, 2);
    }
}

static void order(void)
{
    for (int which = 0; which < CALLS; which++)
        for (unsigned set = 1u << RECORD; set < (which <= WRITE ? 1u << WRONGS : 1u << OUTSIDE); set += 1u << RECORD) {
            each_together(which, set, TWO);
            each_together(which, set, FOUR);
        }
    part("every set of things wrong at once, in every call: the first in the order 2 for the record, 3, 2 for memory, 1, 4");
    for (int which = 0; which < CALLS; which++)
        for (unsigned way = 0; way < 3; way++)
            all_memories(which, way);
    part("every memory of another length: refused 2, but 3 where the record is not well formed, and 2 where it is not 16 bytes");
}

/* lengths and the record are tested before a line that does not draw, too */
static void blank_lines(void)
{
    static const struct {
        int lent;
        size_t length;
        unsigned number;
    } cases[] = { { LINE, 255, 2 },    { LINE, 257, 2 },    { LEFT, 4097, 2 },       { COLOURS, 511, 2 },
                  { COLOURS, 513, 2 }, { COLOURS, 256, 2 }, { PALETTE, 31, 2 },      { PALETTE, 33, 2 },
                  { LINE, 256, 3 },    { LINE, 255, 3 },    { NAMETABLES, 4095, 2 }, { NAMETABLES, 4095, 3 } };
    for (int i = 0; i < 12; i++) {
        restart(TWO, 0, 0);
        lend_filled(&m, cases[i].lent, cases[i].length);
        for (unsigned line = 0; line < 262; line++)
            for (int which = A_LINE; which < CALLS; which++) {
                at = line;
                good_record(&m, line % 4 * 8, line);
                m.unit[PPU_AT_FINE_X] = cases[i].number == 3 ? 8 : 7;
                expect_refused(which, 0, cases[i].number);
            }
    }
    part("every line and run with each reason, drawn or not: refused with not a byte changed");
}

int main(void)
{
    m = machine();
    before = machine();
    whole = machine();
    scatter(&whole, 7);
    copy(&m, &whole);
    lengths();
    nametable_lengths();
    bytes_of_a_record();
    numbers_of_a_record();
    bad_boards();
    addresses();
    drawing();
    order();
    blank_lines();
    release(&m);
    release(&before);
    release(&whole);
    return verdict("tests/refusals");
}
