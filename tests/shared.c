/* Two units, one cartridge: ppu_shared_read, ppu_shared_write, ppu_shared_dma and ppu_shared_run by document 02's words. What is wanted is reckoned
   by hand, or is what the plain call does with the calling unit's record and memory, but that a run with none of lines 0 to 239 leaves zeros in both
   buffers. Of the other unit nothing may be looked at or changed. */
#include "picture.h"

enum { READ, WRITE, DMA, RUN, CALLS };

typedef struct {
    int kind;
    unsigned address, byte; /* of an access */
    unsigned lines, reason; /* of a run */
} Call;

/* the two units; one unit alone, with all that it is lent */
static Machine m[2], before[2], whole[2], wanted, alone[2];
static const uint8_t zeros[512];
static uint32_t state = 1;

static unsigned any(unsigned limit)
{
    state = state * 1664525u + 1013904223u;
    return (unsigned)(state >> 8) % limit;
}

static uint64_t shared(const Call *c, unsigned which)
{
    switch (c->kind) {
    case READ:
        return shared_read(m, which, c->address);
    case WRITE:
        return shared_write(m, which, c->address, c->byte);
    case DMA:
        return shared_dma(m, which);
    default:
        return shared_run(m, which, c->lines, c->reason);
    }
}

static uint64_t plain(const Call *c, Machine *unit)
{
    switch (c->kind) {
    case READ:
        return read_at(unit, c->address);
    case WRITE:
        return write_at(unit, c->address, c->byte);
    case DMA:
        return sprite_dma(unit);
    default:
        return run_lines(unit, c->lines, c->reason);
    }
}

/* whether one of so many lines from this one on is one of 0 to 239 */
static int shows(unsigned line, unsigned lines)
{
    unsigned i = 0;
    while (i < lines && (line + i) % 262 >= 240)
        i++;
    return i < lines;
}

/* the call by a unit alone: the plain one, and the zeros that it leaves for the other's picture */
static uint64_t as_alone(const Call *c, Machine *unit)
{
    unsigned next = word(unit->unit, PPU_AT_NEXT_LINE);
    uint64_t given = plain(c, unit);
    if (c->kind == RUN && ppu_number(given) == PPU_DONE && !shows(next, ppu_lines(given))) {
        memset(unit->line, 0, 256);
        memset(unit->colours, 0, 512);
    }
    return given;
}

/* where what this unit is lent stands: its own record and memory, and what both share */
static Machine *holder(unsigned which, int lent) { return &m[is_own(lent) ? which : 0]; }

/* all that a unit is lent, or only its own, into another machine */
static void gather(Machine *unit, unsigned which, int own_alone)
{
    for (int i = 0; i < BUFFERS; i++) {
        Machine *from = holder(which, i);
        if (own_alone && !is_own(i))
            continue;
        if (unit->length[i] != from->length[i])
            lend(unit, i, from->length[i]);
        memcpy(*buffer(unit, i), *buffer(from, i), from->length[i]);
    }
    unit->by_board = m[which].by_board;
}

/* that machine has the same */
static void expect_lent(unsigned which, Machine *unit, int own_alone)
{
    for (int i = 0; i < BUFFERS; i++)
        if (is_own(i) || !own_alone)
            expect_bytes(__FILE__, __LINE__, names[i], *buffer(holder(which, i), i), *buffer(unit, i), unit->length[i]);
}

/* A call does what it does for a unit alone, and nothing to the other's record and memory. */
static uint64_t expect_call(const Call *c, unsigned which)
{
    unsigned other = 1 - which;
    gather(&wanted, which, 0);
    gather(&before[other], other, 1);
    uint64_t given = as_alone(c, &wanted);
    EXPECT(shared(c, which), given);
    expect_lent(which, &wanted, 0);
    expect_lent(other, &before[other], 1);
    return given;
}

/* it is refused with this number, and nothing that either unit is lent changes */
static void expect_refused(const Call *c, unsigned which, unsigned number)
{
    gather(&before[0], 0, 0);
    gather(&before[1], 1, 1);
    EXPECT(shared(c, which), number);
    expect_lent(0, &before[0], 0);
    expect_lent(1, &before[1], 1);
}

/* Every field of the two differs. Bit 7 of control and status is set, so that the NMI level 0 of a refusal is neither's own. */
static void set_record(unsigned which, unsigned board, unsigned mask, unsigned line)
{
    static const uint8_t records[2][16] = { { 0x80, 0, 0xA0, 0x11, 0x34, 0x21, 0x56, 0x12, 5, 1, 0x9A, 0x5B, 0, 0, 1, 0 },
                                            { 0xB4, 0, 0xC0, 0xE7, 0xC1, 0x26, 0x2B, 0x6D, 2, 0, 0x63, 0xA4, 0, 0, 1, 0 } };
    memcpy(m[which].unit, records[which], 16);
    m[which].unit[PPU_AT_BOARD] = (uint8_t)board;
    m[which].unit[PPU_AT_MASK] = (uint8_t)mask;
    set_word(m[which].unit, PPU_AT_NEXT_LINE, line);
}

/* two good units with scattered memory; in the buffers stands a picture's line */
static void restart(unsigned board0, unsigned board1, unsigned mask, unsigned line)
{
    for (unsigned which = 0; which < 2; which++) {
        for (int i = 0; i < BUFFERS; i++) {
            if (m[which].length[i] != held[i])
                lend(&m[which], i, held[i]);
            if (is_own(i) || which == 0)
                memcpy(*buffer(&m[which], i), *buffer(&whole[which], i), held[i]);
        }
        m[which].by_board = 1;
        set_record(which, which ? board1 : board0, mask, line);
    }
}

/* THE PLAIN CALLS, by each unit, before lines blank, off, drawn and at the frame's end */
static void calls_by(unsigned which, unsigned board0, unsigned board1)
{
    static const unsigned states[][2] = { { 0x1E, 241 }, { 0xE6, 100 }, { 0x1E, 239 }, { 0x0A, 261 } };
    static const unsigned runs[][2] = { { 0, 0 }, { 1, 0 }, { 2, 2 }, { 3, 1 }, { 24, 0 }, { 1, 3 } };
    for (int i = 0; i < 4 * (8 + 8 + 1 + 6); i++) {
        int n = i / 4;
        Call c = { n < 8 ? READ : n < 16 ? WRITE : n < 17 ? DMA : RUN, 0x2000 + 0x3F8 * any(8) + (unsigned)n % 8, any(256), 0, 0 };
        if (c.kind == RUN) {
            c.lines = runs[n - 17][0];
            c.reason = runs[n - 17][1];
        }
        at = 1000 * (long)(10 * board0 + board1) + i;
        restart(board0, board1, states[i % 4][0], states[i % 4][1]);
        set_word(m[which].unit, PPU_AT_V, any(32768));
        expect_call(&c, which);
    }
}

static void plain_calls(void)
{
    for (unsigned n = 0; n < 25; n++)
        for (unsigned which = 0; which < 2; which++)
            calls_by(which, n % 5, n / 5);
    part("each call by unit 0 and by unit 1, of each two boards: the plain call on its record and memory, and the other's stay");
}

/* THE ORDER OF REFUSALS: 7 before all others, 6 directly after 3 */
enum { NO_UNIT = WRONGS, WRITABLE, ALL_WRONGS };

static unsigned first_number(unsigned set)
{
    static const int order[ALL_WRONGS] = { NO_UNIT, REQUEST, RECORD, MALFORMED, WRITABLE, MEMORY, OUTSIDE, SHUT };
    static const unsigned numbers[ALL_WRONGS] = { 7, 5, 2, 3, 6, 2, 1, 4 };
    int i = 0;
    while (!(set >> order[i] & 1))
        i++;
    return numbers[i];
}

/* what can be wrong with every call; with which others besides; the memory of each */
enum { EVERY = 1 << NO_UNIT | 1 << RECORD | 1 << MALFORMED | 1 << WRITABLE | 1 << MEMORY };
static const unsigned can_be[CALLS] = { EVERY | 1 << OUTSIDE | 1 << SHUT, EVERY | 1 << OUTSIDE | 1 << SHUT, EVERY, EVERY | 1 << REQUEST };
static const int takes[CALLS][BUFFERS] = { { LEFT, RIGHT, NAMETABLES, OAM, PALETTE, -1 },
                                           { LEFT, RIGHT, NAMETABLES, OAM, PALETTE, -1 },
                                           { OAM, PAGE, -1 },
                                           { LEFT, RIGHT, NAMETABLES, OAM, PALETTE, LINE, COLOURS, -1 } };

static size_t wrong_length(const Machine *unit, int lent)
{
    const size_t right = right_length(unit, lent), lengths[] = { right - 1, right + 1, other_length(unit, lent), 0, right + 256 };
    return lengths[any(5)];
}

/* each thing of the set wrong with what this unit is lent: the record last, since it may be cut short */
static void make_wrong(unsigned set, unsigned which, int lent)
{
    static const uint8_t fields[][2] = { { PPU_AT_STATUS, 0x90 }, { PPU_AT_V + 1, 128 },       { PPU_AT_T + 1, 128 },   { PPU_AT_FINE_X, 8 },
                                         { PPU_AT_W, 2 },         { PPU_AT_NEXT_LINE + 1, 2 }, { PPU_AT_WARMED_UP, 2 }, { PPU_AT_BOARD, 13 } };
    unsigned field = any(8);
    if (set >> WRITABLE & 1)
        m[which].unit[PPU_AT_BOARD] |= PPU_WRITABLE;
    if (set >> MEMORY & 1)
        lend_filled(holder(which, lent), lent, wrong_length(&m[which], lent));
    if (set >> MALFORMED & 1)
        m[which].unit[fields[field][0]] = fields[field][1];
    if (set >> RECORD & 1)
        lend_filled(&m[which], UNIT, wrong_length(&m[which], UNIT));
}

/* everything that is a unit's own */
static void make_all_wrong(unsigned which)
{
    make_wrong(1u << MEMORY, which, NAMETABLES);
    make_wrong(1u << MEMORY, which, OAM);
    make_wrong(~0u, which, PALETTE);
}

/* by either unit with two pages or with four, the other one good or with everything wrong */
static void together(int kind, unsigned set, int lent)
{
    static const unsigned lines[2][3] = { { 100, 245, 261 }, { 0, 239, 261 } };
    for (unsigned n = 0; n < 8; n++) {
        unsigned which = n % 2, port = kind == READ && any(2) ? 4 : 7, shut = set >> SHUT & 1;
        Call c = { kind, (set >> OUTSIDE & 1 ? any(2) ? 0x4000 : 0x1FF8 : 0x2000) + port, 0x3C, any(3), any(3) };
        if (set >> REQUEST & 1)
            c.reason = 3 + any(253);
        at = (long)(1000 * set + 10 * (unsigned)kind + n);
        restart(n & 2 ? PPU_FOUR_PAGES : PPU_VERTICAL, n & 2 ? PPU_HORIZONTAL : PPU_FOUR_PAGES, shut ? 0x18 : 0, lines[shut][any(3)]);
        make_wrong(set, which, lent);
        if (n & 4)
            make_all_wrong(1 - which);
        if (set)
            expect_refused(&c, set >> NO_UNIT & 1 ? 2 + any(254) : which, first_number(set));
        else
            EXPECT(ppu_number(shared(&c, which)), PPU_DONE);
    }
}

static void order(void)
{
    for (int kind = 0; kind < CALLS; kind++)
        for (unsigned set = 0; set < 1u << ALL_WRONGS; set++)
            for (int i = 0; !(set & ~can_be[kind]) && takes[kind][i] >= 0 && (i == 0 || set >> MEMORY & 1); i++)
                together(kind, set, takes[kind][i]);
    part("every set of things wrong at once, in each call: the first in the order 7, 5, 2 for the record, 3, 6, 2 for memory, 1, 4; nothing changes");
}

static void unit_numbers(void)
{
    for (unsigned number = 2; number < 256; number++)
        for (int kind = 0; kind < CALLS; kind++) {
            const Call good = { kind, 0x2002, 0, 1, PPU_RUN_ALL }, bad = { kind, 0x4007, 0, 1, 255 };
            at = number;
            restart(number % 5, number / 5 % 5, 0x18, number % 2 ? 100 : 245);
            expect_refused(&good, number, 7);
            make_wrong(1u << MEMORY, 0, takes[kind][number % 2]);
            make_all_wrong(0);
            make_all_wrong(1);
            expect_refused(&bad, number, 7);
        }
    part("every unit number from 2 to 255, with nothing wrong and with everything: refused 7, and nothing changes");
}

/* no board with writable pattern memory, whatever the other one's is */
static void boards(void)
{
    for (unsigned board = 0; board < 256; board++)
        for (int kind = 0; kind < CALLS; kind++)
            for (unsigned which = 0; which < 2; which++) {
                const Call c = { kind, 0x2007, 0x3C, 1, PPU_RUN_ALL };
                unsigned other = any(256);
                at = board;
                restart(which ? other : board, which ? board : other, 0, board % 2 ? 100 : 245);
                if (board < 5)
                    EXPECT(ppu_number(expect_call(&c, which)), PPU_DONE);
                else
                    expect_refused(&c, which, board >= 8 && board <= 12 ? 6 : 3);
            }
    part("each board byte: 0 to 4 done, 8 to 12 refused 6, the others 3, whatever the other unit's is");
}

/* THE OTHER UNIT: one of its memories at this length, and every byte that cannot be in a record */
static void expect_any_length(int lent, size_t length)
{
    for (int n = 0; n < 2 * CALLS; n++) {
        unsigned which = (unsigned)n % 2;
        const Call c = { n / 2, 0x2007, 0x3C, 1, PPU_RUN_ALL };
        at = (long)(10 * length) + n;
        restart(which ? 12 : 1, which ? 4 : 9, 0x1E, c.kind == RUN ? 100 : 245);
        lend_filled(&m[1 - which], lent, length);
        if (lent == UNIT)
            memset(m[1 - which].unit, 0xFF, length);
        EXPECT(ppu_number(expect_call(&c, which)), PPU_DONE);
    }
}

/* every length of nametable RAM, OAM and palette at once, in a read that finds a known byte */
static void expect_every_length(unsigned which)
{
    unsigned other = 1 - which;
    restart(0, 4, 0, 241);
    for (size_t length = 0; length < 5000; length++) {
        at = (long)length;
        lend(&m[other], NAMETABLES, length);
        lend(&m[other], OAM, length % 300);
        lend(&m[other], PALETTE, length % 70);
        m[which].unit[PPU_AT_OAMADDR] = (uint8_t)length;
        m[which].oam[length % 256] = 0x63;
        EXPECT(shared_read(m, which, 0x2004), answer(0x63, 1, 0));
    }
}

static void other_unit(void)
{
    static const int own[] = { NAMETABLES, OAM, PALETTE };
    static const size_t tried[] = { 0, 1, 31, 32, 33, 255, 256, 257, 2047, 2048, 2049, 4095, 4096, 4097, 5000 };
    for (size_t length = 0; length <= 40; length++)
        expect_any_length(UNIT, length);
    part("the other unit's record of each length from 0 to 40, every byte $FF: the same, and it stays");
    for (int i = 0; i < 3 * 15; i++)
        expect_any_length(own[i % 3], tried[i / 3]);
    expect_every_length(0);
    expect_every_length(1);
    part("the other unit's memory of any length, nametable RAM of every length to 4999: the same, and it stays");
    for (unsigned n = 0; n < 16 * 2 * CALLS; n++) {
        const Call c = { (int)(n / 2 % CALLS), 0x2002, 0x3C, 1, PPU_RUN_ALL };
        at = n;
        restart(3, 4, 0x1E, 100);
        m[1 - n % 2].unit[n / 8] = 0xFF;
        EXPECT(ppu_number(expect_call(&c, n % 2)), PPU_DONE);
    }
    part("each byte of the other unit's record $FF: the same, and it stays");
}

/* RUNS WITH NONE OF LINES 0 TO 239. The lines from p to the end of line 241 */
static unsigned to_vblank(unsigned p) { return (241 + 262 - p) % 262 + 1; }

/* where a run that nothing hits stops */
static unsigned stop_after(unsigned control, unsigned p, unsigned n, unsigned reason)
{
    return reason == PPU_UNTIL_NMI && control >= 128 && to_vblank(p) < n ? to_vblank(p) : n;
}

/* palette cell 0 is not 0, and a picture stands in the buffers: zeros in both afterwards, and the count and met by hand */
static void expect_zeros(unsigned which, unsigned p, unsigned n, unsigned reason)
{
    Call run = { RUN, 0, 0, n, reason };
    unsigned control = any(2) ? 0x80 : 0x7F, ran = stop_after(control, p, n, reason);
    restart(any(5), any(5), any(2) ? 0x1E : 0, p);
    m[which].unit[PPU_AT_CONTROL] = (uint8_t)control;
    if (p % 2) /* backdrop override */
        set_word(m[which].unit, PPU_AT_V, 0x3F01);
    uint64_t given = expect_call(&run, which);
    EXPECT(ppu_number(given), PPU_DONE);
    EXPECT(ppu_lines(given), ran);
    EXPECT(ppu_met(given), reason == PPU_UNTIL_NMI && control >= 128 && n >= to_vblank(p));
    EXPECT(word(m[which].unit, PPU_AT_NEXT_LINE), (p + ran) % 262);
    EXPECT_BYTES(m[0].line, zeros, 256);
    EXPECT_BYTES(m[0].colours, zeros, 512);
}

static void no_picture(void)
{
    EXPECT(memcmp(whole[0].line, zeros, 256) != 0, 1);
    for (unsigned p = 240; p < 262; p++)
        for (unsigned n = 0; n <= 262 - p; n++)
            for (unsigned i = 0; i < 6; i++) {
                at = (long)(1000 * p + 10 * n + i);
                expect_zeros(i % 2, p, n, i / 2);
            }
    part("from every line 240 to 261, with n from 0 up to where line 0 is reached, each reason: zeros in both buffers");
    for (unsigned p = 0; p < 262; p++)
        for (unsigned i = 0; i < 6; i++) {
            at = p;
            expect_zeros(i % 2, p, 0, i / 2);
        }
    part("n = 0 from every line, each reason: zeros in both buffers");
    for (unsigned n = 0; n < 2 * 2 * 3; n++) { /* stopped by NMI before line 0 */
        static const unsigned most[] = { 262, 285, 65535 };
        const Call run = { RUN, 0, 0, most[n / 4], PPU_UNTIL_NMI };
        at = n;
        restart(1, 2, 0x1E, 240 + n / 2 % 2);
        EXPECT(expect_call(&run, n % 2), run_answer(1, 1, 2 - n / 2 % 2));
        EXPECT_BYTES(m[0].line, zeros, 256);
        EXPECT_BYTES(m[0].colours, zeros, 512);
    }
    part("stopped by NMI before line 0, n up to 65535: zeros in both buffers");
}

/* line 0 at the end of a run, or lines to 239 at its beginning: with the picture off all pixels are 0, and show cell 0 of the unit's own palette */
static void one_picture_line(void)
{
    static const unsigned backdrop[2] = { 0x2D, 0x16 };
    for (unsigned p = 238; p < 262; p++)
        for (unsigned which = 0; which < 2; which++) {
            at = p;
            restart(0, 4, 0, p);
            EXPECT(ppu_lines(shared_run(m, which, p < 240 ? 10 : 263 - p, PPU_RUN_ALL)), p < 240 ? 10 : 263 - p);
            EXPECT_BYTES(m[0].line, zeros, 256);
            for (unsigned x = 0; x < 256; x++)
                EXPECT(ppu_colour(m[0].colours, x), backdrop[which]);
        }
    part("a run with line 0 or line 239 in it: that line's colours, of the unit's own palette");
    for (unsigned p = 230; p < 262; p++)
        for (unsigned which = 0; which < 2; which++) {
            const Call run = { RUN, 0, 0, p < 240 ? 1 + any(40) : 263 - p + any(3), PPU_RUN_ALL };
            at = p;
            restart(2, 4, 0x1E, p);
            EXPECT(ppu_number(expect_call(&run, which)), PPU_DONE);
            EXPECT(memcmp(m[0].line, zeros, 256) != 0, 1);
        }
    part("the same while drawing: the last of lines 0 to 239, as the plain run leaves it");
}

/* PORT 7. Below $2000 nothing is stored, and v rises: by 1, or by 32 */
static void expect_dropped(unsigned which)
{
    restart(PPU_VERTICAL, PPU_FOUR_PAGES, 0, 241);
    gather(&before[0], 0, 0);
    gather(&before[1], 1, 0);
    for (unsigned a = 0; a < 0x2000; a++) {
        unsigned v = a + (a % 3 ? 0 : 0x4000), step = a % 2 ? 32 : 1, there = a < 0x1000 ? m[0].left[a] : m[0].right[a - 0x1000];
        at = v;
        m[which].unit[PPU_AT_CONTROL] = step == 32 ? 0x04 : 0;
        set_word(m[which].unit, PPU_AT_V, v);
        EXPECT(shared_write(m, which, 0x2007, 255 - there), 0);
        EXPECT(word(m[which].unit, PPU_AT_V), v + step);
        EXPECT(a < 0x1000 ? m[0].left[a] : m[0].right[a - 0x1000], there);
    }
    memcpy(before[which].unit, m[which].unit, 16);
    expect_lent(which, &before[which], 0);
    expect_lent(1 - which, &before[1 - which], 0);
}

/* by document 01 $2C05 is cell 1029 under wiring 1; on four pages it is cell 3077; $3F14 is cell 4, and six bits are stored */
static void port_7(void)
{
    static const unsigned cells[2] = { 1029, 3077 };
    expect_dropped(0);
    expect_dropped(1);
    part("writes of port 7 at every v below $2000: nothing is stored, and v rises");
    for (unsigned which = 0; which < 2; which++) {
        restart(PPU_VERTICAL, PPU_FOUR_PAGES, 0, 241);
        gather(&before[0], 0, 0);
        gather(&before[1], 1, 0);
        set_word(m[which].unit, PPU_AT_V, 0x2C05);
        EXPECT(shared_write(m, which, 0x2007, 0xB7), answer(0, 1, 0));
        set_word(m[which].unit, PPU_AT_V, 0x3F14);
        EXPECT(shared_write(m, which, 0x3FFF, 0xE9), answer(0, 1, 0));
        EXPECT(shared_write(m, which, 0x2004, 0x5C), answer(0, 1, 0));
        before[which].nametables[cells[which]] = 0xB7;
        before[which].palette[4] = 0x29;
        before[which].oam[which ? 0xE7 : 0x11] = 0x5C;
        memcpy(before[which].unit, m[which].unit, 16);
        expect_lent(which, &before[which], 0);
        expect_lent(1 - which, &before[1 - which], 1);
    }
    part("what ports 4 and 7 store goes into the unit's own memory");
}

/* REASONS TO STOP. NMI goes by the calling unit's control alone */
static void until_nmi(void)
{
    static const unsigned from[] = { 0, 1, 120, 239, 240, 241, 242, 243, 260, 261 };
    for (unsigned n = 0; n < 10 * 3 * 2 * 2; n++) {
        unsigned p = from[n / 12], k = to_vblank(p), most = k - 1 + n / 4 % 3, which = n % 2, on = n / 2 % 2;
        const Call run = { RUN, 0, 0, most, PPU_UNTIL_NMI };
        at = (long)(1000 * p + most);
        restart(n % 5, n / 5 % 5, 0, p);
        m[which].unit[PPU_AT_CONTROL] = on ? 0x80 : 0x7F;
        m[1 - which].unit[PPU_AT_CONTROL] = on ? 0x7F : 0x80;
        uint64_t given = expect_call(&run, which);
        EXPECT(ppu_lines(given), on && k < most ? k : most);
        EXPECT(ppu_met(given), on && k <= most);
        EXPECT(word(m[which].unit, PPU_AT_NEXT_LINE), (p + ppu_lines(given)) % 262);
    }
    part("until NMI: count and met by the formula, with n one less, just enough and more; the other unit's control plays no part");
}

/* Everything is opaque. Unit 0's sprite 0 covers lines 30 to 37, unit 1's 100 to 107; both begin at line 0. */
static void until_hit(void)
{
    static const unsigned hits[2] = { 30, 100 };
    for (unsigned order = 0; order < 2; order++) {
        restart(PPU_HORIZONTAL, PPU_FOUR_PAGES, 0x1E, 0);
        memset(m[0].left, 0xFF, 4096);
        memset(m[0].right, 0xFF, 4096);
        for (unsigned which = 0; which < 2; which++) {
            no_sprites(&m[which]);
            set_sprite(&m[which], 0, hits[which] - 1, 0x40, 0, 60);
            m[which].unit[PPU_AT_CONTROL] = 0x80;
            m[which].unit[PPU_AT_STATUS] = 0;
        }
        for (unsigned n = 0; n < 8; n++) { /* by the one, then by the other: one line too few, the hit; a frame later the same */
            unsigned which = (n + order) % 2, hit = hits[which];
            const unsigned most[] = { hit, 262, 261, 1 }, wanted_lines[] = { hit, 1, 261, 1 };
            const Call run = { RUN, 0, 0, most[n / 2], PPU_UNTIL_HIT };
            at = (long)(10 * order + n);
            EXPECT(expect_call(&run, which), run_answer(n / 2 % 2, 0, wanted_lines[n / 2]));
            EXPECT(m[which].unit[PPU_AT_STATUS] & 0x40, n / 2 % 2 ? 0x40 : 0);
            EXPECT(word(m[which].unit, PPU_AT_NEXT_LINE), n / 2 % 2 ? hit + 1 : hit);
        }
    }
    part("until a hit: unit 0's on line 30 and unit 1's on line 100, the one between the other's runs, and a frame later again");
}

/* TWO PICTURES. Line by line, by the one and the other: the background that each has there, in colours of its own palette */
static void expect_backgrounds(unsigned board0, unsigned board1)
{
    static const unsigned scroll[2][2] = { { 100, 70 }, { 300, 250 } };
    restart(board0, board1, 0x0A, 0);
    store_tiles(&m[0]);
    m[1].unit[PPU_AT_CONTROL] = 0x90; /* the right table, the other one the left */
    for (unsigned which = 0; which < 2; which++)
        set_line(&m[which], 0, scroll[which][0], scroll[which][1]);
    for (unsigned n = 0; n < 2 * 240; n++) {
        unsigned which = n % 2, line = n / 2;
        at = n;
        for (unsigned x = 0; x < 256; x++)
            wanted.line[x] = (uint8_t)background_at(&m[which], scroll[which][0] + x, scroll[which][1] + line);
        colour_line(&wanted, &m[which]);
        EXPECT(shared_run(m, which, 1, PPU_RUN_ALL), answer(0, 0, 1));
        EXPECT_BYTES(m[0].line, wanted.line, 256);
        EXPECT_BYTES(m[0].colours, wanted.colours, 512);
    }
}

/* both buffers, and the records and memory of the two, are those of each unit alone; `last` is the one whose run was answered last */
static void expect_both(unsigned last)
{
    EXPECT_BYTES(m[0].line, alone[last].line, 256);
    EXPECT_BYTES(m[0].colours, alone[last].colours, 512);
    expect_lent(0, &alone[0], 1);
    expect_lent(1, &alone[1], 1);
}

/* a frame of each, scattered sprites too, a line now by the one and now by the other */
static void expect_frames(unsigned board0, unsigned board1)
{
    unsigned ran[2] = { 0, 0 }, sprites[2] = { 0, 0 };
    restart(board0, board1, 0x1E, 0);
    set_word(m[1].unit, PPU_AT_NEXT_LINE, 131);
    for (unsigned which = 0; which < 2; which++)
        gather(&alone[which], which, 0);
    while (ran[0] + ran[1] < 2 * 262) {
        unsigned which = ran[0] == 262 ? 1 : ran[1] == 262 ? 0 : any(2);
        const Call line = { RUN, 0, 0, 1, PPU_RUN_ALL };
        at = (long)(1000 * which + ran[which]++);
        EXPECT(shared(&line, which), as_alone(&line, &alone[which]));
        expect_both(which);
        for (int x = 0; x < 256; x++)
            sprites[which] += m[0].line[x] >= 16;
    }
    EXPECT(sprites[0] > 1000 && sprites[1] > 1000, 1);
}

static void two_pictures(void)
{
    static const unsigned two[][2] = { { 1, 4 }, { 4, 0 }, { 2, 3 } };
    scatter_tiles(5);
    for (int i = 0; i < 3; i++)
        expect_backgrounds(two[i][0], two[i][1]);
    part("two scrolled pictures, line by line in turn: each line the background that is there, in colours of the unit's own palette");
    for (int i = 0; i < 3; i++)
        expect_frames(two[i][1], two[i][0]);
    part("two frames with sprites, their lines in any order: each line, record and memory that of the unit alone");
}

/* SESSIONS. A call of any kind, now and then one that is refused */
static Call any_call(void)
{
    Call c = { (int)any(CALLS), any(16) ? 0x2000 + any(0x2000) : any(65536), any(256), any(4), any(16) ? any(3) : 3 + any(253) };
    if (c.address % 8 == 1)
        c.byte = any(4) ? c.byte | 0x18 : c.byte & 0xE7;
    if (any(10) == 0)
        c.lines = any(40);
    return c;
}

/* a page of sprites that stand close together */
static void any_page(uint8_t *page)
{
    for (int i = 0; i < 256; i++)
        page[i] = (uint8_t)any(i % 4 ? 256 : 240);
}

static unsigned long answers[2][9];

/* calls of both units in any order: each unit's are as if the other's had not been made */
static void session(unsigned board0, unsigned board1, int calls)
{
    unsigned last = 0;
    restart(board0, board1, 0x18, 0);
    for (unsigned which = 0; which < 2; which++) {
        set_word(m[which].unit, PPU_AT_NEXT_LINE, any(2) ? any(262) : 235 + any(27));
        gather(&alone[which], which, 0);
    }
    for (int i = 0; i < calls; i++) {
        unsigned which = any(2);
        Call c = any_call();
        at = 1000 * (long)(10 * board0 + board1) + i;
        any_page(m[0].page);
        memcpy(alone[which].page, m[0].page, 256);
        uint64_t given = as_alone(&c, &alone[which]);
        EXPECT(shared(&c, which), given);
        answers[which][ppu_number(given)]++;
        last = c.kind == RUN && ppu_number(given) == PPU_DONE ? which : last;
        expect_both(last);
    }
    EXPECT_BYTES(m[0].left, whole[0].left, 4096);
    EXPECT_BYTES(m[0].right, whole[0].right, 4096);
}

static void sessions(void)
{
    for (unsigned n = 0; n < 25; n++)
        session(n % 5, n / 5, 120);
    for (unsigned which = 0; which < 2; which++)
        for (unsigned number = 0; number < 9; number++) {
            at = 10 * which + number;
            EXPECT(answers[which][number] > 0, number == 0 || number == 1 || number == 4 || number == 5);
        }
    part("sessions of both units on each two boards: answers, records, memory and buffers as if the other's calls were not made");
}

/* THE RELOAD, of unit 0 with calls of unit 1 between its own. Two logs of five lines without a data write, from before line 241 */
static const Call logs[2][9] = {
    { { WRITE, 0x2000, 0x84, 0, 0 },
      { READ, 0x2007, 0, 0, 0 },
      { WRITE, 0x2006, 0x3F, 0, 0 },
      { RUN, 0, 0, 2, PPU_RUN_ALL },
      { READ, 0x2002, 0, 0, 0 },
      { WRITE, 0x4000, 1, 0, 0 }, /* refused */
      { WRITE, 0x2005, 7, 0, 0 },
      { RUN, 0, 0, 3, PPU_UNTIL_HIT },
      { READ, 0x2004, 0, 0, 0 } },
    { { RUN, 0, 0, 262, PPU_UNTIL_NMI }, /* one line */
      { WRITE, 0x2003, 9, 0, 0 },
      { WRITE, 0x2001, 0xFF, 0, 0 },
      { READ, 0x3FFF, 0, 0, 0 },
      { READ, 0x2007, 0, 0, 0 },
      { RUN, 0, 0, 4, PPU_RUN_ALL },
      { RUN, 0, 0, 1, 3 }, /* refused */
      { WRITE, 0x2006, 1, 0, 0 },
      { WRITE, 0x2005, 0xEE, 0, 0 } },
};

/* port 6 leads to $2108; port 5's bytes are those of document 01, after which t is 24943 and x 5 */
static const Call reload[9] = { { READ, 0x2002, 0, 0, 0 },     { WRITE, 0x2000, 0x90, 0, 0 }, { WRITE, 0x2001, 0x1E, 0, 0 },
                                { WRITE, 0x2003, 0x40, 0, 0 }, { WRITE, 0x2006, 0x21, 0, 0 }, { WRITE, 0x2006, 0x08, 0, 0 },
                                { READ, 0x2007, 0, 0, 0 },     { WRITE, 0x2005, 125, 0, 0 },  { WRITE, 0x2005, 94, 0, 0 } };

/* what is seen of unit 0 after each of its calls behind the reload */
static struct {
    uint64_t answer;
    uint8_t unit[16], line[256], colours[512];
} seen[2][40];

static void play_with_others(const Call *log, int calls)
{
    for (int i = 0; i < calls; i++) {
        shared(&log[i], 0);
        for (unsigned n = any(4); n > 0; n--) {
            Call c = any_call();
            any_page(m[0].page);
            shared(&c, 1);
        }
    }
}

/* one side: a log, the reload, then lines up to the picture and within it */
static void play_side(int side)
{
    restart(PPU_VERTICAL, PPU_FOUR_PAGES, 0, 241);
    play_with_others(logs[side], 9);
    EXPECT(word(m[0].unit, PPU_AT_NEXT_LINE), 246);
    play_with_others(reload, 9);
    const uint8_t record[16] = { 0x90, 0x1E, 0x20, 0x40, 0x09, 0x21, 0x6F, 0x61, 5, 0, whole[0].nametables[0x108], 94, 246, 0, 1, PPU_VERTICAL };
    EXPECT_BYTES(m[0].unit, record, 16);
    for (int i = 0; i < 40; i++) {
        const Call line = { RUN, 0, 0, 1, PPU_RUN_ALL };
        seen[side][i].answer = shared(&line, 0);
        memcpy(seen[side][i].unit, m[0].unit, 16);
        memcpy(seen[side][i].line, m[0].line, 256);
        memcpy(seen[side][i].colours, m[0].colours, 512);
        play_with_others(reload, 1); /* a read of port 2, then the other's */
    }
}

static void reloads(void)
{
    for (int round = 0; round < 4; round++) {
        play_side(0);
        play_side(1);
        for (int i = 0; i < 40; i++) {
            at = i;
            EXPECT(seen[0][i].answer, answer(0, 0, 1));
            EXPECT(seen[1][i].answer, seen[0][i].answer);
            EXPECT_BYTES(seen[1][i].unit, seen[0][i].unit, 16);
            EXPECT_BYTES(seen[1][i].line, seen[0][i].line, 256);
            EXPECT_BYTES(seen[1][i].colours, seen[0][i].colours, 512);
            EXPECT(memcmp(seen[0][i].line, zeros, 256) != 0, i > 15);
        }
    }
    part("the reload of unit 0 after two logs, with calls of unit 1 between all of its own: the same unit, and the same lines");
}

/* scattered memory, backdrops by hand, and a picture's line in the buffers */
static void prepare(void)
{
    for (unsigned which = 0; which < 2; which++) {
        m[which] = machine();
        before[which] = machine();
        whole[which] = machine();
        alone[which] = machine();
        scatter(&whole[which], 7 + which);
        whole[which].palette[0] = which ? 0x16 : 0x2D;
    }
    wanted = machine();
    restart(PPU_VERTICAL, PPU_FOUR_PAGES, 0x1E, 100);
    EXPECT(ppu_number(shared_run(m, 1, 1, PPU_RUN_ALL)), PPU_DONE);
    memcpy(whole[0].line, m[0].line, 256);
    memcpy(whole[0].colours, m[0].colours, 512);
}

int main(void)
{
    prepare();
    plain_calls();
    order();
    unit_numbers();
    boards();
    other_unit();
    no_picture();
    one_picture_line();
    port_7();
    until_nmi();
    until_hit();
    two_pictures();
    sessions();
    reloads();
    for (unsigned which = 0; which < 2; which++) {
        release(&m[which]);
        release(&before[which]);
        release(&whole[which]);
        release(&alone[which]);
    }
    release(&wanted);
    return verdict("tests/shared");
}
