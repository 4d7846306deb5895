/* A unit with the memory lent to it. Each buffer stands on the heap by itself with exactly its length, so that valgrind or the address
   sanitizer sees a byte touched outside. Nametable RAM alone may be longer than what is lent of it: it has four pages, so that any board can be
   played, and a call is lent the board's. A test works on two: the one that calls change, and the one that says what is wanted. */
#ifndef MACHINE_H
#define MACHINE_H

#include <stdlib.h>
#include "check.h"
#include "ppu.h"

enum { UNIT, LEFT, RIGHT, NAMETABLES, OAM, PALETTE, PAGE, LINE, COLOURS, BUFFERS };

/* what a machine holds; right_length says what a call asks for */
static const size_t held[BUFFERS] = { 16, 4096, 4096, PPU_FOUR_PAGES_LENGTH, 256, 32, 256, 256, 512 };
static const char *const names[BUFFERS] = { "record", "left", "right", "nametables", "oam", "palette", "page", "line", "colours" };

typedef struct {
    uint8_t *unit, *left, *right, *nametables, *oam, *palette, *page, *line, *colours;
    size_t length[BUFFERS];
    int by_board; /* of nametable RAM the board's length is lent; else all that there is */
} Machine;

static inline uint8_t **buffer(Machine *m, int which)
{
    uint8_t **all[BUFFERS] = { &m->unit, &m->left, &m->right, &m->nametables, &m->oam, &m->palette, &m->page, &m->line, &m->colours };
    return all[which];
}

/* a buffer of this length, lent whole, in place of the one that is there */
static inline void lend(Machine *m, int which, size_t length)
{
    uint8_t **bytes = buffer(m, which);
    free(*bytes);
    *bytes = calloc(length ? length : 1, 1);
    if (!*bytes)
        exit(2);
    m->length[which] = length;
    if (which == NAMETABLES)
        m->by_board = 0;
}

/* the same, filled; a record keeps as many of its bytes as there is room for */
static inline void lend_filled(Machine *m, int which, size_t length)
{
    uint8_t record[16];
    memcpy(record, m->unit, 16);
    lend(m, which, length);
    memset(*buffer(m, which), 0x2D, length);
    if (which == UNIT)
        memcpy(m->unit, record, length < 16 ? length : 16);
}

/* every buffer of its right length again */
static inline void lend_right(Machine *m)
{
    for (int i = 0; i < BUFFERS; i++)
        if (m->length[i] != held[i])
            lend(m, i, held[i]);
    m->by_board = 1;
}

/* the length that a call asks for: of nametable RAM the one that the unit's board has */
static inline size_t right_length(const Machine *m, int which)
{
    return which == NAMETABLES ? ppu_nametable_length(m->unit[PPU_AT_BOARD]) : held[which];
}

/* a wrong one: of nametable RAM what a board of the other kind has, else half */
static inline size_t other_length(const Machine *m, int which)
{
    size_t right = right_length(m, which);
    return which == NAMETABLES ? PPU_NAMETABLE_LENGTH + PPU_FOUR_PAGES_LENGTH - right : right / 2;
}

/* how much of nametable RAM is lent; a record that is cut short has no board */
static inline size_t nametables_lent(const Machine *m)
{
    return m->by_board && m->length[UNIT] > PPU_AT_BOARD ? right_length(m, NAMETABLES) : m->length[NAMETABLES];
}

/* all zero */
static inline Machine machine(void)
{
    Machine m = { 0 };
    lend_right(&m);
    return m;
}

static inline void release(Machine *m)
{
    for (int i = 0; i < BUFFERS; i++)
        free(*buffer(m, i));
}

/* bytes that follow no rule of the unit, in every buffer but the record */
static inline void scatter(Machine *m, unsigned seed)
{
    unsigned n = seed;
    for (int i = LEFT; i < BUFFERS; i++)
        for (size_t k = 0; k < m->length[i]; k++) {
            n = (n * 75 + 74) % 65537;
            (*buffer(m, i))[k] = (uint8_t)(n >> 4);
        }
}

static inline void copy(Machine *to, Machine *from)
{
    for (int i = 0; i < BUFFERS; i++) {
        if (to->length[i] != from->length[i])
            lend(to, i, from->length[i]);
        memcpy(*buffer(to, i), *buffer(from, i), from->length[i]);
    }
    to->by_board = from->by_board;
}

static inline void expect_same(const char *file, int line, Machine *got, Machine *wanted)
{
    for (int i = 0; i < BUFFERS; i++)
        expect_bytes(file, line, names[i], *buffer(got, i), *buffer(wanted, i), wanted->length[i]);
}

/* every byte of the record and of all memory */
#define EXPECT_SAME(got, wanted) expect_same(__FILE__, __LINE__, (got), (wanted))

/* the page of nametable RAM that a quarter shows under a board's wiring */
static inline unsigned page_of(unsigned board, unsigned quarter)
{
    static const uint8_t pages[5][4] = { { 0, 0, 1, 1 }, { 0, 1, 0, 1 }, { 0, 0, 0, 0 }, { 1, 1, 1, 1 }, { 0, 1, 2, 3 } };
    return pages[board % 8][quarter];
}

/* a record's two-byte numbers */
static inline unsigned word(const uint8_t *record, int offset) { return record[offset] + 256u * record[offset + 1]; }

static inline void set_word(uint8_t *record, int offset, unsigned number)
{
    record[offset] = (uint8_t)(number % 256);
    record[offset + 1] = (uint8_t)(number / 256);
}

/* a good record, warmed up, with bit 7 of control and status set, so that the NMI level 0 of a refusal is not the unit's own; each is of the next of
   seven boards, with two pages and with four */
static inline void good_record(Machine *m, unsigned mask, unsigned line)
{
    static const uint8_t record[16] = { 0x80, 0, 0xA0, 0x11, 0x34, 0x21, 0x56, 0x12, 5, 1, 0x9A, 0x5B, 0, 0, 1, 0 };
    static const uint8_t boards[7] = { 9, 12, 0, 4, 10, 12, 3 };
    static unsigned made;
    memcpy(m->unit, record, 16);
    m->unit[PPU_AT_BOARD] = boards[made++ % 7];
    m->unit[PPU_AT_MASK] = (uint8_t)mask;
    set_word(m->unit, PPU_AT_NEXT_LINE, line);
}

/* the same with all memory of its right length, scattered */
static inline void renew(Machine *m, unsigned seed, unsigned mask, unsigned line)
{
    lend_right(m);
    scatter(m, seed);
    good_record(m, mask, line);
}

/* THE ORDER OF REFUSALS, 5, 2 for the record, 3, 2 for memory, 1, 4: what can be wrong with a call, as bits of a set. Only some calls have a request
   that can be, and only an access has an address and a port. */
enum { REQUEST, RECORD, MALFORMED, MEMORY, OUTSIDE, SHUT, WRONGS };

/* the number of a call with these things wrong: that of the first */
static inline unsigned number_for(unsigned set)
{
    static const unsigned numbers[WRONGS] = { PPU_BAD_REQUEST, PPU_BAD_LENGTH, PPU_BAD_UNIT, PPU_BAD_LENGTH, PPU_BAD_ADDRESS, PPU_DRAWING };
    int first = 0;
    while (!(set >> first & 1))
        first++;
    return numbers[first];
}

/* the whole answer of a call that is done; a refused call's is its number alone */
static inline uint64_t answer(unsigned byte, unsigned nmi, unsigned lines)
{
    return (uint64_t)byte << 8 | (uint64_t)nmi << 16 | (uint64_t)lines << 32;
}

/* that of a run: whether its reason was met, the NMI level and the lines run */
static inline uint64_t run_answer(unsigned met, unsigned nmi, unsigned lines) { return answer(0, nmi, lines) | (uint64_t)met << 17; }

/* that of a search: the sprites it looked at */
static inline uint64_t looked_answer(unsigned looked, unsigned nmi) { return (uint64_t)looked << 24 | (uint64_t)nmi << 16; }

static inline uint64_t read_at(Machine *m, unsigned address)
{
    return ppu_read(m->unit, m->length[UNIT], (uint16_t)address, m->left, m->length[LEFT], m->right, m->length[RIGHT], m->nametables,
                    nametables_lent(m), m->oam, m->length[OAM], m->palette, m->length[PALETTE]);
}

static inline uint64_t write_at(Machine *m, unsigned address, unsigned byte)
{
    return ppu_write(m->unit, m->length[UNIT], (uint16_t)address, (uint8_t)byte, m->left, m->length[LEFT], m->right, m->length[RIGHT],
                     m->nametables, nametables_lent(m), m->oam, m->length[OAM], m->palette, m->length[PALETTE]);
}

static inline uint64_t sprite_dma(Machine *m)
{
    return ppu_dma(m->unit, m->length[UNIT], m->oam, m->length[OAM], m->page, m->length[PAGE]);
}

static inline uint64_t search_on(Machine *m, unsigned line)
{
    return ppu_search(m->unit, m->length[UNIT], (uint16_t)line, m->oam, m->length[OAM]);
}

static inline uint64_t run_lines(Machine *m, unsigned most, unsigned reason)
{
    return ppu_run(m->unit, m->length[UNIT], (uint16_t)most, (uint8_t)reason, m->left, m->length[LEFT], m->right, m->length[RIGHT],
                   m->nametables, nametables_lent(m), m->oam, m->length[OAM], m->palette, m->length[PALETTE], m->line, m->length[LINE],
                   m->colours, m->length[COLOURS]);
}

/* the next line alone, with no reason to stop */
static inline uint64_t one_line(Machine *m) { return run_lines(m, 1, PPU_RUN_ALL); }

static inline uint64_t play_log(Machine *m, const uint8_t *log, size_t length)
{
    return ppu_play(m->unit, m->length[UNIT], log, length, m->left, m->length[LEFT], m->right, m->length[RIGHT], m->nametables,
                    nametables_lent(m), m->oam, m->length[OAM], m->palette, m->length[PALETTE], m->line, m->length[LINE], m->colours,
                    m->length[COLOURS]);
}

/* TWO UNITS, ONE CARTRIDGE, as two machines. Record, nametable RAM, OAM and palette are each one's own; the pattern tables, the page and both
   buffers of a line are the first one's, for either unit, and what the second has of these is never lent. */
static inline int is_own(int which) { return which == UNIT || which == NAMETABLES || which == OAM || which == PALETTE; }

static inline uint64_t shared_read(Machine *two, unsigned which, unsigned address)
{
    Machine *a = two, *b = two + 1;
    return ppu_shared_read((uint8_t)which, a->unit, a->length[UNIT], b->unit, b->length[UNIT], (uint16_t)address, a->left, a->length[LEFT],
                           a->right, a->length[RIGHT], a->nametables, nametables_lent(a), b->nametables, nametables_lent(b), a->oam,
                           a->length[OAM], b->oam, b->length[OAM], a->palette, a->length[PALETTE], b->palette, b->length[PALETTE]);
}

static inline uint64_t shared_write(Machine *two, unsigned which, unsigned address, unsigned byte)
{
    Machine *a = two, *b = two + 1;
    return ppu_shared_write((uint8_t)which, a->unit, a->length[UNIT], b->unit, b->length[UNIT], (uint16_t)address, (uint8_t)byte, a->left,
                            a->length[LEFT], a->right, a->length[RIGHT], a->nametables, nametables_lent(a), b->nametables,
                            nametables_lent(b), a->oam, a->length[OAM], b->oam, b->length[OAM], a->palette, a->length[PALETTE], b->palette,
                            b->length[PALETTE]);
}

static inline uint64_t shared_dma(Machine *two, unsigned which)
{
    Machine *a = two, *b = two + 1;
    return ppu_shared_dma((uint8_t)which, a->unit, a->length[UNIT], b->unit, b->length[UNIT], a->oam, a->length[OAM], b->oam,
                          b->length[OAM], a->page, a->length[PAGE]);
}

static inline uint64_t shared_run(Machine *two, unsigned which, unsigned most, unsigned reason)
{
    Machine *a = two, *b = two + 1;
    return ppu_shared_run((uint8_t)which, a->unit, a->length[UNIT], b->unit, b->length[UNIT], (uint16_t)most, (uint8_t)reason, a->left,
                          a->length[LEFT], a->right, a->length[RIGHT], a->nametables, nametables_lent(a), b->nametables, nametables_lent(b),
                          a->oam, a->length[OAM], b->oam, b->length[OAM], a->palette, a->length[PALETTE], b->palette, b->length[PALETTE],
                          a->line, a->length[LINE], a->colours, a->length[COLOURS]);
}

#endif
