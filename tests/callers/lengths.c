/* Hostile callers: every memory lent at random lengths from 0 to 5000, and nothing outside may be touched.

       lengths ROUNDS SEED pages    slices in pages of their own: at the front of the page, next to memory that may not
                                    be touched; at its back, likewise; or within, with guard bytes on both sides
       lengths ROUNDS SEED heap     slices in blocks of exactly their length, for valgrind and AddressSanitizer

   A call must answer the number that is due by the lengths, the record and its board, and its own arguments, in the order 5, 2
   for the record, 3, 2 for memory, 1, 4; nametable RAM is due at 4096 bytes on a board with four pages, at 2048 on another.
   A refused call changes nothing, and what is lent to be looked at is never changed. A log without a whole and good record
   at its front must answer 5; with one, the lengths that count are those of the call that the record stands for. A search on
   a line above 239 must answer 5, whatever the lengths; one that is done looks at 9 to 64 sprites, and no other call says
   that it looked at any. A run with a reason to stop above 2 must answer 5, whatever the lengths; only one with reason 1 or
   2 says that it met its reason. Rows of the right length with a character that is 0 or has no tile must answer 8.

   The shared calls are made by unit 0, by unit 1 and with other numbers, which must answer 7 before all else; 6 is due for a
   writable board directly after 3. The other unit's record and memory have any lengths, 0 often, and any bytes. They play
   no part in what is due, and in pages they may not be touched at all while the call runs.

   With REACH_READ or REACH_WRITE the test itself goes one byte beyond a slice, with REACH_OTHER it reads the other unit's
   record, as a faulty library would, to show that this is noticed. */
#define _DEFAULT_SOURCE
#include <stdio.h>
#include <stdlib.h>
#include <string.h>
#include <sys/mman.h>
#include "ppu.h"

/* PAGE is sprite DMA's, SHEET a page of nametable RAM; the others are those of the unit that does not call. The runs are in the
   order of their reasons; the shared calls stand last. */
enum { UNIT, LEFT, RIGHT, NAMETABLES, OAM, PALETTE, LINE, COLOURS, PAGE, LOG, SHEET, TABLE, ROWS,
       OTHER_UNIT, OTHER_NAMETABLES, OTHER_OAM, OTHER_PALETTE, MEMORIES };
enum { FRESH, READ, WRITE, DMA, SEARCH, TEXT, TEXT_PAGE, RUN, TO_NMI, TO_HIT, PLAY, SHARED_READ, SHARED_WRITE, SHARED_DMA, SHARED_RUN, KINDS };
enum { LONGEST = 5000, ROOM = 8192, BARRIER = 4096, NUMBERS = 9 };

/* Of nametable RAM that of a board with two pages. */
enum { TWO_PAGES = 2048, FOUR_PAGES = 4096 };
static const size_t right_length[MEMORIES] = {16, 4096, 4096, TWO_PAGES, 256, 32, 256, 512, 256, 4, 1024, 256, 960,
                                              16, TWO_PAGES, 256, 32};
static const char *const kind_name[KINDS] = {"fresh", "read", "write", "dma", "search", "text", "page", "run", "to NMI",
                                             "to hit", "play", "shared read", "shared write", "shared dma", "shared run"};

/* The memories that a kind of call is lent, those of the other unit left out, and those of them that it may change, as sets of
   bits; for play see `played`. */
static const unsigned lent[KINDS] = {0x01, 0x3F, 0x3F, 0x111, 0x11, 0x1C00, 0x1C00, 0xFF, 0xFF, 0xFF, 0x2FF, 0x3F, 0x3F, 0x111, 0xFF};
static const unsigned mutable_ones[KINDS] = {0x01, 0x01, 0x3F, 0x11, 0, 0x1000, 0x400, 0xC1, 0xC1, 0xC1, 0, 0x01, 0x39, 0x11, 0xC1};

static struct memory {
    uint8_t *room;    /* ROOM bytes between two barriers, or the block itself */
    uint8_t *at;      /* the slice that is lent */
    size_t length;
    uint8_t before[ROOM];
} memory[MEMORIES];

static int in_pages, failed;
static long met[KINDS];           /* the runs that met their reason */
static long on_four_pages[KINDS]; /* the calls done on boards with four pages */
static uint64_t state;
static uint16_t address, searched; /* of an access; the line of a search */
static uint8_t byte, reason;       /* of a write or a fresh unit's board; of a run */
static uint8_t board;              /* of a record that is made well formed */
static uint8_t which;              /* the unit number of a shared call */

static int is_shared(int kind)
{
    return kind >= SHARED_READ;
}

/* How many memories there are for a call: those of another unit are the last. */
static int memories(int kind)
{
    return is_shared(kind) ? MEMORIES : OTHER_UNIT;
}

static uint64_t next_random(void)
{
    uint64_t z = (state += 0x9E3779B97F4A7C15u);
    z = (z ^ z >> 30) * 0xBF58476D1CE4E5B9u;
    z = (z ^ z >> 27) * 0x94D049BB133111EBu;
    return z ^ z >> 31;
}

static size_t below(size_t limit)
{
    return next_random() % limit;
}

static void open_rooms(void)
{
    for (int m = 0; m < MEMORIES; m++) {
        uint8_t *whole = mmap(NULL, ROOM + 2 * BARRIER, PROT_NONE, MAP_PRIVATE | MAP_ANONYMOUS, -1, 0);
        if (whole == MAP_FAILED || mprotect(whole + BARRIER, ROOM, PROT_READ | PROT_WRITE) != 0) {
            perror("lengths");
            exit(2);
        }
        memory[m].room = whole + BARRIER;
    }
}

/* A slice of the length somewhere in its room, or a block of its own. */
static void place(struct memory *m, size_t length)
{
    m->length = length;
    if (!in_pages) {
        m->room = m->at = malloc(length);
        if (m->room == NULL) {
            perror("lengths");
            exit(2);
        }
        return;
    }
    size_t where = below(3);
    m->at = m->room + (where == 0 ? 0 : where == 1 ? ROOM - length : 64 + below(ROOM - length - 128));
}

static size_t room_size(const struct memory *m)
{
    return in_pages ? ROOM : m->length;
}

static void fill(struct memory *m)
{
    size_t size = room_size(m);
    for (size_t i = 0; i < size; i += 8) {
        uint64_t random = next_random();
        memcpy(m->room + i, &random, size - i < 8 ? size - i : 8);
    }
}

static void keep(struct memory *m)
{
    memcpy(m->before, m->room, room_size(m));
}

/* Makes a record of 16 bytes or more well formed, at a random line, now and then with v in the palette or with any board byte. */
static void make_well_formed(uint8_t *unit)
{
    size_t line = below(262);
    unit[5] |= below(4) ? 0 : 0x3F;
    unit[2] &= 0xE0;
    unit[5] &= 0x7F;
    unit[7] &= 0x7F;
    unit[8] &= 7;
    unit[9] &= 1;
    unit[12] = (uint8_t)line;
    unit[13] = (uint8_t)(line >> 8);
    unit[14] &= 1;
    unit[15] = below(16) ? board : (uint8_t)next_random();
}

/* In half of the rounds brings bytes in range of the line that is searched, so that eight are found and the bit is set. */
static void make_sprites(struct memory *oam)
{
    if (below(2))
        for (size_t i = 0; i < oam->length; i++)
            oam->at[i] = below(4) ? oam->at[i] : (uint8_t)searched;
}

/* Makes a record of a log, as far as there is room: mostly a good one, its run of a few lines. */
static void make_record(uint8_t *log, size_t length)
{
    uint8_t record[4] = {(uint8_t)below(below(8) ? 3 : 256), (uint8_t)(0x20 + below(0x20)), (uint8_t)next_random(), 0};
    if (record[0] == 1 || below(8) == 0)
        record[3] = (uint8_t)next_random();
    if (record[0] == 2) {
        record[1] = 0;
        record[2] = (uint8_t)below(5);
    } else if (below(8) == 0)
        record[1] = (uint8_t)next_random();
    memcpy(log, record, length < 4 ? length : 4);
}

/* How long a memory has to be for a unit of this board. */
static size_t right_for(int m, unsigned of_board)
{
    return m == NAMETABLES && of_board % 8 == 4 ? FOUR_PAGES : right_length[m];
}

/* Mostly makes rows of the table's characters; now and then one is at fault, or a tile loses its character. */
static void make_rows(struct memory *rows, struct memory *table)
{
    if (table->length == 0 || below(4) == 0)
        return;
    for (size_t i = 0; i < table->length; i++)
        table->at[i] |= 1;
    for (size_t i = 0; i < rows->length; i++)
        rows->at[i] = table->at[rows->at[i] % table->length];
    if (rows->length > 0 && below(3) == 0)
        rows->at[below(rows->length)] = below(2) ? 0 : 2; /* the table's are odd */
    if (below(3) == 0)
        table->at[below(table->length)] = 0;
}

/* Whether some character of the rows is 0 or has no tile, so that 8 is due; both have their right lengths. */
static int has_bad_character(const struct memory *rows, const struct memory *table)
{
    int has_tile[256] = {0}, bad = 0;
    for (size_t i = 0; i < right_length[TABLE]; i++)
        has_tile[table->at[i]] = table->at[i] != 0;
    for (size_t i = 0; i < right_length[ROWS]; i++)
        bad |= !has_tile[rows->at[i]];
    return bad;
}

/* The call that the record at the log's front stands for; PLAY where there is none, so that 5 is due. */
static int played(const struct memory *log)
{
    if (log->length < 4 || log->at[0] > 2 || (log->at[0] != 1 && log->at[3] != 0))
        return PLAY;
    return log->at[0] == 0 ? READ : log->at[0] == 1 ? WRITE : RUN;
}

/* The other unit's lengths: none, right, any. */
static void choose_other_lengths(size_t *length)
{
    for (int m = OTHER_UNIT; m <= OTHER_PALETTE; m++)
        length[m] = below(3) == 0 ? 0 : below(2) ? right_length[m] : below(LONGEST + 1);
}

/* Lengths: one off by one; one of any length; all of any length, but half of the records right; else all right for the board.
   A log is often short; nametable RAM often has what some board has. */
static void choose_lengths(int kind, size_t *length)
{
    size_t style = below(5);
    size_t odd;
    do
        odd = below(MEMORIES);
    while (!(lent[kind] >> odd & 1));
    for (int m = 0; m < MEMORIES; m++)
        length[m] = style == 3 ? below(LONGEST + 1) : right_for(m, board);
    if (style == 1)
        length[odd] += below(2) ? 1 : (size_t)-1;
    if (style == 2)
        length[odd] = below(LONGEST + 1);
    if (style == 3 && below(2))
        length[UNIT] = right_length[UNIT];
    if (style != 1 && below(4) == 0)
        length[LOG] = below(9); /* about the length of a record */
    if (style != 1 && below(4) == 0)
        length[NAMETABLES] = below(2) ? TWO_PAGES : FOUR_PAGES;
    choose_other_lengths(length);
}

#define SLICE(m) memory[m].at, memory[m].length

static uint16_t any_lines(void)
{
    return (uint16_t)below(below(4) ? 5 : 600);
}

/* Unit 0's and unit 1's of a memory that each has. */
#define PAIR(m) SLICE(which == 1 ? OTHER_##m : m), SLICE(which == 1 ? m : OTHER_##m)

static uint64_t shared_call(int kind)
{
    switch (kind) {
    case SHARED_READ:
        return ppu_shared_read(which, PAIR(UNIT), address, SLICE(LEFT), SLICE(RIGHT), PAIR(NAMETABLES), PAIR(OAM), PAIR(PALETTE));
    case SHARED_WRITE:
        return ppu_shared_write(which, PAIR(UNIT), address, byte, SLICE(LEFT), SLICE(RIGHT), PAIR(NAMETABLES), PAIR(OAM),
                                PAIR(PALETTE));
    case SHARED_DMA:
        return ppu_shared_dma(which, PAIR(UNIT), PAIR(OAM), SLICE(PAGE));
    default:
        return ppu_shared_run(which, PAIR(UNIT), any_lines(), reason, SLICE(LEFT), SLICE(RIGHT), PAIR(NAMETABLES), PAIR(OAM),
                              PAIR(PALETTE), SLICE(LINE), SLICE(COLOURS));
    }
}

static uint64_t call(int kind)
{
    switch (kind) {
    case FRESH:
        return ppu_fresh(SLICE(UNIT), byte);
    case READ:
        return ppu_read(SLICE(UNIT), address, SLICE(LEFT), SLICE(RIGHT), SLICE(NAMETABLES), SLICE(OAM), SLICE(PALETTE));
    case WRITE:
        return ppu_write(SLICE(UNIT), address, byte, SLICE(LEFT), SLICE(RIGHT), SLICE(NAMETABLES), SLICE(OAM), SLICE(PALETTE));
    case DMA:
        return ppu_dma(SLICE(UNIT), SLICE(OAM), SLICE(PAGE));
    case SEARCH:
        return ppu_search(SLICE(UNIT), searched, SLICE(OAM));
    case TEXT:
        return ppu_text(SLICE(SHEET), SLICE(TABLE), SLICE(ROWS));
    case TEXT_PAGE:
        return ppu_page(SLICE(ROWS), SLICE(TABLE), SLICE(SHEET));
    case PLAY:
        return ppu_play(SLICE(UNIT), SLICE(LOG), SLICE(LEFT), SLICE(RIGHT), SLICE(NAMETABLES), SLICE(OAM), SLICE(PALETTE),
                        SLICE(LINE), SLICE(COLOURS));
    case SHARED_READ:
    case SHARED_WRITE:
    case SHARED_DMA:
    case SHARED_RUN:
        return shared_call(kind);
    default:
        return ppu_run(SLICE(UNIT), any_lines(), reason, SLICE(LEFT), SLICE(RIGHT), SLICE(NAMETABLES), SLICE(OAM), SLICE(PALETTE),
                       SLICE(LINE), SLICE(COLOURS));
    }
}

/* What a faulty library would do: a touch of the byte behind the line buffer. */
static void reach(void)
{
#if defined REACH_READ
    volatile uint8_t *behind = memory[LINE].at + memory[LINE].length;
    if (*behind == 1)
        state++;
#elif defined REACH_WRITE
    memory[LINE].at[memory[LINE].length] ^= 1;
#elif defined REACH_OTHER
    volatile uint8_t *other = memory[OTHER_UNIT].at;
    if (memory[OTHER_UNIT].length > 0 && *other == 1)
        state++;
#endif
}

/* In pages: how the other unit's memory may be touched. */
static void guard_other(int kind, int protection)
{
    for (int m = OTHER_UNIT; m < memories(kind) && in_pages; m++)
        if (mprotect(memory[m].room, ROOM, protection) != 0) {
            perror("lengths");
            exit(2);
        }
}

static void complain(long round, int kind, const char *what)
{
    printf("tests/callers: round %ld, %s: %s; lengths", round, kind_name[kind], what);
    for (int m = 0; m < memories(kind); m++)
        printf(" %zu", memory[m].length);
    printf(is_shared(kind) ? "; unit number %u\n" : "\n", which);
    failed = 1;
}

/* Whether what is before and behind the slice, and the slice itself if it may not change, is as it was. */
static int is_kept(const struct memory *m, int may_change)
{
    size_t front = (size_t)(m->at - m->room), end = front + m->length;
    if (!may_change)
        return memcmp(m->room, m->before, room_size(m)) == 0;
    return memcmp(m->room, m->before, front) == 0 && memcmp(m->room + end, m->before + end, room_size(m) - end) == 0;
}

static int is_run(int kind)
{
    return (kind >= RUN && kind <= TO_HIT) || kind == SHARED_RUN;
}

/* The reason of a run by its kind; a shared one has any. */
static uint8_t any_reason(int kind)
{
    return (uint8_t)(below(8) == 0 ? 3 + below(253) : kind == SHARED_RUN ? below(3) : (size_t)(kind - RUN));
}

/* Every memory at the length of a call of the kind, with bytes that are mostly fit for one. */
static void prepare(int kind)
{
    size_t length[MEMORIES];
    board = (uint8_t)((below(2) ? 4 : below(4)) + (below(is_shared(kind) ? 4 : 2) == 0 ? 8 : 0));
    which = (uint8_t)(below(8) ? below(2) : 2 + below(254));
    choose_lengths(kind, length);
    for (int m = 0; m < memories(kind); m++) {
        place(&memory[m], length[m]);
        fill(&memory[m]);
    }
    if (length[UNIT] >= 16 && below(4))
        make_well_formed(memory[UNIT].at);
    if (is_shared(kind) && length[OTHER_UNIT] >= 16 && below(2))
        make_well_formed(memory[OTHER_UNIT].at);
    address = (uint16_t)(below(8) ? 0x2000 + below(0x2000) : next_random());
    byte = (uint8_t)(kind != FRESH ? next_random() : below(2) ? board : below(32));
    searched = (uint16_t)(below(4) ? below(240) : below(2) ? 238 + below(4) : next_random());
    if (is_run(kind))
        reason = any_reason(kind);
    make_sprites(&memory[OAM]);
    make_record(memory[LOG].at, length[LOG]);
    make_rows(&memory[ROWS], &memory[TABLE]);
    for (int m = 0; m < memories(kind); m++)
        keep(&memory[m]);
}

/* Whether a search, or a call that makes none, can say that it looked at so many sprites. */
static int is_looked(unsigned looked, int search)
{
    return search ? looked >= 9 && looked <= 64 : looked == 0;
}

/* Whether 5 is due: for a log without a record, a search on no line of the picture, a run with no such reason. */
static int is_unknown(int kind)
{
    return (kind == PLAY && played(&memory[LOG]) == PLAY) || (kind == SEARCH && searched > 239) ||
           (is_run(kind) && reason > PPU_UNTIL_HIT);
}

/* A board byte: a wiring from 0 to 4, and bit 3. */
static int is_board(unsigned of_board)
{
    return of_board < 16 && of_board % 8 <= 4;
}

static unsigned line_of(const uint8_t *unit)
{
    return unit[12] + 256u * unit[13];
}

/* Whether a record of 16 bytes is well formed. */
static int is_well_formed(const uint8_t *unit)
{
    return unit[2] % 32 == 0 && unit[5] < 128 && unit[7] < 128 && unit[8] < 8 && unit[9] < 2 && line_of(unit) < 262 &&
           unit[14] < 2 && is_board(unit[15]);
}

/* Whether a memory that the call is lent, the unit's record aside, has another length than it must. */
static int has_wrong_memory(int as, unsigned of_board)
{
    for (int m = UNIT + 1; m < MEMORIES; m++)
        if ((lent[as] >> m & 1) && memory[m].length != right_for(m, of_board))
            return 1;
    return 0;
}

static int is_access(int as)
{
    return as == READ || as == WRITE || as == SHARED_READ || as == SHARED_WRITE;
}

/* The number of a read or a write by a unit, when nothing else is wrong. */
static int due_to_access(int as, unsigned place, const uint8_t *unit)
{
    int drawing = (unit[1] & 0x18) && (line_of(unit) < 240 || line_of(unit) == 261);
    if (place < 0x2000 || place > 0x3FFF)
        return 1;
    return drawing && (place % 8 == 7 || (place % 8 == 4 && (as == READ || as == SHARED_READ))) ? 4 : 0;
}

/* The number that is due, for a call or for the one that a log's record stands for. */
static int due(int kind, int as)
{
    const uint8_t *unit = memory[UNIT].at, *log = memory[LOG].at;
    if (is_shared(kind) && which > 1)
        return 7;
    if (is_unknown(kind))
        return 5;
    if (as == TEXT || as == TEXT_PAGE)
        return has_wrong_memory(as, 0) ? 2 : as == TEXT_PAGE && has_bad_character(&memory[ROWS], &memory[TABLE]) ? 8 : 0;
    if (memory[UNIT].length != right_length[UNIT])
        return 2;
    if (as == FRESH)
        return is_board(byte) ? 0 : 3;
    if (!is_well_formed(unit))
        return 3;
    if (is_shared(kind) && unit[15] >= 8)
        return 6;
    if (has_wrong_memory(as, unit[15]))
        return 2;
    return is_access(as) ? due_to_access(as, kind == PLAY ? log[1] * 256u + log[2] : address, unit) : 0;
}

static int round_of(long round, int kind)
{
    char said[64];
    prepare(kind);
    int as = kind == PLAY ? played(&memory[LOG]) : kind, wanted = due(kind, as);
    guard_other(kind, PROT_NONE);
    uint64_t answer = call(kind);
    reach();
    guard_other(kind, PROT_READ | PROT_WRITE);
    int number = (int)ppu_number(answer);
    snprintf(said, sizeof said, "answers %d where %d is due", number, wanted);
    if (number != wanted)
        complain(round, kind, said);
    on_four_pages[kind] += number == 0 && (lent[kind] >> UNIT & 1) && memory[UNIT].at[15] % 8 == 4;
    if (number != 0 && answer != (uint64_t)number)
        complain(round, kind, "a refusal says more than its number");
    if (!is_looked(ppu_looked(answer), number == 0 && kind == SEARCH))
        complain(round, kind, "so many sprites cannot have been looked at");
    if (ppu_met(answer) && (!is_run(kind) || reason == PPU_RUN_ALL))
        complain(round, kind, "a reason is met where there is none");
    met[kind] += ppu_met(answer);
    for (int m = 0; m < memories(kind); m++) {
        if (!is_kept(&memory[m], number == 0 && (mutable_ones[as] >> m & 1)))
            complain(round, kind, "memory changed that must not");
        if (!in_pages)
            free(memory[m].room);
    }
    return number;
}

/* Prints what the calls of a kind answered; a number that it can give and never gave fails. */
static void report(int k, const long *count)
{
    int of_unit = lent[k] >> UNIT & 1;
    printf("  %-12s %ld done (%ld on four pages, %ld met), refused", kind_name[k], count[0], on_four_pages[k], met[k]);
    for (int number = 1; number < NUMBERS; number++)
        printf("%s %ld with %d", number > 1 ? "," : "", count[number], number);
    printf("\n");
    failed |= count[0] == 0 || count[2] == 0 || ((k == PLAY || k == SEARCH || is_run(k)) && count[5] == 0) ||
              (k == TEXT_PAGE && count[8] == 0) || (of_unit && (count[3] == 0 || on_four_pages[k] == 0)) ||
              (is_shared(k) && (count[6] == 0 || count[7] == 0));
}

int main(int argc, char **argv)
{
    if (argc != 4) {
        fprintf(stderr, "usage: lengths ROUNDS SEED pages|heap\n");
        return 2;
    }
    long rounds = atol(argv[1]), count[KINDS][NUMBERS] = {{0}};
    state = strtoull(argv[2], NULL, 10);
    in_pages = strcmp(argv[3], "pages") == 0;
    if (in_pages)
        open_rooms();
    for (long round = 0; round < rounds && !failed; round++) {
        int kind = (int)below(KINDS);
        count[kind][round_of(round, kind) % NUMBERS]++;
    }
    for (int k = 0; k < KINDS; k++)
        report(k, count[k]);
    printf("tests/callers: %ld calls, seed %s, %s: %s\n", rounds, argv[2], argv[3], failed ? "FAILED" : "ok");
    return failed;
}
