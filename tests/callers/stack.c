/* How much stack each call needs: it runs on a stack of our own that was painted before, and the paint that is left is counted. What it prints is
   compared with the bound that the machine code gives (tests/processor). */
#define _XOPEN_SOURCE 700
#include <ucontext.h>
#include "machine.h"

enum { SIZE = 256 * 1024, PAINT = 0xA5, MOST = 2048 };

static Machine m, two[2]; /* a unit, and two that share a cartridge */
static uint8_t board;
static uint8_t *stack;
static uint8_t table[PPU_TABLE_LENGTH], rows[PPU_ROWS_LENGTH];
static uint64_t sum; /* of what is answered: no call may be left out */
static unsigned cut_short, right_answers, shared_answers[9];

/* memory for a stack */
static uint8_t *aligned(void)
{
    void *bytes = NULL;
    if (posix_memalign(&bytes, 4096, SIZE))
        exit(2);
    return bytes;
}

static void nothing(void) {}

static void fresh_units(void)
{
    sum += ppu_fresh(m.unit, 16, board) + ppu_fresh(m.unit, 16, 16);
}

static void reads(void)
{
    for (unsigned port = 0; port < 8; port++)
        sum += read_at(&m, 0x2000 + port);
}

static void writes(void)
{
    for (unsigned port = 0; port < 8; port++)
        sum += write_at(&m, 0x2000 + port, 0x1E);
}

static void dma_calls(void)
{
    sum += sprite_dma(&m);
}

/* lines 8 to 63 of these have eight sprites: some of the searches set the bit, some do not */
static void searches(void)
{
    cut_short = 0;
    for (unsigned line = 0; line < 240; line++)
        cut_short += ppu_looked(search_on(&m, line)) < 64;
}

/* pictures of scattered memory, off, with backdrop override and drawn, with sprites on many lines, in runs and line by line */
static void runs(void)
{
    m.unit[PPU_AT_MASK] = 0;
    sum += run_lines(&m, 262, PPU_RUN_ALL);
    set_word(m.unit, PPU_AT_V, 0x3F01);
    sum += run_lines(&m, 262, PPU_RUN_ALL);
    m.unit[PPU_AT_MASK] = 0x1E;
    for (int i = 0; i < 262; i++)
        sum += one_line(&m);
    for (unsigned reason = PPU_RUN_ALL; reason <= PPU_UNTIL_HIT + 1; reason++) /* the last is unknown */
        sum += run_lines(&m, 262, reason);
}

/* a write, a run of 524 lines, a read, an unknown record, none */
static void plays(void)
{
    static const uint8_t log[] = { 1, 0x20, 0x01, 0x1E, 2, 0x02, 0x0C, 0, 0, 0x20, 0x02, 0, 3, 0, 0, 0 };
    for (size_t front = 0; front <= sizeof log; front += PPU_LOG_RECORD_LENGTH)
        sum += play_log(&m, log + front, sizeof log - front);
}

/* TWO UNITS: each call by unit 0, by unit 1 and with a number that is no unit's. A unit before line 241, so that every port can be reached */
static void put_in_blank(unsigned which)
{
    set_word(two[which % 2].unit, PPU_AT_NEXT_LINE, 241);
    two[which % 2].unit[PPU_AT_WARMED_UP] = 1;
}

static void shared_dmas(void)
{
    for (unsigned which = 0; which < 3; which++) {
        put_in_blank(which);
        shared_answers[ppu_number(shared_dma(two, which))]++;
    }
}

static void shared_reads(void)
{
    for (unsigned n = 0; n < 3 * 8; n++) {
        put_in_blank(n / 8);
        shared_answers[ppu_number(shared_read(two, n / 8, 0x2000 + n % 8))]++;
    }
}

static void shared_writes(void)
{
    for (unsigned n = 0; n < 3 * 8; n++) {
        put_in_blank(n / 8);
        shared_answers[ppu_number(shared_write(two, n / 8, 0x2000 + n % 8, 0x1E))]++;
    }
}

/* as above, and runs with no line of the picture */
static void shared_runs(void)
{
    for (unsigned which = 0; which < 3; which++) {
        put_in_blank(which);
        two[which % 2].unit[PPU_AT_MASK] = 0;
        shared_answers[ppu_number(shared_run(two, which, 0, PPU_RUN_ALL))]++;
        set_word(two[which % 2].unit, PPU_AT_V, 0x3F01);
        shared_answers[ppu_number(shared_run(two, which, 262, PPU_RUN_ALL))]++;
        two[which % 2].unit[PPU_AT_MASK] = 0x1E;
        for (int i = 0; i < 262; i++)
            shared_answers[ppu_number(shared_run(two, which, 1, PPU_RUN_ALL))]++;
        for (unsigned reason = PPU_RUN_ALL; reason <= PPU_UNTIL_HIT + 1; reason++) /* the last is unknown */
            shared_answers[ppu_number(shared_run(two, which, 262, reason))]++;
    }
}

/* once before, and on both boards: of 2 x 8 reads, 2 x 8 writes, 2 DMA calls and 2 x (2 + 262 + 4) runs all but those two of an unknown reason */
static void expect_shared_answers(void)
{
    EXPECT(shared_answers[PPU_DONE], 3 * (16 + 16 + 2 + 2 * (2 + 262 + 3)));
    EXPECT(shared_answers[PPU_BAD_REQUEST], 3 * 2);
    EXPECT(shared_answers[PPU_BAD_UNIT_NUMBER], 3 * (8 + 8 + 1 + 2 + 262 + 4));
}

static void texts(void)
{
    right_answers += ppu_text(m.nametables, 1024, table, 256, rows, 960) == PPU_DONE;
}

/* the page of that text, and one that is refused for its last character */
static void pages(void)
{
    uint8_t last = rows[959];
    right_answers += ppu_page(rows, 960, table, 256, m.nametables + 1024, 1024) == PPU_DONE;
    rows[959] = 0;
    right_answers += ppu_page(rows, 960, table, 256, m.nametables + 1024, 1024) == PPU_BAD_CHARACTER;
    rows[959] = last;
}

static const struct {
    const char *name;
    void (*work)(void);
} calls[] = { { "ppu_fresh", fresh_units },        { "ppu_dma", dma_calls },
              { "ppu_read", reads },               { "ppu_write", writes },
              { "ppu_search", searches },          { "ppu_run", runs },
              { "ppu_play", plays },               { "ppu_shared_dma", shared_dmas },
              { "ppu_shared_read", shared_reads }, { "ppu_shared_write", shared_writes },
              { "ppu_shared_run", shared_runs },   { "ppu_text", texts },
              { "ppu_page", pages } };

enum { CALLS = sizeof calls / sizeof calls[0] };

/* the bytes of the painted stack that some work has written over */
static size_t used_by(void (*work)(void))
{
    ucontext_t here, there;
    memset(stack, PAINT, SIZE);
    EXPECT(getcontext(&there), 0);
    there.uc_stack.ss_sp = stack;
    there.uc_stack.ss_size = SIZE;
    there.uc_link = &here;
    makecontext(&there, work, 0);
    EXPECT(swapcontext(&here, &there), 0);
    size_t left = 0;
    while (left < SIZE && stack[left] == PAINT)
        left++;
    return SIZE - left;
}

/* the more of what a call's work uses on a board with two pages and on one with four; of two units each has one of these, without writable memory */
static size_t used_on_boards(void (*work)(void))
{
    static const uint8_t boards[] = { PPU_VERTICAL | PPU_WRITABLE, PPU_FOUR_PAGES | PPU_WRITABLE };
    size_t most = 0;
    for (int i = 0; i < 2; i++) {
        board = m.unit[PPU_AT_BOARD] = boards[i];
        two[i].unit[PPU_AT_BOARD] = PPU_VERTICAL;
        two[1 - i].unit[PPU_AT_BOARD] = PPU_FOUR_PAGES;
        size_t used = used_by(work);
        most = used > most ? used : most;
        EXPECT(m.unit[PPU_AT_BOARD], boards[i]);
    }
    return most;
}

int main(void)
{
    stack = aligned();
    m = machine();
    two[0] = machine();
    two[1] = machine();
    scatter(&m, 7);
    scatter(&two[0], 8);
    scatter(&two[1], 9);
    for (int i = 0; i < 256; i += 4)
        m.page[i] = two[0].page[i] = (uint8_t)(i / 4); /* eight sprites on each line from 8 to 64 */
    for (int i = 0; i < 256; i++)
        table[i] = (uint8_t)(i ? i : 32);
    for (int i = 0; i < CALLS; i++)
        calls[i].work(); /* the dynamic linker resolves what the calls use now, and not on the painted stack */
    size_t alone = used_by(nothing);
    for (int i = 0; i < CALLS; i++) {
        size_t used = used_on_boards(calls[i].work);
        EXPECT(used > alone, 1);
        EXPECT(used - alone < MOST, 1);
        printf("  stack %s %zu\n", calls[i].name, used - alone);
    }
    EXPECT(m.unit[PPU_AT_MASK], 0x1E);
    EXPECT(sum > 0, 1);
    EXPECT(cut_short > 0 && cut_short < 56, 1);
    EXPECT(right_answers, 3 * 3); /* once before, and on both boards */
    expect_shared_answers();
    part("each call's stack, on boards with two pages and four");
    release(&m);
    release(&two[0]);
    release(&two[1]);
    free(stack);
    return verdict("tests/stack");
}
