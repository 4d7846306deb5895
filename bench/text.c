/* Measures ppu_text and ppu_page and their peers on the same memory, as bench.c does the calls of a unit.
     text time ROUNDS   ns, the least of so many rounds; in a round the writers take turns
     text count         does each piece of work once for each writer, with a call of `mark` before each: for callgrind
   First every piece of work is done by all writers, and the program fails if two of them differ in an answer or a byte of memory. */
#define _POSIX_C_SOURCE 199309L
#include <stdio.h>
#include <stdlib.h>
#include <string.h>
#include "ppu.h"
#include "shared.h"

/* THE WRITERS: the archive's calls, then the peers that were compiled. PEERS says which: PEER(plain, gcc) PEER(plain, clang) .. */
typedef uint64_t Call(const uint8_t *, size_t, const uint8_t *, size_t, uint8_t *, size_t);

typedef struct {
    const char *name;
    Call *text, *page;
} Writer;

#define PEER(kind, compiler) Call kind##_##compiler##_text, kind##_##compiler##_page;
PEERS
#undef PEER
#define PEER(kind, compiler) { #kind " " #compiler, kind##_##compiler##_text, kind##_##compiler##_page },
static const Writer writers[] = { { "ppu", ppu_text, ppu_page }, PEERS };
#undef PEER

enum { WRITERS = sizeof writers / sizeof *writers };

/* MEMORY, and how it stands before a piece of work */
static _Alignas(64) struct {
    uint8_t page[PPU_NAMETABLE_PAGE_LENGTH], table[PPU_TABLE_LENGTH], rows[PPU_ROWS_LENGTH];
} m;

/* letters and spaces, one of five a space */
static uint8_t letter(void) { return (uint8_t)(any(5) ? 'A' + any(26) : ' '); }

/* the printable characters stand at their own tiles, and the other tiles have none; page and rows hold letters */
static void letters(void)
{
    seed = 1;
    scatter((uint8_t *)&m, sizeof m);
    for (unsigned i = 0; i < sizeof m.table; i++)
        m.table[i] = (uint8_t)(i >= ' ' && i <= '~' ? i : 0);
    for (unsigned i = 0; i < sizeof m.rows; i++)
        m.page[i] = m.rows[i] = letter();
}

static void letters_and_none(void)
{
    letters();
    for (unsigned i = 0; i < sizeof m.rows; i++)
        if (any(4) == 0)
            m.page[i] = (uint8_t)any(' ');
}

/* any tiles, 95 of 256 with a character, and any of the characters in the rows */
static void scattered(void)
{
    letters();
    scatter(m.page, sizeof m.page);
    for (unsigned i = 0; i < sizeof m.rows; i++)
        m.rows[i] = (uint8_t)(' ' + any(95));
}

static void last_unknown(void)
{
    letters();
    m.rows[sizeof m.rows - 1] = 200;
}

/* WORK: one call of a writer, and the number that its answer has */
typedef uint64_t Work(const Writer *);

static uint64_t text(const Writer *w) { return w->text(m.page, sizeof m.page, m.table, sizeof m.table, m.rows, sizeof m.rows); }
static uint64_t page(const Writer *w) { return w->page(m.rows, sizeof m.rows, m.table, sizeof m.table, m.page, sizeof m.page); }

static const struct {
    const char *name;
    void (*set)(void);
    Work *work;
    unsigned number;
} works[] = {
    { "`ppu_text`, letters", letters, text, PPU_DONE },
    { "`ppu_text`, a quarter of the tiles without a character", letters_and_none, text, PPU_DONE },
    { "`ppu_text`, random tiles", scattered, text, PPU_DONE },
    { "`ppu_page`, letters", letters, page, PPU_DONE },
    { "`ppu_page`, random characters", scattered, page, PPU_DONE },
    { "`ppu_page`, refused at the last character", last_unknown, page, PPU_BAD_CHARACTER },
};

enum { WORKS = sizeof works / sizeof *works, CALLS = 50, BLOCKS = 10 };

static void agree(int i)
{
    static uint8_t after[sizeof m];
    uint64_t answer = 0;
    for (int k = 0; k < WRITERS; k++) {
        works[i].set();
        uint64_t given = works[i].work(&writers[k]);
        if (k == 0) {
            answer = given;
            memcpy(after, &m, sizeof m);
        }
        if (ppu_number(given) != works[i].number || given != answer || memcmp(after, &m, sizeof m)) {
            fprintf(stderr, "bench/text.c: %s and %s differ: %s\n", writers[0].name, writers[k].name, works[i].name);
            exit(1);
        }
    }
}

/* TIME: the least that each piece of work took */
static double least[WORKS][WRITERS];

/* A block of rounds. Each has the stack elsewhere in its page, so that no writer's figure hangs on where its locals happen to lie. */
static void time_block(int block, int rounds)
{
    volatile char room[1 + 400 * block];
    (void)room;
    for (int i = 0; i < WORKS; i++) {
        works[i].set();
        for (int r = 0; r <= rounds; r++)
            for (int k = 0; k < WRITERS; k++) {
                double before = now(CLOCK_MONOTONIC);
                for (int c = 0; c < CALLS; c++)
                    works[i].work(&writers[k]);
                double each = (now(CLOCK_MONOTONIC) - before) / CALLS;
                if (r > 0 && (least[i][k] == 0 || each < least[i][k]))
                    least[i][k] = each;
            }
    }
}

static void print_times(void)
{
    printf("\nns a page, and the ratio of the archive's call to each peer\n\n| call | ppu |");
    for (int k = 1; k < WRITERS; k++)
        printf(" %s |", writers[k].name);
    for (int k = 1; k < WRITERS; k++)
        printf(" / %s |", writers[k].name);
    printf("\n|---|");
    for (int k = 0; k < 2 * WRITERS - 1; k++)
        printf("---|");
    printf("\n");
    for (int i = 0; i < WORKS; i++) {
        printf("| %s |", works[i].name);
        for (int k = 0; k < WRITERS; k++)
            printf(k ? " %.0f |" : " **%.0f** |", least[i][k]);
        for (int k = 1; k < WRITERS; k++)
            printf(" %.2f |", least[i][0] / least[i][k]);
        printf("\n");
    }
}

/* COUNT */
void mark(void);

/* what stands on a line by itself of what is printed: the work's kind and name, and the calls that a writer did */
static void count_all(void)
{
    for (int i = 0; i < WORKS; i++) {
        works[i].set();
        mark();
        for (int k = 0; k < WRITERS; k++)
            works[i].work(&writers[k]);
        printf("page\t%s\t1\n", works[i].name);
    }
    mark();
}

int main(int argc, char **argv)
{
    const char *mode = argc > 1 ? argv[1] : "";
    int rounds = argc > 2 ? atoi(argv[2]) : 0;
    for (int i = 0; i < WORKS; i++)
        agree(i);
    if (!strcmp(mode, "count")) {
        count_all();
        return 0;
    }
    if (strcmp(mode, "time") || rounds < BLOCKS) {
        fprintf(stderr, "usage: text time ROUNDS (10 or more), or text count\n");
        return 2;
    }
    for (int block = 0; block < BLOCKS; block++)
        time_block(block, rounds / BLOCKS);
    print_times();
    return 0;
}
