/* A byte string as calls on the library and on the second picture unit; any difference aborts.

   The string: 16 bytes of the unit's record (as they are if the next byte is odd, else made well formed), a byte that
   chooses the contents of memory, then steps. A step is a byte, whose low three bits say what, and its arguments:
   0 read, 1 write, 2 sprite DMA, the search for overflow, a call of the text layer or one of two units, 3 a run of one line
   or some, with a known reason to stop or any, 4 the record of a log, also with one length near the right one, 5 a byte of
   memory, 6 a sprite near the next line, or a row of them, 7 a length for the next call, or fresh.

   The second of two units comes with the contents of memory, its record well formed; bits 1 and 2 of the byte behind the
   record take writable pattern memory from the two boards. The two can change places, so that each step that is of one unit,
   and each change of memory, is of either. */
#include <stdio.h>
#include <stdlib.h>
#include <string.h>
#include "ppu.h"
#include "second.h"

/* SCREEN is the nametable page of the text layer, PAGE the page for sprite DMA; UNIT1 to PALETTE1 are unit 1's own. */
enum {
    UNIT, LEFT, RIGHT, NAMETABLES, OAM, PALETTE, LINE, COLOURS, PAGE, LOG, SCREEN, ROWS, TABLE,
    UNIT1, NAMETABLES1, OAM1, PALETTE1, MEMORIES
};
enum { LONGEST = 4096, SLACK = 16, STEPS = 60, MOST_LINES = 24, CONTENTS = 16 };

/* What each memory holds. */
static const size_t held[MEMORIES] = {16, 4096, 4096, PPU_FOUR_PAGES_LENGTH, 256, 32, 256, 512, 256, 4, 1024, 960, 256,
                                      16, PPU_FOUR_PAGES_LENGTH, 256, 32};

/* Each unit's own memory. */
static const int own[2][4] = {{UNIT, NAMETABLES, OAM, PALETTE}, {UNIT1, NAMETABLES1, OAM1, PALETTE1}};

struct side {
    uint8_t memory[MEMORIES][LONGEST + 2 * SLACK];
};

static struct side library, second;
static size_t length[MEMORIES]; /* for the next call */
static int chosen[MEMORIES];    /* whether that is as the string says, and not the right one */

static const uint8_t *input;
static size_t left_over;

static unsigned take(void)
{
    if (left_over == 0)
        return 0;
    left_over--;
    return *input++;
}

static unsigned take_two(void)
{
    unsigned high = take();
    return high << 8 | take();
}

static void set_byte(int memory, size_t at, uint8_t byte)
{
    library.memory[memory][SLACK + at] = second.memory[memory][SLACK + at] = byte;
}

/* One of the ten boards. */
static uint8_t board_of(uint8_t byte)
{
    return (byte & PPU_WRITABLE) | (byte & 7) % 5;
}

/* What a call asks for: of nametable RAM what the unit's board has. */
static size_t right_length(const struct side *side, int memory)
{
    int unit = memory == NAMETABLES1 ? UNIT1 : UNIT;
    int is_nametables = memory == NAMETABLES || memory == NAMETABLES1;
    return is_nametables ? ppu_nametable_length(side->memory[unit][SLACK + PPU_AT_BOARD]) : held[memory];
}

static size_t lent_length(const struct side *side, int memory)
{
    return chosen[memory] ? length[memory] : right_length(side, memory);
}

static void choose_length(int memory, size_t other)
{
    length[memory] = other;
    chosen[memory] = 1;
}

/* The right length, or one off; of nametable RAM also what a board of the other kind has. */
static void choose_near(int memory)
{
    unsigned how = take();
    size_t right = right_length(&library, memory);
    if ((memory == NAMETABLES || memory == NAMETABLES1) && how % 4 == 3)
        choose_length(memory, PPU_NAMETABLE_LENGTH + PPU_FOUR_PAGES_LENGTH - right);
    else
        choose_length(memory, right - 1 + how % 3);
}

static void make_well_formed(uint8_t *unit)
{
    unsigned line = (unit[12] | unit[13] << 8) % 262;
    unit[2] &= 0xE0;
    unit[5] &= 0x7F;
    unit[7] &= 0x7F;
    unit[8] &= 7;
    unit[9] &= 1;
    unit[12] = line & 255;
    unit[13] = line >> 8;
    unit[14] &= 1;
    unit[15] = board_of(unit[15]);
}

static void fill(struct side *side, unsigned choice)
{
    uint32_t state = choice * 2654435761u + 1;
    for (int m = 0; m < MEMORIES; m++)
        for (size_t i = 0; i < LONGEST + 2 * SLACK; i++) {
            state = state * 1664525u + 1013904223u;
            side->memory[m][i] = choice % 4 == 0 ? 0 : choice % 4 == 1 ? state >> 24 & state >> 16 : state >> 24;
        }
}

#define SLICE(side, m) (side).memory[m] + SLACK, lent_length(&(side), m)
#define ACCESS(side) SLICE(side, LEFT), SLICE(side, RIGHT), SLICE(side, NAMETABLES), SLICE(side, OAM), SLICE(side, PALETTE)
#define PICTURE(side) ACCESS(side), BUFFERS(side)
#define BOTH(side, m) SLICE(side, m), SLICE(side, m##1)
#define SHARED(side) SLICE(side, LEFT), SLICE(side, RIGHT), BOTH(side, NAMETABLES), BOTH(side, OAM), BOTH(side, PALETTE)
#define BUFFERS(side) SLICE(side, LINE), SLICE(side, COLOURS)

/* Compares both sides after a call, and gives the right lengths back. */
static void compare(const char *what, uint64_t one, uint64_t other)
{
    if (one != other || memcmp(&library, &second, sizeof library) != 0) {
        fprintf(stderr, "DIFFERENCE after %s: library %llx, second %llx\n", what, (unsigned long long)one,
                (unsigned long long)other);
        abort();
    }
    memset(chosen, 0, sizeof chosen);
}

static unsigned next_line(void)
{
    const uint8_t *unit = library.memory[UNIT] + SLACK;
    return unit[12] | unit[13] << 8;
}

static void put_sprite(void)
{
    unsigned slot = take() % 64;
    set_byte(OAM, 4 * slot, (uint8_t)(next_line() - take() % 20));
    for (int i = 1; i < 4; i++)
        set_byte(OAM, 4 * slot + i, (uint8_t)take());
}

/* Up to 16 sprites in a row, all near the next line and otherwise alike. */
static void put_row(unsigned number)
{
    unsigned first = take(), y = next_line() - take() % 20, other = take();
    for (unsigned slot = first; slot < first + number; slot++)
        for (int i = 0; i < 4; i++)
            set_byte(OAM, 4 * (slot % 64) + i, (uint8_t)(i == 0 ? y : other));
}

/* Whether lines are drawn: then few are run, since the second unit is slow. */
static int is_drawn(void)
{
    return library.memory[UNIT][SLACK + 1] & 0x18;
}

/* A record of a log, as it comes or of a known kind. */
static void put_record(int as_it_comes)
{
    uint8_t record[4];
    for (int i = 0; i < 4; i++)
        record[i] = (uint8_t)take();
    if (!as_it_comes) {
        record[0] %= 3;
        record[1] = record[0] == 2 ? 0 : 0x20 | record[1] % 0x20;
        record[3] = record[0] == 1 ? record[3] : 0;
    }
    if (record[0] == 2 && is_drawn()) {
        record[1] = 0;
        record[2] %= MOST_LINES + 1;
    }
    for (int i = 0; i < 4; i++)
        set_byte(LOG, i, record[i]);
}

/* A table of characters: one for all tiles, a few, all different, or any, and some tiles without one. */
static void put_table(void)
{
    unsigned style = take(), first = take(), bare = take();
    for (unsigned tile = 0; tile < 256; tile++) {
        unsigned spread = style & 3 ? tile % (style & 1 ? 256 : 1 + style / 4) : 0;
        unsigned character = (first + (style & 2 ? spread : spread * 77)) % 256;
        set_byte(TABLE, tile, (uint8_t)(tile * 37 % 256 < bare && style & 128 ? 0 : character));
    }
}

/* Rows of characters that stand in the table, as far as it has any, and one as it comes. */
static void put_rows(void)
{
    const uint8_t *table = library.memory[TABLE] + SLACK;
    unsigned start = take(), step = take() | 1, place = take_two() % 960;
    unsigned tile = start;
    for (size_t at = 0; at < 960; at++) {
        tile = (tile + step) % 256;
        for (int looked = 0; looked < 256 && table[tile] == 0; looked++)
            tile = (tile + 1) % 256;
        set_byte(ROWS, at, table[tile]);
    }
    if (start & 1)
        set_byte(ROWS, place, (uint8_t)take());
}

/* The page of a quarter of nametable RAM under the unit's wiring. */
static void put_quarter(void)
{
    uint8_t board = board_of(library.memory[UNIT][SLACK + PPU_AT_BOARD]);
    unsigned quarter = take();
    size_t start = ppu_quarter(board, quarter);
    if (start != second_quarter(board, quarter)) {
        fprintf(stderr, "DIFFERENCE of quarter %u, board %u: library %zu\n", quarter, board, start);
        abort();
    }
    for (size_t at = 0; at < 1024; at++)
        set_byte(SCREEN, at, library.memory[NAMETABLES][SLACK + start + at]);
}

/* The way back: the text of the page just written is its rows, and no tile is counted. */
static void come_back(void)
{
    uint8_t rows[2][960] = {{0}};
    uint64_t one = ppu_text(SLICE(library, SCREEN), SLICE(library, TABLE), rows[0], 960);
    uint64_t other = second_text(SLICE(second, SCREEN), SLICE(second, TABLE), rows[1], 960);
    for (int side = 0; side < 2; side++)
        if ((side ? other : one) != 0 || memcmp(rows[side], library.memory[ROWS] + SLACK, 960) != 0) {
            fprintf(stderr, "DIFFERENCE on the way back from a page: %s\n", side ? "second" : "library");
            abort();
        }
}

/* Text of a page, or page of a text with bit 4, after what the other bits ask for. */
static void text_layer(unsigned what)
{
    if (what & 32)
        put_table();
    if (what & 64 && what & 16)
        put_rows();
    else if (what & 64)
        put_quarter();
    if (what & 128)
        choose_near(SCREEN + (int)(take() % 3));
    if (what & 16) {
        uint64_t answer = ppu_page(SLICE(library, ROWS), SLICE(library, TABLE), SLICE(library, SCREEN));
        compare("page", answer, second_page(SLICE(second, ROWS), SLICE(second, TABLE), SLICE(second, SCREEN)));
        if (ppu_number(answer) == PPU_DONE)
            come_back();
        return;
    }
    compare("text", ppu_text(SLICE(library, SCREEN), SLICE(library, TABLE), SLICE(library, ROWS)),
            second_text(SLICE(second, SCREEN), SLICE(second, TABLE), SLICE(second, ROWS)));
}

/* The search on the next line, on a line of one byte or on any, also with one length near the right one. */
static void search(unsigned what)
{
    unsigned line = what & 32 ? take_two() : what & 64 ? take() : next_line();
    if (what & 128)
        choose_near(take() & 1 ? UNIT : OAM);
    compare("search", ppu_search(SLICE(library, UNIT), line, SLICE(library, OAM)),
            second_search(SLICE(second, UNIT), line, SLICE(second, OAM)));
}

/* The two units change places. */
static void exchange(struct side *side)
{
    static uint8_t kept[LONGEST + 2 * SLACK];
    for (int i = 0; i < 4; i++) {
        uint8_t *one = side->memory[own[0][i]], *other = side->memory[own[1][i]];
        memcpy(kept, one, sizeof kept);
        memcpy(one, other, sizeof kept);
        memcpy(other, kept, sizeof kept);
    }
}

/* A run by one of two units. */
static void shared_run(unsigned which, unsigned what)
{
    unsigned lines = what & 64 ? take() : 1, reason = what & 128 ? take() : take() % 3;
    if (library.memory[which == 1 ? UNIT1 : UNIT][SLACK + 1] & 0x18)
        lines %= MOST_LINES + 1;
    compare("shared run", ppu_shared_run(which, BOTH(library, UNIT), lines, reason, SHARED(library), BUFFERS(library)),
            second_shared_run(which, BOTH(second, UNIT), lines, reason, SHARED(second), BUFFERS(second)));
}

/* A call by one of two units, or by a number that is none of them, also with one length near the right one; or they change
   places. */
static void shared_call(void)
{
    unsigned what = take(), which = what & 8 ? take() : what >> 2 & 1, address, byte;
    if (what & 16) {
        exchange(&library);
        exchange(&second);
    }
    if (what & 32)
        choose_near((int)(take() % MEMORIES));
    switch (what & 3) {
    case 0:
        address = what & 64 ? take_two() : 0x2000 | take() % 8;
        compare("shared read", ppu_shared_read(which, BOTH(library, UNIT), address, SHARED(library)),
                second_shared_read(which, BOTH(second, UNIT), address, SHARED(second)));
        break;
    case 1:
        address = what & 64 ? take_two() : 0x2000 | take() % 8;
        byte = take();
        compare("shared write", ppu_shared_write(which, BOTH(library, UNIT), address, byte, SHARED(library)),
                second_shared_write(which, BOTH(second, UNIT), address, byte, SHARED(second)));
        break;
    case 2:
        compare("shared dma", ppu_shared_dma(which, BOTH(library, UNIT), BOTH(library, OAM), SLICE(library, PAGE)),
                second_shared_dma(which, BOTH(second, UNIT), BOTH(second, OAM), SLICE(second, PAGE)));
        break;
    case 3:
        shared_run(which, what);
        break;
    }
}

/* Steps 0 to 2: a read, a write, sprite DMA, a search, a call of the text layer or one of two units. */
static void access_memory(unsigned what)
{
    unsigned address, byte;
    switch (what & 7) {
    case 0:
        address = what & 8 ? take_two() : 0x2000 | what >> 4;
        compare("read", ppu_read(SLICE(library, UNIT), address, ACCESS(library)),
                second_read(SLICE(second, UNIT), address, ACCESS(second)));
        break;
    case 1:
        address = what & 8 ? take_two() : 0x2000 | what >> 4;
        byte = take();
        compare("write", ppu_write(SLICE(library, UNIT), address, byte, ACCESS(library)),
                second_write(SLICE(second, UNIT), address, byte, ACCESS(second)));
        break;
    case 2:
        if (what & 8)
            text_layer(what);
        else if (what & 16)
            search(what);
        else if (what & 224)
            shared_call();
        else
            compare("dma", ppu_dma(SLICE(library, UNIT), SLICE(library, OAM), SLICE(library, PAGE)),
                    second_dma(SLICE(second, UNIT), SLICE(second, OAM), SLICE(second, PAGE)));
        break;
    }
}

static void play_record(unsigned what)
{
    put_record(what & 8);
    if (what & 128)
        choose_near((int)(take() % MEMORIES));
    compare("play", ppu_play(SLICE(library, UNIT), SLICE(library, LOG), PICTURE(library)),
            second_play(SLICE(second, UNIT), SLICE(second, LOG), PICTURE(second)));
}

/* A run of one line, or with bit 3 of some; with bit 4 the reason is any byte, known or not. */
static void run_lines(unsigned what)
{
    unsigned lines = what & 8 ? take() : 1, reason = what & 16 ? take() : (what >> 5) % 3;
    if (is_drawn())
        lines %= MOST_LINES + 1;
    compare("run", ppu_run(SLICE(library, UNIT), lines, reason, PICTURE(library)),
            second_run(SLICE(second, UNIT), lines, reason, PICTURE(second)));
}

/* Steps 5 to 7: a byte of memory, sprites, a length or a fresh unit. */
static void change(unsigned what)
{
    unsigned address, byte, memory;
    switch (what & 7) {
    case 5:
        memory = what & 8 ? PAGE + (what >> 4) % (MEMORIES - PAGE) : what >> 4 & 7;
        address = take_two();
        set_byte(memory, address % held[memory], (uint8_t)take());
        break;
    case 6:
        if (what & 8)
            put_row(1 + (what >> 4));
        else
            put_sprite();
        break;
    case 7:
        memory = (what >> 4) % SCREEN;
        if (what & 8) {
            choose_length((int)memory, take_two() % (held[memory] + SLACK + 1));
        } else {
            byte = take();
            compare("fresh", ppu_fresh(SLICE(library, UNIT), byte), second_fresh(SLICE(second, UNIT), byte));
        }
        break;
    }
}

static void step(unsigned what)
{
    if ((what & 7) < 3)
        access_memory(what);
    else if ((what & 7) == 3)
        run_lines(what);
    else if ((what & 7) == 4)
        play_record(what);
    else
        change(what);
}

int LLVMFuzzerTestOneInput(const uint8_t *bytes, size_t size)
{
    static struct side contents[CONTENTS];
    static uint8_t filled[CONTENTS];
    if (size < 18)
        return 0;
    input = bytes + 16;
    left_over = size - 16;
    unsigned form = take(), choice = take() % CONTENTS;
    if (!filled[choice]) {
        fill(&contents[choice], choice);
        filled[choice] = 1;
    }
    library = contents[choice];
    memcpy(library.memory[UNIT] + SLACK, bytes, 16);
    if (!(form & 1))
        make_well_formed(library.memory[UNIT] + SLACK);
    make_well_formed(library.memory[UNIT1] + SLACK);
    if (form & 2)
        library.memory[UNIT][SLACK + PPU_AT_BOARD] &= ~PPU_WRITABLE;
    if (form & 4)
        library.memory[UNIT1][SLACK + PPU_AT_BOARD] &= ~PPU_WRITABLE;
    second = library;
    memset(chosen, 0, sizeof chosen);
    for (int steps = 0; left_over > 0 && steps < STEPS; steps++)
        step(take());
    return 0;
}
