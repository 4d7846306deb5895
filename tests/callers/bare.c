/* A program with no C library: it brings memcpy and memset and, for a processor that cannot multiply, the product; of the system it asks two things, to
   write and to end. It makes calls of every kind on memory that follows no rule and prints a sum over every answer and every byte: the same on
   every processor. With BARE_DIVIDES it executes a divide instruction of RISC-V first, which a processor without one refuses; with BARE_LINES it only
   runs so many lines, with BARE_MASK as mask, so that a line's instructions can be counted. */
#include "ppu.h"

__asm__(".text\n.globl _start\n_start:\n  call begin\n");

#if defined __x86_64__
enum { WRITE = 1, END = 60 };

static void ask(long what, long a, const void *b, long c)
{
    __asm__ volatile("syscall" : "+a"(what) : "D"(a), "S"(b), "d"(c) : "rcx", "r11", "memory");
}
#elif defined __riscv && __riscv_xlen == 64
enum { WRITE = 64, END = 93 };

static void ask(long what, long a, const void *b, long c)
{
    register long number __asm__("a7") = what, first __asm__("a0") = a, third __asm__("a2") = c;
    register const void *second __asm__("a1") = b;
    __asm__ volatile("ecall" : "+r"(first) : "r"(number), "r"(second), "r"(third) : "memory");
}
#else
#error "which system calls?"
#endif

/* volatile: else a compiler may make calls of memcpy and memset of these loops */
void *memcpy(void *to, const void *from, size_t n)
{
    for (size_t i = 0; i < n; i++)
        ((volatile uint8_t *)to)[i] = ((const uint8_t *)from)[i];
    return to;
}

void *memset(void *to, int byte, size_t n)
{
    for (size_t i = 0; i < n; i++)
        ((volatile uint8_t *)to)[i] = (uint8_t)byte;
    return to;
}

uint64_t __muldi3(uint64_t a, uint64_t b)
{
    uint64_t product = 0;
    for (; b; b >>= 1, a <<= 1)
        product += b & 1 ? a : 0;
    return product;
}

static uint8_t unit[PPU_RECORD_LENGTH], left[PPU_PATTERN_LENGTH], right[PPU_PATTERN_LENGTH], nametables[PPU_FOUR_PAGES_LENGTH];
static uint8_t oam[PPU_OAM_LENGTH], palette[PPU_PALETTE_LENGTH], page[PPU_PAGE_LENGTH], line[PPU_LINE_LENGTH], colours[PPU_COLOURS_LENGTH];
static uint8_t table[PPU_TABLE_LENGTH], rows[PPU_ROWS_LENGTH];
/* of a second unit on the same cartridge what is its own */
static uint8_t unit1[PPU_RECORD_LENGTH], nametables1[PPU_FOUR_PAGES_LENGTH], oam1[PPU_OAM_LENGTH], palette1[PPU_PALETTE_LENGTH];
static uint64_t state, sum, calls, lines;

/* nametable RAM as the unit's board has it */
#define NAMETABLES nametables, ppu_nametable_length(unit[PPU_AT_BOARD])
#define NAMETABLES1 nametables1, ppu_nametable_length(unit1[PPU_AT_BOARD])

static unsigned any(void)
{
    state ^= state << 13;
    state ^= state >> 7;
    state ^= state << 17;
    return (unsigned)(state >> 20 & 0xFFFF);
}

static void scatter(uint8_t *bytes, size_t n)
{
    for (size_t i = 0; i < n; i++)
        bytes[i] = (uint8_t)any();
}

static void add(uint64_t number) { sum = (sum << 7 | sum >> 57) ^ number; }

static void add_bytes(const uint8_t *bytes, size_t n)
{
    for (size_t i = 0; i < n; i++)
        add(bytes[i]);
}

/* a log's record of a kind that is known or not */
static uint64_t play(void)
{
    uint8_t record[PPU_LOG_RECORD_LENGTH];
    scatter(record, sizeof record);
    record[0] &= 3;
    record[1] = record[0] == 2 ? 0 : 0x20;
    if (record[0] != 1)
        record[3] = 0;
    return ppu_play(unit, sizeof unit, record, sizeof record, left, sizeof left, right, sizeof right, NAMETABLES, oam, sizeof oam,
                    palette, sizeof palette, line, sizeof line, colours, sizeof colours);
}

/* sprites stand close together, so that lines have nine and more */
static void scatter_page(void)
{
    for (size_t i = 0; i < sizeof page; i++)
        page[i] = (uint8_t)(any() & (i & 3 ? 255 : 63));
}

static uint64_t one_call(void)
{
    unsigned kind = any() & 7, number = any(), byte = any() & 255;
    unsigned address = 0x2000 + (number & 7);
    if (kind < 2)
        return ppu_read(unit, sizeof unit, (uint16_t)address, left, sizeof left, right, sizeof right, NAMETABLES, oam, sizeof oam,
                        palette, sizeof palette);
    if (kind < 4) /* the mask shows something more often than not */
        return ppu_write(unit, sizeof unit, (uint16_t)address, (uint8_t)(address == 0x2001 ? byte | 0x1E : byte), left, sizeof left, right,
                         sizeof right, NAMETABLES, oam, sizeof oam, palette, sizeof palette);
    if (kind == 4) {
        scatter_page();
        return ppu_dma(unit, sizeof unit, oam, sizeof oam, page, sizeof page);
    }
    if (kind == 5)
        return ppu_search(unit, sizeof unit, (uint16_t)(number & 255), oam, sizeof oam);
    if (kind == 6)
        return play();
    return ppu_run(unit, sizeof unit, (uint16_t)(number & 1 ? 1 : number >> 8), (uint8_t)(byte & 3), left, sizeof left, right, sizeof right,
                   NAMETABLES, oam, sizeof oam, palette, sizeof palette, line, sizeof line, colours, sizeof colours);
}

/* by one of two units, now and then with a number that is no unit's */
static uint64_t shared_call(void)
{
    unsigned kind = any() & 7, number = any(), byte = any() & 255, which = any() & 15 ? number >> 4 & 1 : byte;
    unsigned address = 0x2000 + (number & 7);
    if (kind < 2)
        return ppu_shared_read((uint8_t)which, unit, sizeof unit, unit1, sizeof unit1, (uint16_t)address, left, sizeof left, right,
                               sizeof right, NAMETABLES, NAMETABLES1, oam, sizeof oam, oam1, sizeof oam1, palette, sizeof palette,
                               palette1, sizeof palette1);
    if (kind < 5)
        return ppu_shared_write((uint8_t)which, unit, sizeof unit, unit1, sizeof unit1, (uint16_t)address,
                                (uint8_t)(address == 0x2001 ? byte | 0x1E : byte), left, sizeof left, right, sizeof right, NAMETABLES,
                                NAMETABLES1, oam, sizeof oam, oam1, sizeof oam1, palette, sizeof palette, palette1, sizeof palette1);
    if (kind == 5) {
        scatter_page();
        return ppu_shared_dma((uint8_t)which, unit, sizeof unit, unit1, sizeof unit1, oam, sizeof oam, oam1, sizeof oam1, page, sizeof page);
    }
    return ppu_shared_run((uint8_t)which, unit, sizeof unit, unit1, sizeof unit1, (uint16_t)(number & 1 ? 1 : number >> 8),
                          (uint8_t)(byte & 3), left, sizeof left, right, sizeof right, NAMETABLES, NAMETABLES1, oam, sizeof oam, oam1,
                          sizeof oam1, palette, sizeof palette, palette1, sizeof palette1, line, sizeof line, colours, sizeof colours);
}

static void text(void)
{
    scatter(table, sizeof table);
    add(ppu_text(nametables, PPU_NAMETABLE_PAGE_LENGTH, table, sizeof table, rows, sizeof rows));
    add_bytes(rows, sizeof rows);
    add(ppu_page(rows, sizeof rows, table, sizeof table, nametables, PPU_NAMETABLE_PAGE_LENGTH));
}

static void scatter_all(unsigned seed)
{
    state = 88172645463325252u + seed;
    scatter(left, sizeof left);
    scatter(right, sizeof right);
    scatter(nametables, PPU_NAMETABLE_LENGTH);
    scatter(oam, sizeof oam);
    scatter(palette, sizeof palette);
    scatter(nametables + PPU_NAMETABLE_LENGTH, sizeof nametables - PPU_NAMETABLE_LENGTH); /* last: the lines that are counted have two pages */
}

#ifdef BARE_LINES
static void some_lines(void)
{
    scatter_all(0);
    for (unsigned i = 0; i < 64; i++)
        oam[4 * i] = (uint8_t)(i & 0xF8); /* eight on each line */
    ppu_fresh(unit, sizeof unit, PPU_VERTICAL);
    unit[PPU_AT_MASK] = BARE_MASK;
    unit[PPU_AT_NEXT_LINE] = 1;
    ppu_run(unit, sizeof unit, BARE_LINES, PPU_RUN_ALL, left, sizeof left, right, sizeof right, NAMETABLES, oam, sizeof oam, palette,
            sizeof palette, line, sizeof line, colours, sizeof colours);
    ask(END, 0, NULL, 0);
}
#endif

/* what a call answers, and what it leaves of the unit and the buffers of a line */
static void add_call(uint64_t answer)
{
    calls += ppu_number(answer) == PPU_DONE;
    lines += ppu_lines(answer);
    add(answer);
    add_bytes(unit, sizeof unit);
    add_bytes(line, sizeof line);
    add_bytes(colours, sizeof colours);
}

/* the unit as it stands, and a second one: where the first one's board is writable, only the second one's calls succeed */
static void two_units(unsigned board)
{
    scatter(nametables1, sizeof nametables1);
    scatter(oam1, sizeof oam1);
    scatter(palette1, sizeof palette1);
    add(ppu_fresh(unit1, sizeof unit1, (uint8_t)(4 - (board & 3))));
    unit1[PPU_AT_WARMED_UP] = 1;
    for (int i = 0; i < 200; i++) {
        add_call(shared_call());
        add_bytes(unit1, sizeof unit1);
    }
    add_bytes(nametables1, sizeof nametables1);
    add_bytes(oam1, sizeof oam1);
    add_bytes(palette1, sizeof palette1);
}

/* calls on a board's unit */
static void session(unsigned board)
{
    scatter_all(board);
    sum = 0;
    add(ppu_fresh(unit, sizeof unit, (uint8_t)board));
    unit[PPU_AT_WARMED_UP] = 1;
    for (int i = 0; i < 400; i++)
        add_call(one_call());
    two_units(board);
    text();
    add_bytes(left, sizeof left);
    add_bytes(right, sizeof right);
    add_bytes(nametables, sizeof nametables);
    add_bytes(oam, sizeof oam);
    add_bytes(palette, sizeof palette);
}

static void print(const char *what, uint64_t number)
{
    static char said[] = "        0000000000000000\n";
    for (int i = 0; i < 7; i++)
        said[i] = what[i];
    for (int i = 0; i < 16; i++)
        said[8 + i] = "0123456789abcdef"[number >> (60 - 4 * i) & 15];
    ask(WRITE, 1, said, sizeof said - 1);
}

void begin(void)
{
#ifdef BARE_DIVIDES
    __asm__ volatile(".word 0x02b54533" ::: "a0"); /* div a0, a0, a1 */
#endif
#ifdef BARE_LINES
    some_lines();
#endif
    for (unsigned board = 0; board <= 16; board++) { /* where it is refused, the record stays */
        session(board);
        print("sum    ", sum);
    }
    print("done   ", calls);
    print("lines  ", lines);
    ask(END, 0, NULL, 0);
}
