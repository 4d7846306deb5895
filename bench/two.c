/* Measures the shared calls of two units beside the plain ones on the same memory, as bench.c measures the plain ones beside the peers.
     two time ROUNDS   ns, the least of so many rounds; in a round the plain call and those of units 0 and 1 take turns
     two count         does each piece of work once by each unit and by the plain call, with a call of `mark` before: for callgrind
   The calling unit's memory is the plain call's, whichever its number is. First all do every piece of work, and the program fails if they differ in
   an answer or a byte of memory, or if a byte of the other unit has changed. */
#define _POSIX_C_SOURCE 199309L
#include <stdio.h>
#include <stdlib.h>
#include "screens.h"

/* Who makes a call. A run of no line of the picture has a second plain peer, since the shared one fills both line buffers with zeros. */
enum { PLAIN, UNIT_0, UNIT_1, PLAIN_AND_ZEROS, CALLERS };

/* MEMORY: that of the calling unit, the tables and the line buffers are m's, of screens.h */
static _Alignas(64) Machine other;

#define OF(machine, part) (machine).part, sizeof (machine).part
#define OWN(part) OF(m, part)
#define PAIR(part) OF(*unit0, part), OF(*unit1, part)
#define TABLES OWN(left), OWN(right)
#define MEMORY(lent) lent(nametables), lent(oam), lent(palette)
#define BUFFERS OWN(line), OWN(colours)

/* CALLS */
#define UNITS \
    uint8_t which = who == UNIT_1; \
    Machine *unit0 = which ? &other : &m, *unit1 = which ? &m : &other

static inline uint64_t read_port(int who, unsigned address)
{
    if (who == PLAIN)
        return ppu_read(OWN(unit), (uint16_t)address, TABLES, MEMORY(OWN));
    UNITS;
    return ppu_shared_read(which, PAIR(unit), (uint16_t)address, TABLES, MEMORY(PAIR));
}

static inline uint64_t write_port(int who, unsigned address, unsigned byte)
{
    if (who == PLAIN)
        return ppu_write(OWN(unit), (uint16_t)address, (uint8_t)byte, TABLES, MEMORY(OWN));
    UNITS;
    return ppu_shared_write(which, PAIR(unit), (uint16_t)address, (uint8_t)byte, TABLES, MEMORY(PAIR));
}

static inline uint64_t dma(int who)
{
    if (who == PLAIN)
        return ppu_dma(OWN(unit), OWN(oam), OWN(page));
    UNITS;
    return ppu_shared_dma(which, PAIR(unit), PAIR(oam), OWN(page));
}

/* the reason to stop that the runs of a piece of work have */
static uint8_t reason;

/* the C library's memset, and nothing that a compiler puts in its place */
static void *(*volatile fill)(void *, int, size_t) = memset;

static inline uint64_t run(int who, unsigned n)
{
    if (who == PLAIN || who == PLAIN_AND_ZEROS) {
        uint64_t answer = ppu_run(OWN(unit), (uint16_t)n, reason, TABLES, MEMORY(OWN), BUFFERS);
        if (who == PLAIN_AND_ZEROS) {
            fill(m.line, 0, sizeof m.line);
            fill(m.colours, 0, sizeof m.colours);
        }
        return answer;
    }
    UNITS;
    return ppu_shared_run(which, PAIR(unit), (uint16_t)n, reason, TABLES, MEMORY(PAIR), BUFFERS);
}

/* PASSES: a pass does a piece of work and gives the number of calls, or lines. Each begins with the screen's record, so that all do the same; the sum
   of the answers is there to be compared. */
typedef unsigned Pass(int);

static uint64_t sum;

static inline void begin(void) { memcpy(m.unit, start, sizeof start); }

static inline unsigned reads(int who, unsigned address)
{
    begin();
    for (int i = 0; i < 1000; i++)
        sum += read_port(who, address);
    return 1000;
}

static unsigned read_status(int who) { return reads(who, 0x2002); }
static unsigned read_data(int who) { return reads(who, 0x2007); }

static inline unsigned writes(int who, unsigned address)
{
    begin();
    for (unsigned i = 0; i < 1000; i++)
        sum += write_port(who, address, i);
    return 1000;
}

static unsigned write_control(int who) { return writes(who, 0x2000); }
static unsigned write_oamaddr(int who) { return writes(who, 0x2003); }
static unsigned write_oam(int who) { return writes(who, 0x2004); }
static unsigned write_data(int who) { return writes(who, 0x2007); }

static unsigned sprite_dma(int who)
{
    begin();
    for (int i = 0; i < 100; i++)
        sum += dma(who);
    return 100;
}

/* a screen's lines in calls of n; a call that asks for more than they are must stop after the last of them */
static inline unsigned draw(int who, unsigned n)
{
    unsigned done = 0;
    for (; done < 240; done += lines) {
        begin();
        for (unsigned i = 0; i < lines; i += n)
            sum += run(who, n);
    }
    return done;
}

static unsigned draw_lines(int who) { return draw(who, 1); }
static unsigned draw_frames(int who) { return draw(who, 262); }

/* calls of no line, and of all the lines of the vertical blank */
static inline unsigned blank(int who, unsigned n)
{
    for (int i = 0; i < 100; i++) {
        begin();
        sum += run(who, n);
    }
    return 100;
}

static unsigned run_none(int who) { return blank(who, 0); }
static unsigned run_blank(int who) { return blank(who, 20); }

/* WORK: how memory stands before it, its pass, the reason to stop of its runs, and whether these have none of lines 0 to 239. Accesses are made with
   the screen off, so that none is refused. */
typedef struct {
    const char *name;
    void (*set)(void);
    Pass *pass;
    uint8_t reason;
    int blank;
} Work;

static void at_nametables(void)
{
    screen_off();
    set_word(start, PPU_AT_V, 0x2000);
}

static void oamaddr_37(void)
{
    screen_off();
    start[PPU_AT_OAMADDR] = 37;
}

#define CALL(name, set, pass) { name, set, pass, PPU_RUN_ALL, 0 }
#define BLANK(name, set, pass) { name, set, pass, PPU_RUN_ALL, 1 }

static const Work calls[] = {
    CALL("read of port 2", screen_off, read_status),
    CALL("read of port 7", at_nametables, read_data),
    CALL("write to port 0", screen_off, write_control),
    CALL("write to port 3", screen_off, write_oamaddr),
    CALL("write to port 4", screen_off, write_oam),
    CALL("write to port 7", at_nametables, write_data),
    CALL("sprite DMA, OAMADDR 0", screen_off, sprite_dma),
    CALL("sprite DMA, OAMADDR 37", oamaddr_37, sprite_dma),
    CALL("run of 1 line: off", screen_off, draw_lines),
    CALL("run of 1 line: off, backdrop override", backdrop_override, draw_lines),
    CALL("run of 1 line: background only", background_only, draw_lines),
    CALL("run of 1 line: about three sprites", three_sprites, draw_lines),
    CALL("run of 1 line: eight sprites", eight_sprites, draw_lines),
    BLANK("run of 0 lines", screen_off, run_none),
    BLANK("run of 1 line: 242 to 261", vertical_blank, draw_lines),
    BLANK("run of 20 lines: 242 to 261", vertical_blank, run_blank),
};

static const Work frames[] = {
    { "262 lines asked for, NMI met after all: about three sprites a line", whole_frame, draw_frames, PPU_UNTIL_NMI, 0 },
    { "262 lines asked for, hit after 52: about three sprites a line", up_to_hit, draw_frames, PPU_UNTIL_HIT, 0 },
};

#define COUNT(work) sizeof work / sizeof *work
enum { CALLS = COUNT(calls), FRAMES = COUNT(frames) };

static int takes_part(const Work *w, int who) { return who != PLAIN_AND_ZEROS || w->blank; }

static void set_up(const Work *w)
{
    w->set();
    start[PPU_AT_BOARD] = PPU_VERTICAL;
    reason = w->reason;
    scatter((uint8_t *)&other, sizeof other); /* no record at all: nothing of the other unit is looked at */
}

/* THEY AGREE: the two units with the plain call, and where it leaves the line buffers as they were, with zeros behind it */
static void agree(const Work *w)
{
    static Machine from, wanted, untouched;
    set_up(w);
    from = m;
    untouched = other;
    sum = 0;
    w->pass(w->blank ? PLAIN_AND_ZEROS : PLAIN);
    uint64_t answers = sum;
    wanted = m;
    for (int who = UNIT_0; who <= UNIT_1; who++) {
        m = from;
        sum = 0;
        w->pass(who);
        if (sum != answers || memcmp(&m, &wanted, sizeof m) || memcmp(&other, &untouched, sizeof other)) {
            fprintf(stderr, "bench: the shared call of unit %d differs from the plain one: %s\n", who - UNIT_0, w->name);
            exit(1);
        }
    }
}

/* TIME: the least that each piece of work took */
static double of_calls[CALLS][CALLERS], of_frames[FRAMES][CALLERS];

static void time_rounds(const Work *work, int count, double (*into)[CALLERS], int rounds)
{
    for (int i = 0; i < count; i++) {
        set_up(&work[i]);
        for (int r = 0; r <= rounds; r++)
            for (int who = 0; who < CALLERS; who++) {
                if (!takes_part(&work[i], who))
                    continue;
                double before = now(CLOCK_MONOTONIC);
                unsigned n = work[i].pass(who);
                double each = (now(CLOCK_MONOTONIC) - before) / n;
                if (r > 0 && (into[i][who] == 0 || each < into[i][who]))
                    into[i][who] = each;
            }
    }
}

enum { BLOCKS = 10 };

/* as in bench.c: each block of rounds has the stack elsewhere in its page */
static void time_block(int block, int rounds)
{
    volatile char room[1 + 400 * block];
    (void)room;
    time_rounds(calls, CALLS, of_calls, rounds);
    time_rounds(frames, FRAMES, of_frames, rounds);
}

static void print_row(const char *name, const char *beside, const double *ns, int peer)
{
    printf("| %s%s | %.1f | **%.1f** | %+.1f | **%.1f** | %+.1f |\n", name, beside, ns[peer], ns[UNIT_0], ns[UNIT_0] - ns[peer], ns[UNIT_1],
           ns[UNIT_1] - ns[peer]);
}

static void print_work(const char *title, const Work *work, int count, double (*ns)[CALLERS])
{
    printf("\n%s, plain and shared\n\n| call | plain | unit 0 | difference | unit 1 | difference |\n|---|---|---|---|---|---|\n", title);
    for (int i = 0; i < count; i++) {
        print_row(work[i].name, "", ns[i], PLAIN);
        if (work[i].blank)
            print_row(work[i].name, ", beside `ppu_run` and two `memset`", ns[i], PLAIN_AND_ZEROS);
    }
}

/* COUNT: a line for each unit's turn at a piece of work, as bench/instructions.awk takes it */
void mark(void);

static void count_all(const char *kind, const Work *work, int count)
{
    for (int i = 0; i < count; i++)
        for (int who = UNIT_0; who <= UNIT_1; who++) {
            set_up(&work[i]);
            mark();
            work[i].pass(PLAIN);
            unsigned n = work[i].pass(who);
            printf("%s\t%s, unit %d\t%u\n", kind, work[i].name, who - UNIT_0, n);
        }
}

int main(int argc, char **argv)
{
    const char *mode = argc > 1 ? argv[1] : "";
    int rounds = argc > 2 ? atoi(argv[2]) : 0;
    for (int i = 0; i < CALLS; i++)
        agree(&calls[i]);
    for (int i = 0; i < FRAMES; i++)
        agree(&frames[i]);
    if (!strcmp(mode, "count")) {
        count_all("shared call", calls, CALLS);
        count_all("shared line", frames, FRAMES);
        mark();
        return 0;
    }
    if (strcmp(mode, "time") || rounds < BLOCKS) {
        fprintf(stderr, "usage: two time ROUNDS (10 or more), or two count\n");
        return 2;
    }
    for (int block = 0; block < BLOCKS; block++)
        time_block(block, rounds / BLOCKS);
    print_work("ns a call", calls, CALLS, of_calls);
    print_work("ns a line of a run", frames, FRAMES, of_frames);
    return 0;
}
