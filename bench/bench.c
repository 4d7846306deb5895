/* Measures the calls of include/ppu.h and of the peer drawers on the same memory.
     bench time ROUNDS   ns, the least of so many rounds; in a round the drawers take turns
     bench count         does each piece of work once for each drawer, with a call of `mark` before each: for callgrind
   First all drawers do every piece of work, and before times are taken a thousand lines with crowded OAM. The program fails if two of them differ
   in a pixel, a colour, a record, a byte of memory, or the answer of a run or a search. What the archive before does otherwise is only told. */
#define _POSIX_C_SOURCE 199309L
#include <stdio.h>
#include <stdlib.h>
#include "drawers.h"
#include "screens.h"
#include "shared.h"

/* MEMORY, as a drawer's call is lent it */
#define TABLES m.left, sizeof m.left, m.right, sizeof m.right, m.nametables, sizeof m.nametables, OAM
#define PALETTE m.palette, sizeof m.palette
#define LINE m.line, sizeof m.line, m.colours, sizeof m.colours
#define UNIT m.unit, sizeof m.unit
#define OAM m.oam, sizeof m.oam

/* the reason to stop that the runs of a piece of work have */
static uint8_t reason;

/* At most n lines by one drawer. An archive from before request 3 takes no reason: one line is the same by each, and a run is one up to NMI. */
static inline uint64_t run(const Drawer *d, unsigned n)
{
    if (!d->old_run)
        return d->run(UNIT, (uint16_t)n, reason, TABLES, PALETTE, LINE);
    if (n == 1)
        return d->old_line(UNIT, TABLES, PALETTE, LINE);
    return d->old_run(UNIT, (uint16_t)n, TABLES, PALETTE, LINE);
}

/* PASSES: a pass does a piece of work by one drawer and gives the number of calls, or lines; 0 if the drawer does not have the call */
typedef unsigned Pass(const Drawer *);

/* a screen's lines in calls of n; a call that asks for more than they are must stop after the last of them */
static inline unsigned draw(const Drawer *d, unsigned n)
{
    unsigned done = 0;
    for (; done < 240; done += lines) {
        memcpy(m.unit, start, sizeof start);
        for (unsigned i = 0; i < lines; i += n)
            run(d, n);
    }
    return done;
}

static unsigned draw_lines(const Drawer *d) { return draw(d, 1); }
static unsigned draw_frames(const Drawer *d) { return draw(d, lines); }

/* The run that waits for the hit is asked for a whole frame; to compare, the others are asked for the lines up to the hit. */
static unsigned hit_asks(void) { return reason == PPU_UNTIL_HIT ? 262 : lines; }
static unsigned draw_to_hit(const Drawer *d) { return d->old_run && reason == PPU_UNTIL_HIT ? 0 : draw(d, hit_asks()); }

/* ten pictures in calls of n lines */
static unsigned run_lines(const Drawer *d, unsigned n)
{
    unsigned all = n > 2620 ? n : 2620;
    memcpy(m.unit, start, sizeof start);
    for (unsigned done = 0; done < all; done += n)
        run(d, n);
    return all;
}

static unsigned run_1(const Drawer *d) { return run_lines(d, 1); }
static unsigned run_262(const Drawer *d) { return run_lines(d, 262); }
static unsigned run_2620(const Drawer *d) { return run_lines(d, 2620); }
static unsigned run_26200(const Drawer *d) { return run_lines(d, 26200); }

static unsigned run_none(const Drawer *d)
{
    for (int i = 0; i < 1000; i++)
        run(d, 0);
    return 1000;
}

static unsigned blank_lines(const Drawer *d)
{
    for (int i = 0; i < 50; i++) {
        set_word(m.unit, PPU_AT_NEXT_LINE, 242);
        for (int k = 0; k < 18; k++)
            run(d, 1);
    }
    return 50 * 18;
}

static unsigned reads(const Drawer *d, unsigned address)
{
    for (int i = 0; i < 1000; i++)
        d->read(UNIT, (uint16_t)address, TABLES, PALETTE);
    return 1000;
}

static unsigned read_status(const Drawer *d) { return reads(d, 0x2002); }
static unsigned read_data(const Drawer *d) { return reads(d, 0x2007); }

static void write_at(const Drawer *d, unsigned address, unsigned byte)
{
    d->write(UNIT, (uint16_t)address, (uint8_t)byte, TABLES, PALETTE);
}

static unsigned write_scroll(const Drawer *d)
{
    for (unsigned i = 0; i < 1000; i++)
        write_at(d, 0x2005, i);
    return 1000;
}

/* a page of nametable RAM, after its address */
static unsigned write_data(const Drawer *d)
{
    write_at(d, 0x2006, 0x20);
    write_at(d, 0x2006, 0x00);
    for (unsigned i = 0; i < 1024; i++)
        write_at(d, 0x2007, i);
    return 1026;
}

static unsigned write_oam(const Drawer *d)
{
    for (unsigned i = 0; i < 1024; i++)
        write_at(d, 0x2004, i);
    return 1024;
}

static unsigned sprite_dma(const Drawer *d, unsigned oamaddr)
{
    m.unit[PPU_AT_OAMADDR] = (uint8_t)oamaddr;
    for (unsigned i = 0; i < 100; i++)
        d->dma(UNIT, OAM, m.page, sizeof m.page);
    return 100;
}

static unsigned dma_from_0(const Drawer *d) { return sprite_dma(d, 0); }
static unsigned dma_from_37(const Drawer *d) { return sprite_dma(d, 37); }

/* the search on each of a screen's lines */
static unsigned searches(const Drawer *d)
{
    unsigned done = 0, first = start[PPU_AT_NEXT_LINE];
    for (; d->search && done < 1000; done += lines)
        for (unsigned i = 0; i < lines; i++)
            d->search(UNIT, (uint16_t)(first + i), OAM);
    return done;
}

/* a record of a log, a thousand times */
static unsigned plays(const Drawer *d, const uint8_t *record)
{
    for (int i = 0; i < 1000; i++)
        d->play(UNIT, record, PPU_LOG_RECORD_LENGTH, TABLES, PALETTE, LINE);
    return 1000;
}

static unsigned play_read(const Drawer *d) { return plays(d, (const uint8_t[]){ 0, 0x20, 0x02, 0 }); }
static unsigned play_write(const Drawer *d) { return plays(d, (const uint8_t[]){ 1, 0x20, 0x07, 0x55 }); }

/* a log's run of n lines, from a screen's first on */
static unsigned play_run(const Drawer *d, unsigned n)
{
    const uint8_t record[PPU_LOG_RECORD_LENGTH] = { 2, 0, (uint8_t)n, 0 };
    for (unsigned i = 0; i < 480 / n; i++) {
        memcpy(m.unit, start, sizeof start);
        d->play(UNIT, record, sizeof record, TABLES, PALETTE, LINE);
    }
    return 480 / n;
}

static unsigned play_1(const Drawer *d) { return play_run(d, 1); }
static unsigned play_20(const Drawer *d) { return play_run(d, 20); }

/* WORK: how memory stands before it, its pass, and the reason to stop of its runs. Calls are made with the screen off, so that none is refused; a
   search and a log's run have the screen of their name. Runs by their length and by their reason are the archives' only. */
typedef struct {
    const char *name;
    void (*set)(void);
    Pass *pass;
    uint8_t reason;
} Work;

static void set_up(const Work *w)
{
    w->set();
    reason = w->reason;
}

#define ALL_SCREENS(pass, reason) \
    { "off", screen_off, pass, reason }, \
    { "off, backdrop override", backdrop_override, pass, reason }, \
    { "background only", background_only, pass, reason }, \
    { "text", text, pass, reason }, \
    { "about three sprites a line", three_sprites, pass, reason }, \
    { "eight sprites a line", eight_sprites, pass, reason }, \
    { "eight of 8x16 a line, flipped", tall_sprites, pass, reason }, \
    { "eight first, the rest $FF", eight_first, pass, reason }, \
    { "eight last, the rest $FF", eight_last, pass, reason }, \
    { "nine first, the rest $FF", nine_first, pass, reason }, \
    { "random", random_screen, pass, reason }

static const Work screens[] = { ALL_SCREENS(draw_lines, PPU_RUN_ALL) };
static const Work frames[] = { ALL_SCREENS(draw_frames, PPU_UNTIL_NMI) };

#define CALL(name, set, pass) { name, set, pass, PPU_RUN_ALL }

static const Work calls[] = {
    CALL("`ppu_run` of 0 lines", screen_off, run_none),
    CALL("`ppu_run` of 1 line on lines 242 to 259", screen_off, blank_lines),
    CALL("`ppu_read` of port 2", screen_off, read_status),
    CALL("`ppu_read` of port 7", screen_off, read_data),
    CALL("`ppu_write` to port 5", screen_off, write_scroll),
    CALL("`ppu_write` to port 7", screen_off, write_data),
    CALL("`ppu_write` to port 4", screen_off, write_oam),
    CALL("`ppu_dma`, OAMADDR 0", screen_off, dma_from_0),
    CALL("`ppu_dma`, OAMADDR 37", screen_off, dma_from_37),
    CALL("`ppu_search`, fewer than eight in range", random_screen, searches),
    CALL("`ppu_search`, eight first, the rest $FF", eight_first, searches),
    CALL("`ppu_search`, eight last, the rest $FF", eight_last, searches),
    CALL("`ppu_play` of a read of port 2", screen_off, play_read),
    CALL("`ppu_play` of a write to port 7", screen_off, play_write),
    CALL("`ppu_play` of 1 line, blank", vertical_blank, play_1),
    CALL("`ppu_play` of 20 lines, blank", vertical_blank, play_20),
    CALL("`ppu_play` of 1 line, background only", background_only, play_1),
    CALL("`ppu_play` of 20 lines, background only", background_only, play_20),
};

static const Work runs[] = {
    { "1", three_sprites, run_1, PPU_UNTIL_NMI },
    { "262", three_sprites, run_262, PPU_UNTIL_NMI },
    { "2,620", three_sprites, run_2620, PPU_UNTIL_NMI },
    { "26,200", three_sprites, run_26200, PPU_UNTIL_NMI },
};

#define BY_REASON(name, set, pass) \
    { name ", `PPU_RUN_ALL`", set, pass, PPU_RUN_ALL }, \
    { name ", `PPU_UNTIL_NMI`", set, pass, PPU_UNTIL_NMI }, \
    { name ", `PPU_UNTIL_HIT`", set, pass, PPU_UNTIL_HIT }

static const Work reasons[] = {
    BY_REASON("1 line: 245, mask on", blank_on, draw_lines),
    BY_REASON("1 line: 245, mask off", blank_off, draw_lines),
    BY_REASON("1 line: off", screen_off, draw_lines),
    BY_REASON("1 line: background only", background_only, draw_lines),
    BY_REASON("1 line: about three sprites", three_sprites, draw_lines),
    BY_REASON("1 line: eight sprites", eight_sprites, draw_lines),
    BY_REASON("262 lines: about three sprites a line", whole_frame, draw_frames),
    BY_REASON("up to the hit: about three sprites a line", up_to_hit, draw_to_hit),
};

#define COUNT(work) sizeof work / sizeof *work
enum { SCREENS = COUNT(screens), CALLS = COUNT(calls), RUNS = COUNT(runs), REASONS = COUNT(reasons) };

/* THE DRAWERS AGREE */
static void fail(const Work *w, const Drawer *d, const char *how, unsigned line)
{
    fprintf(stderr, "bench: %s %s: %s, line %u\n", d->name, how, w->name, line);
    exit(1);
}

/* the lines that a call of a pass asks for, 0 for a pass that has no such call */
static unsigned asks(const Work *w)
{
    return w->pass == draw_lines ? 1 : w->pass == draw_frames ? lines : w->pass == draw_to_hit ? hit_asks() : 0;
}

/* the memory after one such call, or after a whole pass, and the search on a line of the picture; a pass counts on what its call ran */
static void agree_on(const Work *w, unsigned line)
{
    static Machine from, after;
    uint64_t answer = 0, found = 0;
    unsigned n = asks(w);
    from = m;
    for (int k = 0; k < DRAWERS; k++) {
        m = from;
        uint64_t given = n ? run(&drawers[k], n) : w->pass(&drawers[k]);
        uint64_t searched = drawers[k].search(UNIT, (uint16_t)line, OAM);
        if (n && ppu_lines(given) != (n < lines ? n : lines))
            fail(w, &drawers[k], "stops elsewhere", line);
        if (k == 0) {
            after = m;
            answer = given;
            found = searched;
        } else if (given != answer || searched != found || memcmp(&m, &after, sizeof m))
            fail(w, &drawers[k], "differs from the archive", line);
    }
}

static void agree(const Work *w)
{
    unsigned steps = w->pass == draw_lines ? 240 : 1;
    set_up(w);
    memcpy(m.unit, start, sizeof start);
    for (unsigned i = 0; i < steps; i++)
        agree_on(w, i);
}

/* lines with so many bytes of OAM about them that the eighth sprite, and the one that sets the bit, stand anywhere */
static void agree_crowded(const Work *w)
{
    set_up(w);
    for (unsigned i = 0; i < 1000; i++) {
        unsigned line = any(240), rare = 1 + any(40);
        for (unsigned k = 0; k < sizeof m.oam; k++)
            m.oam[k] = (uint8_t)(any(rare) ? 255 : line - any(20));
        m.unit[PPU_AT_CONTROL] ^= 0x20;
        m.unit[PPU_AT_STATUS] = 0;
        set_word(m.unit, PPU_AT_NEXT_LINE, line);
        agree_on(w, line);
    }
}

static void all_agree(const Work *work, int count)
{
    for (int i = 0; i < count; i++)
        agree(&work[i]);
}

/* THE SEARCH, on the lines of each screen that is drawn */
static unsigned in_range(unsigned line)
{
    unsigned count = 0, height = m.unit[PPU_AT_CONTROL] & 0x20 ? 16 : 8;
    for (unsigned i = 0; i < sizeof m.oam; i += 4)
        count += m.oam[i] <= line && line < m.oam[i] + height;
    return count;
}

static void print_search(const Work *w)
{
    unsigned few = 0, to_the_end = 0, set = 0, looked = 0;
    w->set();
    memcpy(m.unit, start, sizeof start);
    for (unsigned line = start[PPU_AT_NEXT_LINE], end = line + lines; line < end; line++) {
        m.unit[PPU_AT_STATUS] = 0;
        ppu_run(UNIT, 1, PPU_RUN_ALL, TABLES, PALETTE, LINE);
        if (m.unit[PPU_AT_STATUS] & 0x20) {
            set++;
            looked += ppu_looked(ppu_search(UNIT, (uint16_t)line, OAM));
        } else if (in_range(line) < 8)
            few++;
        else
            to_the_end++;
    }
    printf("| %s | %u | %u | %u |", w->name, few, to_the_end, set);
    if (set)
        printf(" %.1f", (double)looked / set);
    printf(" |\n");
}

static void print_searches(void)
{
    printf("\nlines of the screens that are drawn, by what the search for overflow does on them\n\n");
    printf("| screen | fewer than eight in range | eight, and not set | set | sprites looked at where set |\n|---|---|---|---|---|\n");
    for (int i = 0; i < SCREENS; i++) {
        screens[i].set();
        if (start[PPU_AT_MASK] & 0x18)
            print_search(&screens[i]);
    }
}

/* WHAT MOVED: the lines of the screens, each from a status of 0, and those that the archive before gives otherwise */
static struct {
    unsigned lines, pictures, records;
    uint8_t bits[PPU_RECORD_LENGTH];
} moved;

static void compare_line(const Work *w)
{
    static Machine from, after;
    m.unit[PPU_AT_STATUS] = 0;
    from = m;
    run(&drawers[0], 1);
    after = m;
    m = from;
    unsigned number = ppu_number(run(&drawers[BEFORE_AT], 1));
    if (number != PPU_DONE) {
        fprintf(stderr, "bench: the archive before gives %u: %s\n", number, w->name);
        exit(1);
    }
    moved.lines++;
    moved.pictures += memcmp(m.line, after.line, sizeof m.line) || memcmp(m.colours, after.colours, sizeof m.colours);
    moved.records += memcmp(m.unit, after.unit, sizeof m.unit) != 0;
    for (unsigned i = 0; i < sizeof m.unit; i++)
        moved.bits[i] |= m.unit[i] ^ after.unit[i];
    m = after;
}

static void print_moved(void)
{
    for (int i = 0; i < SCREENS; i++) {
        set_up(&screens[i]);
        memcpy(m.unit, start, sizeof start);
        for (unsigned k = 0; k < lines; k++)
            compare_line(&screens[i]);
    }
    printf("\nbefore and after: of the %u lines of the screens %u differ in pixels or colours, %u in the record", moved.lines, moved.pictures, moved.records);
    for (unsigned i = 0; i < sizeof moved.bits; i++)
        if (moved.bits[i])
            printf("; byte %u by $%02X", i, moved.bits[i]);
    printf("\n");
}

/* TIME */
/* the least that each piece of work took; 0 where a drawer cannot do it */
static double of_screens[SCREENS][MEASURED], of_frames[SCREENS][MEASURED], of_calls[CALLS][MEASURED], of_runs[RUNS][MEASURED];
static double of_reasons[REASONS][MEASURED];

/* those who do a piece of work: all, or the archives alone */
enum { ALL, ARCHIVES };

static int takes_part(int k, int who) { return who == ALL || k == 0 || k >= DRAWERS; }

/* A long pass is timed by the processor time of this process, which leaves out what others took of it meanwhile. */
static void time_rounds(const Work *work, int count, double (*into)[MEASURED], int who, int rounds, clockid_t clock)
{
    for (int i = 0; i < count; i++) {
        set_up(&work[i]);
        for (int r = 0; r <= rounds; r++)
            for (int k = 0; k < MEASURED; k++) {
                if (!takes_part(k, who))
                    continue;
                double before = now(clock);
                unsigned n = work[i].pass(&drawers[k]);
                double each = (now(clock) - before) / n;
                if (r > 0 && n > 0 && (into[i][k] == 0 || each < into[i][k]))
                    into[i][k] = each;
            }
    }
}

/* the peers that the archive is measured by: the plain ones are only shown */
static int is_measure(int k) { return strncmp(drawers[k].name, "plain", 5) != 0; }

static void heads(const char *ours)
{
    printf("| screen | %s |", ours);
    for (int k = 1; k < DRAWERS; k++)
        printf(" %s |", drawers[k].name);
    for (int k = 1; k < DRAWERS; k++)
        if (is_measure(k))
            printf(" / %s |", drawers[k].name);
    printf("\n|---|---|");
    for (int k = 1; k < DRAWERS; k++)
        printf(is_measure(k) ? "---|---|" : "---|");
    printf("\n");
}

static void print_screens(const char *title, const char *ours, double (*ns)[MEASURED])
{
    printf("\n%s\n\n", title);
    heads(ours);
    for (int i = 0; i < SCREENS; i++) {
        printf("| %s |", screens[i].name);
        for (int k = 0; k < DRAWERS; k++)
            printf(k ? " %.0f |" : " **%.0f** |", ns[i][k]);
        for (int k = 1; k < DRAWERS; k++)
            if (is_measure(k))
                printf(" %.2f |", ns[i][0] / ns[i][k]);
        printf("\n");
    }
}

static void print_calls(double (*ns)[MEASURED])
{
    printf("\nns a call, and millions of calls a second\n\n| call | ns | millions a second |");
    for (int k = 1; k < DRAWERS; k++)
        printf(" ns, %s |", drawers[k].name);
    printf("\n|---|---|---|");
    for (int k = 1; k < DRAWERS; k++)
        printf("---|");
    printf("\n");
    for (int i = 0; i < CALLS; i++) {
        printf("| %s | **%.1f** | %.1f |", calls[i].name, ns[i][0], 1000 / ns[i][0]);
        for (int k = 1; k < DRAWERS; k++)
            printf(" %.1f |", ns[i][k]);
        printf("\n");
    }
}

static void print_runs(double (*ns)[MEASURED])
{
    printf("\n`ppu_run`, pictures with about three sprites a line: ns a line by the lines of one call\n\n");
    printf("| lines a call | ns a line | of the ns a line with 262 |\n|---|---|---|\n");
    double least = ns[0][0], most = ns[0][0];
    for (int i = 0; i < RUNS; i++) {
        printf("| %s | %.1f | %.3f |\n", runs[i].name, ns[i][0], ns[i][0] / ns[1][0]);
        least = ns[i][0] < least ? ns[i][0] : least;
        most = ns[i][0] > most ? ns[i][0] : most;
    }
    printf("\nn lines cost n times a line: taken as %.1f ns, it fits all of them within %.1f %%.\n", (most + least) / 2, 100 * (most - least) / (most + least));
}

/* a row for what is run, a column for each reason */
static void print_reasons(double (*ns)[MEASURED])
{
    printf("\nns a line of `ppu_run`, by its reason to stop\n\n");
    printf("| lines of a call | `PPU_RUN_ALL` | `PPU_UNTIL_NMI` | `PPU_UNTIL_HIT` |\n|---|---|---|---|\n");
    for (int i = 0; i < REASONS; i += 3) {
        const char *name = reasons[i].name;
        printf("| %.*s | %.1f | %.1f | %.1f |\n", (int)(strstr(name, ", `") - name), name, ns[i][0], ns[i + 1][0], ns[i + 2][0]);
    }
}

static void print_before(const char *title, const char *first, const Work *work, int count, double (*ns)[MEASURED])
{
    printf("\n%s, before and after\n\n| %s | before | after | after / before | difference |\n|---|---|---|---|---|\n", title, first);
    for (int i = 0; i < count; i++) {
        double before = ns[i][BEFORE_AT], after = ns[i][0], more = after - before;
        if (before > 0)
            printf("| %s | %.1f | **%.1f** | %.3f | %+.1f |\n", work[i].name, before, after, after / before, more * more < 0.0025 ? 0 : more);
    }
}

enum { BLOCKS = 10 };

/* A block of rounds. Each has the stack elsewhere in its page, so that no drawer's figure hangs on where its locals happen to lie. */
static void time_block(int block, int rounds)
{
    volatile char room[1 + 400 * block];
    (void)room;
    time_rounds(screens, SCREENS, of_screens, ALL, rounds, CLOCK_MONOTONIC);
    time_rounds(frames, SCREENS, of_frames, ALL, rounds, CLOCK_MONOTONIC);
    time_rounds(calls, CALLS, of_calls, ALL, rounds, CLOCK_MONOTONIC);
    time_rounds(reasons, REASONS, of_reasons, ARCHIVES, rounds, CLOCK_MONOTONIC);
    time_rounds(runs, RUNS, of_runs, ARCHIVES, 2 + rounds / 20, CLOCK_PROCESS_CPUTIME_ID);
}

static void time_all(int rounds)
{
    for (int block = 0; block < BLOCKS; block++)
        time_block(block, rounds / BLOCKS);
    print_screens("ns a line in runs of a frame, and the ratio of `ppu_run` to the peers", "`ppu_run`", of_frames);
    print_screens("ns a line, one to a call, and the ratio of `ppu_run` to the peers", "`ppu_run`", of_screens);
    print_calls(of_calls);
    print_reasons(of_reasons);
    print_runs(of_runs);
    print_searches();
    if (HAS_BEFORE) {
        print_before("ns a line in runs of a frame", "screen", frames, SCREENS, of_frames);
        print_before("ns a line, one to a call", "screen", screens, SCREENS, of_screens);
        print_before("ns a line of `ppu_run`, by its reason to stop", "lines of a call", reasons, REASONS, of_reasons);
        print_before("ns a call", "call", calls, CALLS, of_calls);
        print_moved();
    }
}

/* COUNT */
void mark(void);

/* what stands on a line by itself of what is printed: the work's kind and name, and the calls or lines that the archive did */
static void count_all(const char *kind, const Work *work, int count, int who)
{
    for (int i = 0; i < count; i++) {
        unsigned n = 0;
        mark();
        for (int k = 0; k < MEASURED; k++) {
            set_up(&work[i]); /* for each: how many instructions an access takes goes by where v leads */
            unsigned done = takes_part(k, who) ? work[i].pass(&drawers[k]) : 0;
            n = k ? n : done;
        }
        printf("%s\t%s\t%u\n", kind, work[i].name, n);
    }
}

int main(int argc, char **argv)
{
    const char *mode = argc > 1 ? argv[1] : "";
    int rounds = argc > 2 ? atoi(argv[2]) : 0;
    all_agree(screens, SCREENS);
    all_agree(frames, SCREENS);
    all_agree(calls, CALLS);
    all_agree(reasons, REASONS);
    all_agree(runs, RUNS - 1);
    if (!strcmp(mode, "count")) {
        count_all("frame", frames, SCREENS, ALL);
        count_all("screen", screens, SCREENS, ALL);
        count_all("call", calls, CALLS, ALL);
        count_all("reason", reasons, REASONS, ARCHIVES);
        count_all("run", runs, RUNS, ARCHIVES);
        mark();
        return 0;
    }
    if (strcmp(mode, "time") || rounds < 10) {
        fprintf(stderr, "usage: bench time ROUNDS (10 or more), or bench count\n");
        return 2;
    }
    agree_crowded(&(Work){ "crowded", three_sprites, draw_lines, PPU_RUN_ALL });
    time_all(rounds);
    return 0;
}
