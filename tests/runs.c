/* ppu_run: how many lines it runs with each reason to stop, whether it met it, what it leaves, and what it refuses. What is wanted is reckoned in
   plain C, or comes of the same lines run one at a time with no reason: the first of them that does what the reason says is the last. */
#include "picture.h"

enum { REASONS = PPU_UNTIL_HIT + 1, MOST_KEPT = 3 * 262 };

static Machine m, wanted, whole;

/* where a run stops: after so many lines, with its reason met or not */
typedef struct {
    unsigned ran, met;
} Stop;

static unsigned level(const Machine *machine) { return machine->unit[PPU_AT_CONTROL] >= 128 && machine->unit[PPU_AT_STATUS] >= 128; }

/* the lines from p to the end of line 241 */
static unsigned to_vblank(unsigned p) { return (241 + 262 - p) % 262 + 1; }

/* a run of at most n lines from line p, if nothing hits */
static Stop stop_without_hit(unsigned reason, unsigned control, unsigned p, unsigned n)
{
    Stop stop = { n, 0 };
    if (reason == PPU_UNTIL_NMI && control >= 128 && to_vblank(p) <= n) {
        stop.ran = to_vblank(p);
        stop.met = 1;
    }
    return stop;
}

/* a run with mask bits 3 and 4 clear, v now and then in the palette: its count, whether it met its reason, next line, status, warm-up, and the zeros
   of lines 0 to 239 with their colour */
static void expect_run(unsigned reason, unsigned control, unsigned p, unsigned n, unsigned status, unsigned warm)
{
    Stop stop = stop_without_hit(reason, control, p, n);
    unsigned any = 0;
    set_unit(&m, 0, control, 0);
    m.unit[PPU_AT_STATUS] = (uint8_t)status;
    m.unit[PPU_AT_WARMED_UP] = (uint8_t)warm;
    m.unit[PPU_AT_OAMADDR] = 0x77;
    set_word(m.unit, PPU_AT_V, p % 3 ? 0x1234 : 0x7F1A);
    set_word(m.unit, PPU_AT_T, 0x4321);
    set_word(m.unit, PPU_AT_NEXT_LINE, p);
    memcpy(wanted.unit, m.unit, 16);
    spoil_line(&wanted);
    for (unsigned line = p; line < p + stop.ran; line++) {
        any |= line % 262 < 240;
        if (line % 262 == 241)
            wanted.unit[PPU_AT_STATUS] |= 0x80;
        if (line % 262 == 261) {
            wanted.unit[PPU_AT_STATUS] = 0;
            wanted.unit[PPU_AT_WARMED_UP] = 1;
        }
    }
    if (any) {
        memset(wanted.line, 0, 256);
        colour_line(&wanted, &m);
    }
    set_word(wanted.unit, PPU_AT_NEXT_LINE, (p + stop.ran) % 262);
    EXPECT(run_lines(&m, n, reason), run_answer(stop.met, level(&wanted), stop.ran));
    EXPECT_BYTES(m.unit, wanted.unit, 16);
    EXPECT_BYTES(m.line, wanted.line, 256);
    EXPECT_BYTES(m.colours, wanted.colours, 512);
}

static void early_stop(void)
{
    static const unsigned most[] = { 262, 263, 300, 524, 65535 };
    for (unsigned p = 0; p < 262; p++)
        for (int i = 0; i < 5; i++) {
            at = p;
            expect_run(PPU_UNTIL_NMI, 0x80, p, most[i], 0, 1);
            EXPECT(word(m.unit, PPU_AT_NEXT_LINE), 242);
        }
    part("until NMI, control bit 7 set and n from 262: met, from every line exactly to the end of line 241");
}

/* n about the stop among them: NMI is met from there on */
static void small_runs(void)
{
    for (unsigned p = 0; p < 262; p++) {
        unsigned k = to_vblank(p);
        const unsigned most[] = { 0, 1, 2, 3, 19, 20, 21, 22, 100, 240, 241, 242, 243, 261, k - 1, k, k + 1 };
        for (int i = 0; i < 17; i++)
            for (unsigned reason = 0; reason < REASONS; reason++) {
                at = (long)(1000000 * reason + 1000 * p + most[i]);
                expect_run(reason, 0x80, p, most[i], p % 2 ? 0xE0 : 0x20, p / 2 % 2);
                expect_run(reason, 0x7F, p, most[i], p % 2 ? 0xE0 : 0x20, p / 2 % 2);
            }
    }
    part("smaller n from every line, with and without control bit 7, each reason: met exactly until NMI, with bit 7, if n reaches line 241");
}

/* each n up to a frame and more, at the lines around the stop and the frame's end */
static void every_n(void)
{
    static const unsigned from[] = { 0, 239, 240, 241, 242, 261 };
    for (unsigned n = 0; n < 530; n += n < 30 || (n >= 233 && n < 270) || n >= 515 ? 1 : 7)
        for (int i = 0; i < 6; i++)
            for (unsigned reason = 0; reason < REASONS; reason++) {
                at = (long)(1000000 * reason + 1000 * from[i] + n);
                expect_run(reason, 0xFF, from[i], n, 0x80, 1);
                expect_run(reason, 0, from[i], n, 0, 0);
            }
    part("n from 0 past two frames, at the lines around the stop and the frame's end, each reason");
}

/* until NMI without control bit 7, and with it where NMI is not the reason */
static void no_early_stop(void)
{
    static const unsigned most[] = { 262, 263, 524 };
    for (unsigned reason = 0; reason < REASONS; reason++) {
        unsigned control = reason == PPU_UNTIL_NMI ? 0x7F : 0xFF;
        for (unsigned p = 0; p < 262; p++)
            for (int i = 0; i < 3; i++) {
                at = (long)(1000 * reason + p);
                expect_run(reason, control, p, most[i], 0x60, 0);
                EXPECT(word(m.unit, PPU_AT_NEXT_LINE), (p + most[i]) % 262);
            }
        expect_run(reason, control, 100, 65535, 0, 0);
        expect_run(reason, 0x7F, 261, 65534, 0, 0);
    }
    part("all n lines, to 65535, and not met: no reason, until NMI without control bit 7, until a hit that does not come");
}

/* n = 0: not a byte changes, and the level is the unit's, also before line 241 and with bit 6 set */
static void none(void)
{
    for (unsigned p = 0; p < 262; p++)
        for (unsigned n = 0; n < 8 * REASONS; n++) {
            at = p;
            set_unit(&m, n % 5, n & 1 ? 0xFF : 0x7F, n & 2 ? 0x1E : 0);
            m.unit[PPU_AT_STATUS] = n & 4 ? 0x80 : 0x60;
            m.unit[PPU_AT_OAMADDR] = 0x55;
            set_word(m.unit, PPU_AT_NEXT_LINE, p);
            copy(&wanted, &m);
            EXPECT(run_lines(&m, 0, n / 8), run_answer(0, (n & 5) == 5, 0));
            EXPECT_SAME(&m, &wanted);
        }
    part("n = 0 from every line with each reason: nothing changes, no line is run and nothing is met");
}

/* A picture that is switched on, scrolled to (100, 70): before line p v leads to its row. Its board has two pages before odd lines, else four. */
static void set_picture(unsigned p, unsigned control, unsigned status)
{
    set_unit(&m, p % 2 ? PPU_VERTICAL : PPU_FOUR_PAGES, control, 0x1E);
    set_line(&m, p, 100, p < 240 ? 70 + p : 70 + 240);
    set_word(m.unit, PPU_AT_T, v_at(100, 70));
    m.unit[PPU_AT_OAMADDR] = 0x44;
    m.unit[PPU_AT_STATUS] = (uint8_t)status;
}

/* After a run both buffers hold its last drawn line, v the row of the next. Across the frame's end v is t again, so that the new picture begins at
   its first row. */
static void expect_drawn(unsigned reason, unsigned control, unsigned p, unsigned n)
{
    Stop stop = stop_without_hit(reason, control, p, n);
    unsigned last = 0, any = 0;
    set_picture(p, control, 0);
    copy(&wanted, &m);
    for (unsigned line = p; line < p + stop.ran; line++) {
        if (line % 262 < 240) {
            any = 1;
            last = line % 262;
            set_word(wanted.unit, PPU_AT_V, v_at(100, 70 + last + 1));
            wanted.unit[PPU_AT_OAMADDR] = 0;
        } else if (line % 262 == 241) {
            wanted.unit[PPU_AT_STATUS] = 0x80;
        } else if (line % 262 == 261) {
            wanted.unit[PPU_AT_STATUS] = 0;
            set_word(wanted.unit, PPU_AT_V, v_at(100, 70));
            wanted.unit[PPU_AT_OAMADDR] = 0;
        }
    }
    for (unsigned x = 0; x < 256 && any; x++)
        wanted.line[x] = (uint8_t)background_at(&m, 100 + x, 70 + last);
    if (any)
        colour_line(&wanted, &m);
    set_word(wanted.unit, PPU_AT_NEXT_LINE, (p + stop.ran) % 262);
    EXPECT(run_lines(&m, n, reason), run_answer(stop.met, level(&wanted), stop.ran));
    EXPECT_SAME(&m, &wanted);
}

static void drawn(void)
{
    static const unsigned from[] = { 0, 1, 118, 238, 239, 240, 241, 242, 259, 260, 261 };
    static const unsigned most[] = { 0, 1, 2, 3, 4, 21, 22, 23, 24, 25, 120, 262, 285 };
    scatter_tiles(3);
    store_tiles(&m);
    no_sprites(&m);
    for (int i = 0; i < 11; i++)
        for (int k = 0; k < 13; k++)
            for (unsigned n = 0; n < 2 * REASONS; n++) {
                at = (long)(1000 * from[i] + most[k]);
                expect_drawn(n / 2, n % 2 ? 0x80 : 0, from[i], most[k]);
            }
    part("runs of a picture switched on, across line 239, line 241 and the frame's end, each reason");
}

static void checked_values(void)
{
    static const unsigned from[][2] = { { 241, 1 }, { 242, 262 }, { 0, 242 } };
    for (int i = 0; i < 3; i++) {
        at = from[i][0];
        set_unit(&m, 0, 0x80, 0);
        set_word(m.unit, PPU_AT_NEXT_LINE, from[i][0]);
        EXPECT(run_lines(&m, 262, PPU_UNTIL_NMI), run_answer(1, 1, from[i][1]));
        EXPECT(word(m.unit, PPU_AT_NEXT_LINE), 242);
    }
    part("checked values of runs");
}

/* ONE LINE AT A TIME. The record and both buffers after 0, 1, 2 and so on of the lines that follow from where m stands. */
static struct {
    uint8_t unit[16], line[256], colours[512];
} kept[MOST_KEPT + 1];

static void keep(unsigned i)
{
    memcpy(kept[i].unit, wanted.unit, 16);
    memcpy(kept[i].line, wanted.line, 256);
    memcpy(kept[i].colours, wanted.colours, 512);
}

static void keep_lines(unsigned lines)
{
    copy(&wanted, &m);
    keep(0);
    for (unsigned i = 1; i <= lines; i++) {
        uint64_t given = one_line(&wanted);
        EXPECT(given, answer(0, level(&wanted), 1));
        keep(i);
    }
}

static void put(Machine *machine, unsigned i)
{
    memcpy(machine->unit, kept[i].unit, 16);
    memcpy(machine->line, kept[i].line, 256);
    memcpy(machine->colours, kept[i].colours, 512);
}

/* whether kept line i does what the reason says */
static int meets(unsigned reason, unsigned i)
{
    const uint8_t *before = kept[i].unit, *after = kept[i + 1].unit;
    if (reason == PPU_UNTIL_NMI)
        return word(before, PPU_AT_NEXT_LINE) == 241 && before[PPU_AT_CONTROL] >= 128;
    return reason == PPU_UNTIL_HIT && !(before[PPU_AT_STATUS] & 0x40) && after[PPU_AT_STATUS] & 0x40;
}

/* a run of at most n of the kept lines */
static Stop stop_within(unsigned reason, unsigned from, unsigned n)
{
    Stop stop = { 0, 0 };
    while (stop.ran < n && !stop.met && from + stop.ran < MOST_KEPT) {
        stop.met = meets(reason, from + stop.ran) ? 1 : 0;
        stop.ran++;
    }
    return stop;
}

/* m stands where the kept line `from` begins: its run stops where the kept lines say and leaves what they left, in every byte */
static Stop expect_next(unsigned reason, unsigned from, unsigned n)
{
    Stop stop = stop_within(reason, from, n);
    put(&wanted, from + stop.ran);
    EXPECT(run_lines(&m, n, reason), run_answer(stop.met, level(&wanted), stop.ran));
    EXPECT_SAME(&m, &wanted);
    return stop;
}

static Stop expect_kept(unsigned reason, unsigned from, unsigned n)
{
    put(&m, from);
    return expect_next(reason, from, n);
}

/* SPRITE 0 HIT. The background is opaque everywhere and no line of it is like the one before; sprite 0 is opaque, so that it hits on each line that
   it covers. Another sprite hits nothing. */
static void set_scene(unsigned y)
{
    uint8_t *colour = &tile_colours[0][0][0][0];
    scatter_tiles(9);
    for (int i = 0; i < 2 * 256 * 64; i++)
        colour[i] = colour[i] ? colour[i] : 3;
    store_tiles(&m);
    no_sprites(&m);
    set_sprite(&m, 0, y, 0x11, 0, 100);
    set_sprite(&m, 1, y / 2, 0x12, 1, 30);
}

/* the lines from p to the hit of that sprite 0, which covers lines y + 1 to y + 8; set: status bit 6 is set, and line 261 must clear it first */
static unsigned to_hit(unsigned y, unsigned p, int set)
{
    if (!set && p <= y + 8 && p < 240)
        return p <= y + 1 ? y + 2 - p : 1;
    return 262 - p + y + 2;
}

/* until the hit from line p: with n one less not met, then met, and n plays no part any more */
static void expect_hit(unsigned y, unsigned p, unsigned control, unsigned status)
{
    unsigned k = to_hit(y, p, status & 0x40);
    set_picture(p, control, status);
    keep_lines(k + 1);
    EXPECT(stop_within(PPU_UNTIL_HIT, 0, k - 1).met, 0);
    EXPECT(stop_within(PPU_UNTIL_HIT, 0, k).met, 1);
    for (unsigned n = k - 1; n <= k + 1; n++) {
        Stop stop = expect_kept(PPU_UNTIL_HIT, 0, n);
        EXPECT(stop.ran, n < k ? n : k);
        EXPECT(stop.met, n >= k);
    }
    EXPECT(word(m.unit, PPU_AT_NEXT_LINE), (p + k) % 262);
    EXPECT(m.unit[PPU_AT_STATUS] & 0x40, 0x40);
    put(&m, 0);
    EXPECT(run_lines(&m, 65535, PPU_UNTIL_HIT), run_answer(1, level(&wanted), k));
    EXPECT_SAME(&m, &wanted);
    if (status & 0x40) {
        EXPECT(expect_kept(PPU_UNTIL_HIT, 0, 262 - p).met, 0);
        EXPECT(m.unit[PPU_AT_STATUS], 0);
    }
}

/* bits 7 and 5 of the status and bit 7 of the control play no part: a run to the next frame's hit goes over line 241 with NMI */
static void hits(void)
{
    static const unsigned places[] = { 0, 1, 100, 231, 232, 238 };
    set_scene(29);
    for (unsigned p = 0; p < 262; p++) {
        at = p;
        expect_hit(29, p, p % 2 ? 0x80 : 0, p % 3 ? 0 : 0xA0);
        expect_hit(29, p, p % 2 ? 0 : 0x80, p % 3 ? 0x40 : 0xE0);
    }
    part("until a hit on line 30 from every line: n one less is not met, n that reaches it is; with bit 6 set, the next frame's");
    for (int i = 0; i < 6; i++) {
        unsigned y = places[i];
        const unsigned from[] = { 0, y, y + 1, y + 2, y + 8 < 239 ? y + 8 : 239, y + 9 < 240 ? y + 9 : 240, 241, 261 };
        set_scene(y);
        for (int k = 0; k < 16; k++) {
            at = (long)(1000 * y + from[k % 8]);
            expect_hit(y, from[k % 8], k % 3 ? 0x80 : 0, k < 8 ? 0x80 : 0x60);
        }
    }
    part("hits on other lines, the first and the last among them, from the lines around");
}

/* scenes that are nearly one with a hit */
static void set_near_scene(int how)
{
    set_scene(how == 0 ? 239 : 29); /* sprite 0 just below the picture */
    set_picture(0, 0x80, 0);
    switch (how) {
    case 1: /* no sprites shown */
        m.unit[PPU_AT_MASK] = 0x0A;
        break;
    case 2: /* no background shown */
        m.unit[PPU_AT_MASK] = 0x14;
        break;
    case 3: /* neither */
        m.unit[PPU_AT_MASK] = 0xE7;
        break;
    case 4: /* all but column 255 is lost on the right */
        m.oam[3] = 255;
        break;
    case 5: /* another sprite in its place */
        memcpy(m.oam + 8, m.oam, 4);
        m.oam[0] = 255;
        break;
    case 6: /* nothing opaque */
        memset(m.left, 0, 4096);
        break;
    }
}

static void never_hit(void)
{
    static const unsigned from[] = { 0, 17, 30, 31, 38, 239, 240, 241, 242, 261 }, most[] = { 1, 30, 31, 32, 262, 524 };
    for (int how = 0; how < 7; how++)
        for (unsigned status = 0; status < 0x80; status += 0x40) {
            set_near_scene(how);
            m.unit[PPU_AT_STATUS] = (uint8_t)status;
            keep_lines(MOST_KEPT);
            for (int i = 0; i < 60; i++) {
                at = 100 * how + i;
                Stop stop = expect_kept(PPU_UNTIL_HIT, from[i / 6], most[i % 6]);
                EXPECT(stop.met, 0);
                EXPECT(stop.ran, most[i % 6]);
            }
        }
    part("until a hit that never comes: all n lines, over line 241 with control bit 7 set, and not met");
}

/* NMI does not end a run until a hit, a hit none until NMI, and neither one with no reason */
static void one_reason(void)
{
    set_scene(29);
    for (unsigned p = 0; p < 262; p += p < 28 || (p > 40 && p < 238) ? 7 : 1) {
        const unsigned nmi = to_vblank(p), hit = to_hit(29, p, 0), met_after[REASONS] = { 65536, nmi, hit };
        const unsigned most[] = { nmi - 1, nmi, nmi + 1, hit - 1, hit, hit + 1, 263, 524 };
        set_picture(p, 0x80, 0);
        keep_lines(524);
        for (unsigned n = 0; n < 8 * REASONS; n++) {
            at = (long)(100 * p + n);
            Stop stop = expect_kept(n / 8, 0, most[n % 8]);
            EXPECT(stop.met, met_after[n / 8] <= most[n % 8]);
            EXPECT(stop.ran, stop.met ? met_after[n / 8] : most[n % 8]);
        }
    }
    part("a hit and NMI in the same run: only the one that is its reason ends it");
}

/* what is met is met once: the next run goes on behind it, and meets its reason a frame later */
static void going_on(void)
{
    static const unsigned reasons[] = { PPU_UNTIL_HIT, PPU_UNTIL_NMI, PPU_UNTIL_HIT, PPU_UNTIL_HIT, PPU_RUN_ALL, PPU_UNTIL_NMI };
    unsigned from = 0;
    set_scene(29);
    set_picture(0, 0x80, 0);
    keep_lines(MOST_KEPT);
    for (int line = 1; line < 240; line++)
        EXPECT(memcmp(kept[line].line, kept[line + 1].line, 256) != 0, 1);
    put(&m, 0);
    for (int i = 0; i < 6; i++) {
        unsigned p = word(m.unit, PPU_AT_NEXT_LINE), after[REASONS] = { 10, to_vblank(p), to_hit(29, p, m.unit[PPU_AT_STATUS] & 0x40) };
        at = i;
        Stop stop = expect_next(reasons[i], from, reasons[i] == PPU_RUN_ALL ? 10 : MOST_KEPT - from);
        EXPECT(stop.ran, after[reasons[i]]);
        EXPECT(stop.met, reasons[i] != PPU_RUN_ALL);
        from += stop.ran;
    }
    EXPECT(expect_next(PPU_UNTIL_NMI, from, MOST_KEPT - from).met, 0);
    for (unsigned reason = PPU_UNTIL_NMI; reason < REASONS; reason++) {
        put(&m, 0);
        from = expect_next(reason, 0, 524).ran;
        EXPECT(expect_next(reason, from, 261).met, 0);
        EXPECT(expect_next(reason, from + 261, 261).ran, 1);
    }
    part("one run after the other: each goes on where the last one stopped");
}

/* on two units alike: so many lines in one run, and in runs of one line with the same reason up to the one that meets it */
static void expect_ones(unsigned reason, unsigned n)
{
    uint64_t single = answer(0, level(&m), 0);
    unsigned ran = 0;
    copy(&wanted, &m);
    while (ran < n && !ppu_met(single)) {
        single = run_lines(&wanted, 1, reason);
        ran++;
        EXPECT(single, run_answer(ppu_met(single), level(&wanted), 1));
    }
    EXPECT(run_lines(&m, n, reason), run_answer(ppu_met(single), level(&wanted), ran));
    EXPECT_SAME(&m, &wanted);
}

static void ones(void)
{
    static const unsigned most[] = { 0, 1, 2, 30, 31, 32, 211, 242, 262, 300, 524 };
    set_scene(29);
    for (unsigned p = 0; p < 262; p += 15)
        for (unsigned n = 0; n < 11 * REASONS; n++)
            for (unsigned status = 0; status < 0x80; status += 0x40) {
                at = (long)(1000 * p + n);
                set_picture(p, n % 2 ? 0x80 : 0, status);
                expect_ones(n / 11, most[n % 11]);
            }
    part("a run of n lines and n runs of one line with the same reason, up to the one that meets it: the same in every byte");
}

/* scattered units and sprites, where the hits come as they come */
static void scattered(void)
{
    unsigned met[REASONS] = { 0 }, n = 5;
    for (unsigned scene = 0; scene < 60; scene++) {
        scatter(&m, 100 + scene);
        for (int i = 0; i < 64; i++)
            m.oam[4 * i] = (uint8_t)(m.oam[4 * i] % (60 + 3 * scene));
        set_unit(&m, scene % 5, m.page[0], 0x18 | m.page[1]);
        set_line(&m, m.page[2] + (scene % 5 ? 0 : 6u), m.page[3], m.page[4]);
        m.unit[PPU_AT_STATUS] = m.page[5] & 0xE0;
        keep_lines(524);
        for (int i = 0; i < 12; i++) {
            unsigned reason = (unsigned)i % REASONS;
            n = (n * 75 + 74) % 65537;
            at = (long)(100 * scene) + i;
            met[reason] += expect_kept(reason, n % 262, n / 262 % 262).met;
        }
    }
    EXPECT(met[PPU_RUN_ALL], 0);
    EXPECT(met[PPU_UNTIL_NMI] > 20, 1);
    EXPECT(met[PPU_UNTIL_HIT] > 20, 1);
    part("scattered scenes: each run is the lines that it runs, one at a time, up to its reason");
}

/* REFUSALS, for its reason, the record by its length and by its bytes, a memory */
static const int lent[] = { LEFT, RIGHT, NAMETABLES, OAM, PALETTE, LINE, COLOURS };

enum { LENT = sizeof lent / sizeof lent[0] };

/* each field with a value that it cannot have: next line becomes 262 */
static const uint8_t wrong_fields[][2] = { { PPU_AT_STATUS, 0x90 }, { PPU_AT_V + 1, 128 },       { PPU_AT_T + 1, 128 },   { PPU_AT_FINE_X, 8 },
                                           { PPU_AT_W, 2 },         { PPU_AT_NEXT_LINE + 1, 1 }, { PPU_AT_WARMED_UP, 2 }, { PPU_AT_BOARD, 5 } };

/* a unit before line 6, on which the sprite 0 of set_scene(5) hits first, of a board with four pages or, at times, two */
static void set_before_hit(int two)
{
    set_picture(6, 0x80, 0x80);
    if (two)
        m.unit[PPU_AT_BOARD] = PPU_VERTICAL;
}

/* a length that is wrong in one of these ways */
enum { WAYS = 6 };

static size_t wrong_length(int which, int way)
{
    const size_t right = right_length(&m, which), lengths[WAYS] = { 0, right - 1, right + 1, right + 256, right + 65536, other_length(&m, which) };
    return lengths[way];
}

/* a run from there with each thing of the set wrong: refused for the first of them, and nothing changes */
static void expect_refused(unsigned set, unsigned reason, unsigned n, int which, int way, int field)
{
    set_before_hit((way + field) % 2);
    copy(&whole, &m);
    if (set >> MEMORY & 1)
        lend_filled(&m, which, wrong_length(which, way));
    if (set >> MALFORMED & 1)
        m.unit[wrong_fields[field][0]] = wrong_fields[field][1];
    if (set >> RECORD & 1)
        lend_filled(&m, UNIT, wrong_length(UNIT, way));
    copy(&wanted, &m);
    EXPECT(run_lines(&m, n, reason), number_for(set));
    EXPECT_SAME(&m, &wanted);
    copy(&m, &whole);
}

/* with each set of the other things wrong */
static void unknown_reasons(void)
{
    static const unsigned most[] = { 0, 1, 262, 65535 };
    set_scene(5);
    for (unsigned reason = REASONS; reason < 256; reason++)
        for (unsigned i = 0; i < 4 * 8; i++) {
            at = (long)(100 * reason + i);
            expect_refused(1u << REQUEST | i % 8 << RECORD, reason, most[i / 8], lent[(reason + i) % LENT], (int)(reason + i / 8) % WAYS,
                           (int)(reason + i / 4) % 8);
        }
    part("every reason from 3 to 255: refused 5, before 2 and 3, with n = 0 too, and nothing changes");
}

static void known_reasons(void)
{
    static const unsigned most[] = { 0, 1, 300 };
    set_scene(5);
    for (unsigned n = 0; n < 3 * REASONS; n++)
        for (unsigned set = 1u << RECORD; set < 1u << OUTSIDE; set += 1u << RECORD)
            for (int i = 0; i < LENT * WAYS; i++) {
                at = (long)(10000 * n + 100 * set) + i;
                expect_refused(set, n / 3, most[n % 3], lent[i % LENT], i / LENT, (i + (int)n) % 8);
            }
    for (int two = 0; two < 2; two++) {
        set_before_hit(two);
        EXPECT(run_lines(&m, 300, PPU_UNTIL_HIT), run_answer(1, 1, 1));
    }
    part("each reason, every set of other things wrong: the first in the order 2 for the record, 3, 2 for memory, and nothing changes");
}

/* THE OTHER CALLS: bit 17 of the answer is 0, and so are bits 18 to 23 */
static void expect_no_met(uint64_t given)
{
    EXPECT(ppu_number(given), PPU_DONE);
    EXPECT(ppu_met(given), 0);
    EXPECT(given >> 17 & 0x7F, 0);
}

/* each on a unit that a run until this reason left */
static void expect_other_calls(unsigned reason, unsigned port)
{
    uint8_t read[4] = { 0, 0x20, (uint8_t)port, 0 }, write[4] = { 1, 0x20, (uint8_t)port, 0xFF }, rows[960], table[256] = { 0 };
    set_before_hit(port % 2);
    set_word(m.unit, PPU_AT_NEXT_LINE, reason == PPU_UNTIL_NMI ? 241 : 6);
    EXPECT(run_lines(&m, 1, reason), run_answer(1, 1, 1));
    m.unit[PPU_AT_MASK] = 0;
    expect_no_met(write_at(&m, 0x2000 + port, 0xFF));
    m.unit[PPU_AT_MASK] = 0;
    expect_no_met(read_at(&m, 0x2000 + port));
    expect_no_met(play_log(&m, write, 4));
    m.unit[PPU_AT_MASK] = 0;
    expect_no_met(play_log(&m, read, 4));
    expect_no_met(sprite_dma(&m));
    expect_no_met(search_on(&m, 30 * port));
    expect_no_met(ppu_text(m.nametables, 1024, table, 256, rows, 960));
    memset(table, ' ', 256);
    expect_no_met(ppu_page(rows, 960, table, 256, m.nametables, 1024));
    expect_no_met(ppu_fresh(m.unit, 16, (uint8_t)(port % 5)));
}

/* a run of a log, over line 241 with control bit 7 set and over hits: that of ppu_run with no reason */
static void other_calls(void)
{
    for (unsigned n = 0; n < 16; n++) {
        at = n;
        set_scene(5);
        expect_other_calls(n % 2 ? PPU_UNTIL_NMI : PPU_UNTIL_HIT, n / 2);
    }
    set_scene(29);
    for (unsigned p = 0; p < 262; p += 9)
        for (unsigned n = 0; n < 600; n += 149) {
            const uint8_t log[4] = { 2, (uint8_t)(n / 256), (uint8_t)(n % 256), 0 };
            at = (long)(1000 * p + n);
            set_picture(p, 0x80, 0);
            copy(&wanted, &m);
            uint64_t given = run_lines(&wanted, n, PPU_RUN_ALL);
            EXPECT(given, run_answer(0, level(&wanted), n));
            EXPECT(play_log(&m, log, 4), given);
            EXPECT_SAME(&m, &wanted);
        }
    part("met 0 in the answers of the other calls; a log's run is one with no reason");
}

int main(void)
{
    m = machine();
    wanted = machine();
    whole = machine();
    scatter(&m, 8);
    early_stop();
    small_runs();
    every_n();
    no_early_stop();
    none();
    drawn();
    checked_values();
    hits();
    never_hit();
    one_reason();
    going_on();
    ones();
    scattered();
    unknown_reasons();
    known_reasons();
    other_calls();
    release(&m);
    release(&wanted);
    release(&whole);
    return verdict("tests/runs");
}
