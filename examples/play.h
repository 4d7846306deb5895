/* Plays a log of accesses line by line and keeps the picture, so that a viewer can stop after any line.

   A log is a row of records of four bytes, which ppu.h describes and ppu_play plays. It starts from a fresh unit of a board, all memory zero,
   goes on after a refusal, and ends after a record that is none or is cut short (PPU_BAD_REQUEST). */
#ifndef PLAY_H
#define PLAY_H

#include <ppu.h>
#include <string.h>

enum { PICTURE_WIDTH = PPU_LINE_LENGTH, PICTURE_HEIGHT = 240 };

typedef struct {
    uint8_t unit[PPU_RECORD_LENGTH], left[PPU_PATTERN_LENGTH], right[PPU_PATTERN_LENGTH], nametables[PPU_FOUR_PAGES_LENGTH];
    uint8_t oam[PPU_OAM_LENGTH], palette[PPU_PALETTE_LENGTH], line[PPU_LINE_LENGTH], colours[PPU_COLOURS_LENGTH];
    const uint8_t *log;
    size_t length;                 /* of the log, in bytes */
    size_t records;                /* those begun; the last of them is `record`, filled up with zeros if it is cut short */
    uint8_t record[PPU_LOG_RECORD_LENGTH];
    uint32_t lines_left;           /* lines that it has still to run */
    uint64_t answer;               /* of the last call */
    unsigned refusal;              /* the number of the last refusal, 0 if there was none, */
    size_t refused;                /* and which record it was, counted from 1 */
    unsigned long pictures;        /* drawn whole */
    uint16_t picture[PICTURE_HEIGHT][PICTURE_WIDTH]; /* finished colours, 0 to 511 */
} Play;

static inline unsigned play_word(const Play *p, int at) { return p->unit[at] + 256u * p->unit[at + 1]; }

static inline size_t play_records(const Play *p) { return (p->length + PPU_LOG_RECORD_LENGTH - 1) / PPU_LOG_RECORD_LENGTH; }

/* How much nametable RAM the board has: there is room for any, and so much of it is lent. */
static inline size_t play_nametables(const Play *p) { return ppu_nametable_length(p->unit[PPU_AT_BOARD]); }

static inline int play_ended(const Play *p)
{
    return ppu_number(p->answer) == PPU_BAD_REQUEST || (p->records == play_records(p) && p->lines_left == 0);
}

/* What a call answers. A refusal is remembered: the log goes on after it. */
static inline void play_answer(Play *p, uint64_t answer)
{
    p->answer = answer;
    if (ppu_number(answer) != PPU_DONE) {
        p->refusal = ppu_number(answer);
        p->refused = p->records;
    }
}

/* A board byte that is none shows in the answer: PPU_BAD_UNIT. */
static inline void play_start(Play *p, const uint8_t *log, size_t length, uint8_t board)
{
    memset(p, 0, sizeof *p);
    p->log = log;
    p->length = length;
    play_answer(p, ppu_fresh(p->unit, sizeof p->unit, board));
}

/* The next record, played whole by the library: it knows what a record asks for. A run is then taken back, so that play_line can go through
   its lines one at a time: it has changed nothing but the unit's record and the line's two buffers, which the lines fill again. */
static inline void play_record(Play *p)
{
    size_t at = p->records++ * PPU_LOG_RECORD_LENGTH, rest = p->length - at;
    uint8_t before[PPU_RECORD_LENGTH];
    memset(p->record, 0, sizeof p->record);
    memcpy(p->record, p->log + at, rest < sizeof p->record ? rest : sizeof p->record);
    memcpy(before, p->unit, sizeof before);
    play_answer(p, ppu_play(p->unit, sizeof p->unit, p->log + at, rest, p->left, sizeof p->left, p->right, sizeof p->right, p->nametables,
                            play_nametables(p), p->oam, sizeof p->oam, p->palette, sizeof p->palette, p->line, sizeof p->line, p->colours,
                            sizeof p->colours));
    p->lines_left = ppu_lines(p->answer);
    if (p->lines_left)
        memcpy(p->unit, before, sizeof before);
}

/* The log up to the end of one more line; 0 if it has ended before that. The reason to stop changes nothing of a single line; by it the answer
   says whether sprite 0 hit on that line. */
static inline int play_line(Play *p)
{
    while (!play_ended(p) && p->lines_left == 0)
        play_record(p);
    if (play_ended(p))
        return 0;
    unsigned y = play_word(p, PPU_AT_NEXT_LINE);
    p->lines_left--;
    play_answer(p, ppu_run(p->unit, sizeof p->unit, 1, PPU_UNTIL_HIT, p->left, sizeof p->left, p->right, sizeof p->right, p->nametables,
                           play_nametables(p), p->oam, sizeof p->oam, p->palette, sizeof p->palette, p->line, sizeof p->line, p->colours,
                           sizeof p->colours));
    if (y < PICTURE_HEIGHT)
        for (unsigned x = 0; x < PICTURE_WIDTH; x++)
            p->picture[y][x] = (uint16_t)ppu_colour(p->colours, x);
    p->pictures += y == PICTURE_HEIGHT - 1;
    return 1;
}

/* The log up to the end of line 239, when a picture is whole; 0 if it has ended before that. */
static inline int play_picture(Play *p)
{
    unsigned long before = p->pictures;
    while (p->pictures == before)
        if (!play_line(p))
            return 0;
    return 1;
}

/* The log up to the end of the next line on which sprite 0 hits; 0 if it has ended before that. */
static inline int play_hit(Play *p)
{
    while (play_line(p))
        if (ppu_met(p->answer))
            return 1;
    return 0;
}

#endif
