/* A log of accesses and its play on a unit that owns its memory: what the commands here share. */
#ifndef PLAY_H
#define PLAY_H

#include <stdio.h>
#include "ppu.h"

#define REFUSALS 6 /* numbers 0 to 5 */
#define PICTURE_LINES 240
#define BOARD_BYTES "0 to 4 or 8 to 12" /* in messages: those that start takes */

enum { READ, WRITE, RUN }; /* kinds, for the text of a record; the library plays it */

/* four bytes: kind, high byte, low byte, last byte; fewer if the log ends inside it */
typedef struct {
    uint8_t bytes[PPU_LOG_RECORD_LENGTH];
    size_t length;
    unsigned long number; /* counted from 1 */
} Record;

typedef struct Machine Machine;

/* called after each of lines 0 to 239 that a record runs */
typedef void Drawn(void *context, const Machine *machine, unsigned line);

/* nametables has room for any board: nametables_length says how much of it this board has */
struct Machine {
    uint8_t unit[PPU_RECORD_LENGTH], left[PPU_PATTERN_LENGTH], right[PPU_PATTERN_LENGTH], nametables[PPU_FOUR_PAGES_LENGTH],
        oam[PPU_OAM_LENGTH], palette[PPU_PALETTE_LENGTH], line[PPU_LINE_LENGTH], colours[PPU_COLOURS_LENGTH];
    Drawn *drawn; /* NULL: nobody looks */
    void *context;
};

/* A fresh unit of this board, all memory zero; the answer's number. */
unsigned start(Machine *machine, uint8_t board);

/* The record after the last; 0 at the end of the log. A record that was never read is { .number = 0 }. */
int next_record(FILE *log, Record *record);

/* The two bytes in the middle: an address, or a number of lines. */
unsigned middle(const Record *record);

/* Whether the library takes it for a record: whole, of a known kind, the last byte of a read and of a run 0. Nothing is played. */
int is_record(Machine *machine, const Record *record);

/* Plays a record; the answer is ppu_play's. Lines are run a second time only where somebody looks. */
uint64_t play(Machine *machine, const Record *record);

/* The line that comes next. */
unsigned next_line(const Machine *machine);

/* How much of its nametable RAM is lent to a call. */
size_t nametables_length(const Machine *machine);

/* Says in words why a record was refused with this number. */
void explain(char *text, size_t size, const Record *record, unsigned number);

#endif
