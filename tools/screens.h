/* The play of a whole log for a command that takes pictures or screens of it: the options, reports and statuses that ppu-picture, ppu-text and
   ppu-search share. */
#ifndef SCREENS_H
#define SCREENS_H

#include "play.h"

#define SHOWN_REPORTS 10 /* of one kind; the others are counted */

/* The lines of --help that say which pictures can be asked for, and on which unit. */
#define HELP_WHICH \
    "      --every N       only pictures N, 2N, 3N, ...\n" \
    "      --last          only the last whole picture\n"
#define HELP_BOARD \
    "      --board N       board byte, " BOARD_BYTES ": wiring 0 horizontal, 1 vertical, 2 first page, 3 second page, 4 four\n" \
    "                      pages (each quarter its own page, 4096 bytes of nametable RAM), and 8 more if pattern memory can be\n" \
    "                      written (default 9)\n"

/* Those that say what each number of a refusal means. */
#define HELP_NUMBERS \
    "  1  the address is outside $2000-$3FFF\n" \
    "  2  a lent memory, or the unit's record, has the wrong length\n" \
    "  3  the unit or its board is not well formed\n" \
    "  4  a read of port 4 or 7, or a write of port 7, while drawing\n" \
    "  5  the record has an unknown kind, a last byte that must be 0 and is not, or is cut short\n"

/* what is asked for, and what the play has come to */
typedef struct {
    const char *log;
    unsigned long every; /* pictures N, 2N, 3N, ... */
    int every_given, last, strict, bar; /* bar: whether progress is shown */
    uint8_t board;
    unsigned long pictures, written, refused[REFUSALS];
    Record record;
    unsigned next_line; /* at the log's end */
    long long size;     /* of the log; -1 if it is no plain file */
} Playing;

/* All pictures of a unit with board byte 9. */
Playing all_pictures(void);

/* Takes e, l, b and x: --every, --last, --board and --strict. */
void set_playing(Playing *playing, int option, const char *argument);

/* Ends with BAD_USAGE where the options contradict each other. */
void check_playing(const Playing *playing);

/* Plays the log on a fresh unit and names what is refused; drawn is called as play.h says. A board byte that is none is an end with BAD_USAGE. */
void play_log(Playing *playing, Drawn *drawn);

/* The same for a command that writes text, all into one file, output: with --last write_last is called behind the play. The file is closed. No bar
   stands among the text on a terminal; with --last it may stand there before the text. */
void play_into(Playing *playing, const char *output, Drawn *drawn, void (*write_last)(void));

/* Counts a picture that is whole; whether it is to be written now, which with --last none is. */
int take_picture(Playing *playing);

/* What is said at the end: refusals that were not shown, why nothing was written, on a terminal the sum. The exit status. */
int report_end(const Playing *playing);

#endif
