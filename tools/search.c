/* ppu-search: plays a log and writes how the search for sprite overflow went on the lines of its pictures. */
#define _POSIX_C_SOURCE 200809L
#include <getopt.h>
#include <stdlib.h>
#include <string.h>
#include "screens.h"
#include "tool.h"

#define SPRITE_LENGTH 4
#define FOUND 8 /* sprites found by their Y bytes; behind the last of them any byte is tried */
#define CONTROL_TALL 0x20
#define MASK_DRAWS 0x18
#define STATUS_OVERFLOW 0x20

static const char help[] =
    "Usage: ppu-search [OPTION]... LOG\n"
    "Plays a log of accesses on a picture unit 2C02 and writes how the search for sprite overflow went on the lines of its\n"
    "pictures: how many sprites it looked at, and which byte of which sprite set status bit 5.\n"
    "\n"
    "LOG is a file, or - for standard input. It is played as the player does it: a fresh unit, all memory zero.\n"
    "The unit searches only on a line that is drawn, 0 to 239 with mask bit 3 or 4 set. Control and OAM are those that the\n"
    "line was run with. Each line stands for itself: set says that its own search sets the bit, which then stays set until\n"
    "line 261. Pictures count from 1, as ppu-picture counts them.\n"
    "\n"
    "The search on line L goes through the sprites in OAM order. A byte y is in range if y <= L < y + 8, or y + 16 with control\n"
    "bit 5. Until eight sprites are found only Y bytes are looked at. Behind the eighth any byte is tried as a Y byte: the next\n"
    "sprite's Y and, with each sprite that is not in range, the next of Y, tile, attribute, X. A byte in range sets the bit\n"
    "and ends the search. So 9 to 64 sprites are looked at, and 64 where the bit is not set.\n"
    "\n"
    "Which pictures\n"
    HELP_WHICH
    "\n"
    "How they are written\n"
    "                      A row for each line whose search sets the bit, and behind them the sum:\n"
    "                        line 20: 10 sprites looked at, set by sprite 9, tile $14\n"
    "                        240 lines searched: bit set on 8, first on line 20\n"
    "                      Before each picture stands a row \"picture 3\", but not with --last.\n"
    "      --all           a row for each of the 240 lines, also \"line 21: 64 sprites looked at, not set\" and \"line 22: no search\"\n"
    "      --json          each picture as a line, an object: picture, lines (objects: line; looked, 0 without a search; set; and\n"
    "                      if it is true sprite, byte, value), lines_searched, lines_set, first_set (a line, or null)\n"
    "  -o, --output FILE   into this file, which is replaced as a whole or not at all (default: standard output)\n"
    "\n"
    "The unit\n"
    HELP_BOARD
    "\n";

static const char help_reports[] =
    "What is reported\n"
    "      --strict        a refused record makes the exit status 1\n"
    "  -h, --help          this text\n"
    "  -V, --version       the version\n"
    "\n"
    "A record that is refused is reported on standard error by its place in the log, counted from 1, and its number:\n"
    HELP_NUMBERS
    "The play goes on, but it ends at a 5; pictures before it are kept. The first 10 are shown, the others counted.\n"
    "\n"
    "Exit status\n"
    "  0  done, also where records were refused with 1 to 4\n"
    "  1  done, but records were refused, with --strict\n"
    "  2  a wrong option or argument\n"
    "  3  a file that cannot be read or written\n"
    "  4  the log ended at a record that was refused with 5\n"
    "  5  no picture: the log is empty, or has no whole picture, or not as many as --every asks for\n"
    "\n"
    "Example: ppu-search --last examples/picture.log\n";

/* the search on a line */
typedef struct {
    unsigned looked; /* sprites looked at; 0: the line was not drawn, and nothing was searched */
    int set;
    unsigned sprite, byte; /* if set: what set the bit, by its place, */
    uint8_t value;         /* and what it is */
} Search;

typedef struct {
    unsigned searched, set, first; /* lines; first only if some are set */
} Sums;

/* what is asked for, and what the play has come to */
static struct {
    const char *output;
    int all, json;
    Playing playing;
    Search drawing[PICTURE_LINES], whole[PICTURE_LINES]; /* of the picture being drawn, and of the last that was whole */
    FILE *out;
} at;

/* SEARCHES

   How many sprites were looked at is the library's answer, and so is whether the bit is set: ppu_looked alone cannot tell where it is 64, so the
   line is run once more. A search written here could answer both; it would then be this one that is shown. Only the place of the byte, which
   no call reports, is reckoned here. */

/* Whether a line that is drawn sets the bit: it is run on a copy of the record, with the status clear before it. */
static int sets_bit(const Machine *m, unsigned line)
{
    uint8_t unit[PPU_RECORD_LENGTH], numbers[PPU_LINE_LENGTH], colours[PPU_COLOURS_LENGTH];
    memcpy(unit, m->unit, sizeof unit);
    unit[PPU_AT_STATUS] = 0;
    unit[PPU_AT_NEXT_LINE] = (uint8_t)line;
    unit[PPU_AT_NEXT_LINE + 1] = 0;
    ppu_run(unit, sizeof unit, 1, PPU_RUN_ALL, m->left, sizeof m->left, m->right, sizeof m->right, m->nametables, nametables_length(m),
            m->oam, sizeof m->oam, m->palette, sizeof m->palette, numbers, sizeof numbers, colours, sizeof colours);
    return (unit[PPU_AT_STATUS] & STATUS_OVERFLOW) != 0;
}

/* Which byte of this sprite, one behind the eighth found, was tried: byte 0 of the next sprite, then a byte further with each. */
static unsigned byte_tried(const Machine *m, unsigned line, unsigned sprite)
{
    unsigned height = m->unit[PPU_AT_CONTROL] & CONTROL_TALL ? 16 : 8, next = 0;
    for (unsigned found = 0; found < FOUND && next < sprite; next++) {
        unsigned y = m->oam[SPRITE_LENGTH * next];
        found += y <= line && line < y + height;
    }
    return (sprite - next) % SPRITE_LENGTH;
}

/* A line changes neither control nor mask nor OAM: after it they are what it was run with. */
static Search search_of(const Machine *m, unsigned line)
{
    Search search = { .looked = 0 };
    if (!(m->unit[PPU_AT_MASK] & MASK_DRAWS))
        return search;
    search.looked = ppu_looked(ppu_search(m->unit, sizeof m->unit, (uint16_t)line, m->oam, sizeof m->oam));
    search.set = sets_bit(m, line);
    if (search.set) {
        search.sprite = search.looked - 1;
        search.byte = byte_tried(m, line, search.sprite);
        search.value = m->oam[SPRITE_LENGTH * search.sprite + search.byte];
    }
    return search;
}

static Sums sums_of(const Search *lines)
{
    Sums sums = { .first = PICTURE_LINES };
    for (unsigned line = 0; line < PICTURE_LINES; line++) {
        sums.searched += lines[line].looked > 0;
        sums.set += lines[line].set != 0;
        if (lines[line].set && sums.first == PICTURE_LINES)
            sums.first = line;
    }
    return sums;
}

/* PICTURES */

static const char *name_of(unsigned byte)
{
    static const char *const names[SPRITE_LENGTH] = { "Y", "tile", "attribute", "X" };
    return names[byte];
}

static int is_written(const Search *search) { return at.all || search->set; }

static void print_row(unsigned line, const Search *search)
{
    if (search->set)
        fprintf(at.out, "line %u: %u sprites looked at, set by sprite %u, %s $%02X\n", line, search->looked, search->sprite, name_of(search->byte),
                search->value);
    else if (search->looked)
        fprintf(at.out, "line %u: %u sprites looked at, not set\n", line, search->looked);
    else
        fprintf(at.out, "line %u: no search\n", line);
}

static void print_rows(const Search *lines, unsigned long number)
{
    Sums sums = sums_of(lines);
    if (!at.playing.last)
        fprintf(at.out, "picture %lu\n", number);
    for (unsigned line = 0; line < PICTURE_LINES; line++)
        if (is_written(&lines[line]))
            print_row(line, &lines[line]);
    fprintf(at.out, "%u lines searched: bit set on ", sums.searched);
    if (sums.set)
        fprintf(at.out, "%u, first on line %u\n", sums.set, sums.first);
    else
        fputs("none\n", at.out);
}

static void print_line_object(unsigned line, const Search *search)
{
    fprintf(at.out, "{\"line\": %u, \"looked\": %u, \"set\": %s", line, search->looked, search->set ? "true" : "false");
    if (search->set)
        fprintf(at.out, ", \"sprite\": %u, \"byte\": \"%s\", \"value\": %u", search->sprite, name_of(search->byte), search->value);
    fputc('}', at.out);
}

static void print_object(const Search *lines, unsigned long number)
{
    Sums sums = sums_of(lines);
    const char *between = "";
    fprintf(at.out, "{\"picture\": %lu, \"lines\": [", number);
    for (unsigned line = 0; line < PICTURE_LINES; line++)
        if (is_written(&lines[line])) {
            fputs(between, at.out);
            print_line_object(line, &lines[line]);
            between = ", ";
        }
    fprintf(at.out, "], \"lines_searched\": %u, \"lines_set\": %u, \"first_set\": ", sums.searched, sums.set);
    if (sums.set)
        fprintf(at.out, "%u}\n", sums.first);
    else
        fputs("null}\n", at.out);
}

/* The picture that was whole last. */
static void write_picture(void)
{
    if (!at.out)
        at.out = open_whole(at.output);
    (at.json ? print_object : print_rows)(at.whole, at.playing.pictures);
    at.playing.written++;
}

static void line_drawn(void *context, const Machine *machine, unsigned line)
{
    (void)context;
    at.drawing[line] = search_of(machine, line);
    if (line != PICTURE_LINES - 1)
        return;
    memcpy(at.whole, at.drawing, sizeof at.whole);
    if (take_picture(&at.playing))
        write_picture();
}

/* OPTIONS */

static void set_option(int option, const char *argument)
{
    switch (option) {
    case 'a': at.all = 1; break;
    case 'j': at.json = 1; break;
    case 'o': at.output = argument; break;
    case 'h': fputs(help, stdout); fputs(help_reports, stdout); exit(fflush(stdout) ? BAD_FILE : DONE);
    case 'V': puts("ppu-search " PPU_VERSION); exit(DONE);
    default: set_playing(&at.playing, option, argument);
    }
}

static void read_options(int count, char **arguments)
{
    static const struct option names[] = {
        { "every", 1, NULL, 'e' }, { "last", 0, NULL, 'l' }, { "all", 0, NULL, 'a' }, { "json", 0, NULL, 'j' }, { "output", 1, NULL, 'o' },
        { "board", 1, NULL, 'b' }, { "strict", 0, NULL, 'x' }, { "help", 0, NULL, 'h' }, { "version", 0, NULL, 'V' }, { NULL, 0, NULL, 0 },
    };
    int option;
    while ((option = getopt_long(count, arguments, ":o:hV", names, NULL)) != -1) {
        if (option == '?' || option == ':')
            bad_option(option, arguments);
        set_option(option, optarg);
    }
    check_playing(&at.playing);
    if (!*at.output)
        give_up(BAD_USAGE, "--output: the name is empty");
    if (optind == count)
        give_up(BAD_USAGE, "no log given; --help says how");
    if (optind + 1 < count)
        give_up(BAD_USAGE, "%s: one log at a time", arguments[optind + 1]);
    at.playing.log = arguments[optind];
}

int main(int count, char **arguments)
{
    tool_name = "ppu-search";
    at.output = "-";
    at.playing = all_pictures();
    opterr = 0;
    read_options(count, arguments);
    play_into(&at.playing, at.output, line_drawn, write_picture);
    return report_end(&at.playing);
}
