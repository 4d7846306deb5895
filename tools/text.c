/* ppu-text: plays a log and writes the text of its screens, or makes a nametable page of a text. */
#define _POSIX_C_SOURCE 200809L
#include <getopt.h>
#include <stdlib.h>
#include <string.h>
#include <unistd.h>
#include "screens.h"
#include "table.h"
#include "tool.h"

#define BY_CONTROL 4 /* in place of a quarter, 0 to 3 */

static const char help[] =
    "Usage: ppu-text [OPTION]... --table FILE LOG\n"
    "       ppu-text --page --table FILE [--onto PAGE] [-o FILE] [TEXT]\n"
    "The first plays a log of accesses on a picture unit 2C02 and writes the text of its screens; the second makes a nametable\n"
    "page of a text.\n"
    "\n"
    "LOG is a file, or - for standard input. It is played as the player does it: a fresh unit, all memory zero.\n"
    "A screen is the page of nametable RAM as it is when line 239 of a picture was drawn: 30 rows of 32 tiles, and the table\n"
    "gives each tile its character. Scrolling is not followed. Pictures count from 1, as ppu-picture counts them.\n"
    "\n"
    "The characters\n"
    "      --table FILE    a file of 256 bytes: byte t is the character of tile t, 0 if it has none; or, if FILE ends in .tbl, a\n"
    "                      line for each tile, 41=A: two hexadecimal digits and one character. Empty lines and those that\n"
    "                      begin with #, ; or // are passed over, tiles without a line have no character.\n"
    "                      FILE may be - for 256 bytes from standard input.\n"
    "                      A tile without a character becomes a space.\n"
    "                      Characters are bytes: ASCII, and Latin-1 from 160 on; UTF-8 in all text; a .tbl may also have one\n"
    "                      Latin-1 byte behind the =. A control character (1 to 31, 127 to 159) is written as ?, and\n"
    "                      standard error says so; --json keeps it.\n"
    "\n"
    "Which screens\n"
    HELP_WHICH
    "      --quarter N     quarter 0 to 3: the page that the board's wiring gives the nametable at $2000, $2400, $2800 or $2C00\n"
    "                      (default: the quarter that control's low two bits name when line 239 was drawn)\n"
    "\n"
    "How they are written\n"
    "                      As 30 lines of 32 characters; before each screen a line \"picture 3, quarter 0\", but not with --last,\n"
    "                      whose lines --page takes if the table has each of their characters. So a screen is 31 lines,\n"
    "                      or 30.\n"
    "      --trim          spaces at the end of a line are left out\n"
    "      --json          each screen as a line, an object: picture, quarter, rows (30 strings),\n"
    "                      tiles_without_character (how many)\n"
    "  -o, --output FILE   into this file, which is replaced as a whole or not at all (default: standard output)\n"
    "\n"
    "The unit\n"
    HELP_BOARD
    "\n";

static const char help_page[] =
    "A page of a text\n"
    "      --page          TEXT, a file or - or nothing for standard input, becomes a page of 1024 bytes: for each character the\n"
    "                      lowest tile that has it. TEXT has at most 30 lines of at most 32 characters; what is missing of a\n"
    "                      line, and lines that are missing, are spaces, so the table must have one.\n"
    "      --onto PAGE     the page's 64 attribute bytes are those of this file of 1024 bytes (default: zeros)\n"
    "\n"
    "What is reported\n"
    "      --strict        a refused record makes the exit status 1, a tile without a character makes it 6\n"
    "  -h, --help          this text\n"
    "  -V, --version       the version\n"
    "\n"
    "Tiles without a character are counted on standard error for each screen written that has some. A record that is refused\n"
    "is reported there by its place in the log, counted from 1, and its number:\n"
    HELP_NUMBERS
    "The play goes on, but it ends at a 5; screens before it are kept. Of each kind the first 10 are shown, the others counted.\n"
    "\n"
    "Exit status\n"
    "  0  done, also where records were refused with 1 to 4 or tiles have no character\n"
    "  1  done, but records were refused, with --strict\n"
    "  2  a wrong option or argument\n"
    "  3  a file that cannot be read or written, or is no table or no page; a line of a table is named as FILE:LINE\n"
    "  4  the log ended at a record that was refused with 5; with --page, a line of the text is wrong, named as TEXT:LINE\n"
    "  5  no screen: the log is empty, or has no whole picture, or not as many as --every asks for\n"
    "  6  done and nothing refused, but a screen written has a tile without a character, with --strict\n"
    "\n"
    "Example: ppu-text --table examples/picture.tbl --last examples/picture.log\n";

typedef struct {
    const char *table, *output, *onto, *input;
    unsigned quarter;
    int page, json, trim;
} Options;

typedef struct {
    uint8_t rows[PPU_ROWS_LENGTH];
    unsigned quarter, without; /* without: how many tiles without a character */
} Screen;

/* what screens had that could not be written as it is; each kind is said of the first few and counted */
typedef struct {
    unsigned long screens, sum;
} Lack;

/* what the play has come to */
static struct {
    Options options;
    Playing playing;
    uint8_t table[PPU_TABLE_LENGTH];
    Screen screen; /* the last that was whole */
    FILE *out;     /* NULL until a screen is written */
    Lack without, control;
} at;

/* SCREENS */

static void set_screen(Screen *screen, const Machine *machine)
{
    unsigned quarter = at.options.quarter == BY_CONTROL ? machine->unit[PPU_AT_CONTROL] & 3u : at.options.quarter;
    const uint8_t *page = machine->nametables + ppu_quarter(machine->unit[PPU_AT_BOARD], quarter);
    screen->quarter = quarter;
    screen->without = ppu_count(ppu_text(page, PPU_NAMETABLE_PAGE_LENGTH, at.table, sizeof at.table, screen->rows, sizeof screen->rows));
}

static size_t length_of(const uint8_t *row)
{
    size_t length = PPU_ROW_LENGTH;
    while (at.options.trim && length && row[length - 1] == ' ')
        length--;
    return length;
}

/* How many characters had to be written as a ?. */
static unsigned print_row(const uint8_t *row)
{
    char text[CHARACTER_LENGTH];
    unsigned control = 0;
    for (size_t i = 0, length = length_of(row); i < length; i++) {
        control += is_control(row[i]) != 0;
        fputs(is_control(row[i]) ? "?" : in_utf8(text, row[i]), at.out);
    }
    fputc('\n', at.out);
    return control;
}

static void print_string(const uint8_t *row)
{
    char text[CHARACTER_LENGTH];
    fputc('"', at.out);
    for (size_t i = 0, length = length_of(row); i < length; i++)
        if (is_control(row[i]))
            fprintf(at.out, "\\u%04X", row[i]);
        else
            fprintf(at.out, "%s%s", row[i] == '"' || row[i] == '\\' ? "\\" : "", in_utf8(text, row[i]));
    fputc('"', at.out);
}

static void print_object(const Screen *screen, unsigned long number)
{
    fprintf(at.out, "{\"picture\": %lu, \"quarter\": %u, \"rows\": [", number, screen->quarter);
    for (size_t row = 0; row < PPU_ROWS; row++) {
        fputs(row ? ", " : "", at.out);
        print_string(screen->rows + PPU_ROW_LENGTH * row);
    }
    fprintf(at.out, "], \"tiles_without_character\": %u}\n", screen->without);
}

static unsigned print_lines(const Screen *screen, unsigned long number)
{
    unsigned control = 0;
    if (!at.playing.last)
        fprintf(at.out, "picture %lu, quarter %u\n", number, screen->quarter);
    for (size_t row = 0; row < PPU_ROWS; row++)
        control += print_row(screen->rows + PPU_ROW_LENGTH * row);
    return control;
}

static void report_lack(Lack *lack, unsigned count, const char *one, const char *many)
{
    lack->sum += count;
    lack->screens += count > 0;
    if (count && lack->screens <= SHOWN_REPORTS)
        say("%s: picture %lu: %u %s", input_name(at.playing.log), at.playing.pictures, count, count == 1 ? one : many);
}

static void report_lack_sum(const Lack *lack, const char *many)
{
    if (lack->screens > SHOWN_REPORTS)
        say("%s: %lu %s in all, in %lu screens", input_name(at.playing.log), lack->sum, many, lack->screens);
}

/* The screen of the picture that was whole last. */
static void write_screen(void)
{
    unsigned control = 0;
    if (!at.out)
        at.out = open_whole(at.options.output);
    if (at.options.json)
        print_object(&at.screen, at.playing.pictures);
    else
        control = print_lines(&at.screen, at.playing.pictures);
    at.playing.written++;
    report_lack(&at.without, at.screen.without, "tile without a character", "tiles without a character");
    report_lack(&at.control, control, "control character, written as ?", "control characters, written as ?");
}

static void line_drawn(void *context, const Machine *machine, unsigned line)
{
    (void)context;
    if (line != PICTURE_LINES - 1)
        return;
    set_screen(&at.screen, machine);
    if (take_picture(&at.playing))
        write_screen();
}

static int play_screens(void)
{
    at.playing.log = at.options.input;
    play_into(&at.playing, at.options.output, line_drawn, write_screen);
    report_lack_sum(&at.without, "tiles without a character");
    report_lack_sum(&at.control, "control characters, written as ?,");
    int status = report_end(&at.playing);
    return status == DONE && at.playing.strict && at.without.sum ? NO_CHARACTER : status;
}

/* PAGES */

/* The characters of a line, from its row's start on; the row is spaces before. How many they are. */
static size_t set_row(uint8_t *row, const Text *text, const char *line)
{
    size_t column = 0, bytes;
    unsigned character;
    for (; *line; line += bytes) {
        if (column == PPU_ROW_LENGTH)
            give_up_at(text->status, text->path, text->number, "more than 32 characters");
        bytes = character_of(line, &character);
        if (!bytes || character > LAST_CHARACTER)
            give_up_at(text->status, text->path, text->number, "column %u: %s", (unsigned)column + 1,
                       bytes ? "a character that is neither ASCII nor Latin-1" : "bytes that are not UTF-8");
        row[column++] = (uint8_t)character;
    }
    return column;
}

static void read_rows(uint8_t *rows, size_t *lengths)
{
    Text text = open_text(at.options.input, BAD_LOG);
    const char *line;
    memset(rows, ' ', PPU_ROWS_LENGTH);
    while ((line = read_line(&text))) {
        size_t row = text.number - 1;
        if (row == PPU_ROWS)
            give_up_at(text.status, text.path, text.number, "a line too many: a page has 30 rows");
        lengths[row] = set_row(rows + PPU_ROW_LENGTH * row, &text, line);
    }
    close_text(&text);
}

/* The first character that ppu_page refused, by its place. */
static void report_character(const uint8_t *rows, const size_t *lengths)
{
    char text[CHARACTER_LENGTH], name[8];
    size_t k = 0;
    while (rows[k] && memchr(at.table, rows[k], sizeof at.table))
        k++;
    if (is_control(rows[k]))
        snprintf(name, sizeof name, "$%02X", rows[k]);
    else
        snprintf(name, sizeof name, "'%s'", in_utf8(text, rows[k]));
    give_up_at(BAD_LOG, at.options.input, k / PPU_ROW_LENGTH + 1, "column %u: %s%s is not in the table", (unsigned)(k % PPU_ROW_LENGTH) + 1, name,
               k % PPU_ROW_LENGTH < lengths[k / PPU_ROW_LENGTH] ? "" : ", for the rest of the row,");
}

static int make_page(void)
{
    uint8_t rows[PPU_ROWS_LENGTH], page[PPU_NAMETABLE_PAGE_LENGTH] = { 0 };
    size_t lengths[PPU_ROWS] = { 0 };
    int more = at.options.onto ? read_exactly(at.options.onto, page, sizeof page) : 0;
    if (more)
        give_up(BAD_FILE, "%s: not a page: it has %s than 1024 bytes", input_name(at.options.onto), more > 0 ? "more" : "fewer");
    read_rows(rows, lengths);
    if (ppu_number(ppu_page(rows, sizeof rows, at.table, sizeof at.table, page, sizeof page)) == PPU_BAD_CHARACTER)
        report_character(rows, lengths);
    fwrite(page, 1, sizeof page, open_whole(at.options.output));
    close_whole();
    return DONE;
}

/* OPTIONS */

static void set_option(int option, const char *argument)
{
    Options *o = &at.options;
    switch (option) {
    case 't': o->table = argument; break;
    case 'q': o->quarter = (unsigned)number_of("--quarter", argument, 0, 3); break;
    case 'j': o->json = 1; break;
    case 'm': o->trim = 1; break;
    case 'p': o->page = 1; break;
    case 'n': o->onto = argument; break;
    case 'o': o->output = argument; break;
    case 'h': fputs(help, stdout); fputs(help_page, stdout); exit(fflush(stdout) ? BAD_FILE : DONE);
    case 'V': puts("ppu-text " PPU_VERSION); exit(DONE);
    default: set_playing(&at.playing, option, argument);
    }
}

static int is_standard(const char *path) { return path && strcmp(path, "-") == 0; }

/* log_option: one that was given and says something of a log, NULL if none was */
static void check_options(const char *log_option)
{
    const Options *o = &at.options;
    check_playing(&at.playing);
    if (o->page && log_option)
        give_up(BAD_USAGE, "--%s: not with --page", log_option);
    if (!o->page && o->onto)
        give_up(BAD_USAGE, "--onto: only with --page");
    if (!*o->output)
        give_up(BAD_USAGE, "--output: the name is empty");
    if (!o->table)
        give_up(BAD_USAGE, "no table given: --table names it; --help says how");
    if (!o->page && !o->input)
        give_up(BAD_USAGE, "no log given; --help says how");
    if (is_standard(o->table) + is_standard(o->onto) + (o->input ? is_standard(o->input) : 1) > 1)
        give_up(BAD_USAGE, "standard input can be only one of the files");
    if (o->page && is_standard(o->output) && isatty(STDOUT_FILENO))
        give_up(BAD_USAGE, "a page is not for a terminal: name a file with -o");
}

static void read_options(int count, char **arguments)
{
    static const struct option names[] = {
        { "table", 1, NULL, 't' }, { "every", 1, NULL, 'e' }, { "last", 0, NULL, 'l' }, { "quarter", 1, NULL, 'q' }, { "json", 0, NULL, 'j' },
        { "trim", 0, NULL, 'm' }, { "output", 1, NULL, 'o' }, { "board", 1, NULL, 'b' }, { "page", 0, NULL, 'p' }, { "onto", 1, NULL, 'n' },
        { "strict", 0, NULL, 'x' }, { "help", 0, NULL, 'h' }, { "version", 0, NULL, 'V' }, { NULL, 0, NULL, 0 },
    };
    const char *log_option = NULL;
    int option, index = 0;
    while ((option = getopt_long(count, arguments, ":o:hV", names, &index)) != -1) {
        if (option == '?' || option == ':')
            bad_option(option, arguments);
        if (strchr("elqjmbx", option))
            log_option = names[index].name;
        set_option(option, optarg);
    }
    if (optind + 1 < count)
        give_up(BAD_USAGE, "%s: one %s at a time", arguments[optind + 1], at.options.page ? "text" : "log");
    if (optind < count)
        at.options.input = arguments[optind];
    check_options(log_option);
    if (!at.options.input)
        at.options.input = "-";
}

int main(int count, char **arguments)
{
    tool_name = "ppu-text";
    at.options = (Options){ .output = "-", .quarter = BY_CONTROL };
    at.playing = all_pictures();
    opterr = 0;
    read_options(count, arguments);
    load_table(at.table, at.options.table);
    return at.options.page ? make_page() : play_screens();
}
