/* ppu-log: a log as text, a text as a log. */
#define _POSIX_C_SOURCE 200809L
#include <ctype.h>
#include <getopt.h>
#include <stdlib.h>
#include <string.h>
#include <sys/types.h>
#include <unistd.h>
#include "play.h"
#include "tool.h"

#define WORDS 6 /* one more than a record can have */

static const char help[] =
    "Usage: ppu-log show [--answers] [-o FILE] [LOG]\n"
    "       ppu-log make [-o FILE] [TEXT]\n"
    "show writes a log of accesses as text, make a text as a log. Every log survives show and make byte for byte.\n"
    "LOG and TEXT are files; - or none is standard input.\n"
    "\n"
    "The text has a line for each record:\n"
    "  R 2002           read the address\n"
    "  W 2006 21        write the byte to the address\n"
    "  RUN 262          run so many lines, 0 to 65535, with no reason to stop\n"
    "  RAW 03 01 06 00  a record by its four bytes, for one that is not well formed; with one to three bytes it is a record\n"
    "                   cut short, and the last\n"
    "Addresses and bytes are hexadecimal, with or without a $ in front; numbers of lines are decimal. Large and small letters\n"
    "are alike. From a # on a line is a comment; empty lines are passed over.\n"
    "show writes nothing but records, so that line k is record k, as ppu-picture counts them.\n"
    "\n"
    "      --answers      with show: the answer of each record behind it, as a comment, in the player's own words: the byte\n"
    "                     read, \"line N nmi B\" for a run, \"refused N\"; nothing after a \"refused 5\", where the player ends\n"
    "      --board N      with --answers: the board byte, " BOARD_BYTES " (default 9); ppu-picture --help explains it\n"
    "  -o, --output FILE  into this file, which is replaced as a whole or not at all (default: standard output)\n"
    "  -h, --help         this text\n"
    "  -V, --version      the version\n"
    "\n"
    "Exit status\n"
    "  0  done\n"
    "  2  a wrong option or argument\n"
    "  3  a file that cannot be read or written\n"
    "  4  a line of the text is wrong; it is named as TEXT:LINE\n"
    "\n"
    "Example: ppu-log show --answers examples/paper.log\n";

typedef struct {
    const char *command, *input, *output;
    int answers;
    uint8_t board;
} Options;

/* LOG TO TEXT */

static void print_record(FILE *out, const Record *record, Machine *machine)
{
    const uint8_t *bytes = record->bytes;
    if (!is_record(machine, record)) {
        fputs("RAW", out);
        for (size_t i = 0; i < record->length; i++)
            fprintf(out, " %02X", bytes[i]);
    } else if (bytes[0] == READ) {
        fprintf(out, "R %04X", middle(record));
    } else if (bytes[0] == WRITE) {
        fprintf(out, "W %04X %02X", middle(record), bytes[3]);
    } else {
        fprintf(out, "RUN %u", middle(record));
    }
}

/* the player's words for a record; a write that is done has none */
static void print_answer(FILE *out, const Record *record, const Machine *machine, uint64_t answer)
{
    if (ppu_number(answer))
        fprintf(out, "  # refused %u", ppu_number(answer));
    else if (record->bytes[0] == READ)
        fprintf(out, "  # %02X", ppu_byte(answer));
    else if (record->bytes[0] == RUN)
        fprintf(out, "  # line %u nmi %u", next_line(machine), ppu_nmi(answer));
}

static void show(FILE *in, FILE *out, const Options *options)
{
    static Machine machine;
    Record record = { .number = 0 };
    int playing = options->answers;
    if (start(&machine, options->board))
        give_up(BAD_USAGE, "--board %u: not a board byte, " BOARD_BYTES " is", options->board);
    while (next_record(in, &record)) {
        print_record(out, &record, &machine);
        if (playing) {
            uint64_t answer = play(&machine, &record);
            print_answer(out, &record, &machine, answer);
            playing = ppu_number(answer) != PPU_BAD_REQUEST;
        }
        fputc('\n', out);
    }
}

/* TEXT TO LOG */

/* the line that is read, for messages */
static struct {
    const char *path;
    unsigned long number, cut; /* cut: the line of a record cut short, 0 if there was none */
} text;

/* Ends with BAD_LOG at this line. */
static void wrong(const char *what, const char *word)
{
    char part[SHOWN_LENGTH];
    give_up_at(BAD_LOG, text.path, text.number, "%s%s%s", shown(part, word), *word ? ": " : "", what);
}

static unsigned hexadecimal(const char *word, size_t most, const char *what)
{
    const char *digits = *word == '$' ? word + 1 : word;
    size_t length = strlen(digits);
    if (length == 0 || length > most || strspn(digits, "0123456789abcdefABCDEF") != length)
        wrong(what, word);
    return (unsigned)strtoul(digits, NULL, 16);
}

static unsigned address_of(const char *word) { return hexadecimal(word, 4, "not an address of one to four hexadecimal digits"); }

static unsigned byte_of(const char *word) { return hexadecimal(word, 2, "not a byte of one or two hexadecimal digits"); }

static unsigned decimal(const char *word)
{
    size_t length = strlen(word);
    if (length == 0 || length > 5 || strspn(word, "0123456789") != length || strtoul(word, NULL, 10) > 65535)
        wrong("not a number of lines, 0 to 65535", word);
    return (unsigned)strtoul(word, NULL, 10);
}

static void set_record(Record *record, unsigned kind, unsigned number, unsigned last)
{
    record->length = sizeof record->bytes;
    record->bytes[0] = (uint8_t)kind;
    record->bytes[1] = (uint8_t)(number / 256);
    record->bytes[2] = (uint8_t)(number % 256);
    record->bytes[3] = (uint8_t)last;
}

static void set_raw(Record *record, char *const *words, int count)
{
    record->length = (size_t)count;
    for (int i = 0; i < count; i++)
        record->bytes[i] = (uint8_t)byte_of(words[i]);
    if (record->length < sizeof record->bytes)
        text.cut = text.number;
}

static int is(const char *word, const char *name)
{
    while (*word && toupper((unsigned char)*word) == *name)
        word++, name++;
    return !*word && !*name;
}

/* a record by its words: the first says which, the others must be as many as it takes */
static void parse(Record *record, char *const *words, int count)
{
    if (is(words[0], "R")) {
        if (count != 2)
            wrong("takes an address and nothing else, as in R 2002", words[0]);
        set_record(record, READ, address_of(words[1]), 0);
    } else if (is(words[0], "W")) {
        if (count != 3)
            wrong("takes an address and a byte, as in W 2006 21", words[0]);
        set_record(record, WRITE, address_of(words[1]), byte_of(words[2]));
    } else if (is(words[0], "RUN")) {
        if (count != 2)
            wrong("takes a number of lines and nothing else, as in RUN 262", words[0]);
        set_record(record, RUN, decimal(words[1]), 0);
    } else if (is(words[0], "RAW")) {
        if (count < 2 || count > 5)
            wrong("takes one to four bytes, as in RAW 03 01 06 00", words[0]);
        set_raw(record, words + 1, count - 1);
    } else {
        wrong("not a record; R, W, RUN and RAW are", words[0]);
    }
}

static int split(char *line, char **words)
{
    int count = 0;
    line[strcspn(line, "#\r\n")] = 0;
    for (char *word = strtok(line, " \t"); word && count < WORDS; word = strtok(NULL, " \t"))
        words[count++] = word;
    return count;
}

static void make(FILE *in, FILE *out)
{
    char *line = NULL, *words[WORDS];
    size_t room = 0;
    ssize_t length;
    while ((length = getline(&line, &room, in)) > 0) {
        Record record = { .number = 0 };
        text.number++;
        if (strlen(line) != (size_t)length)
            wrong("a zero byte: this is no text", "");
        int count = split(line, words);
        if (count && text.cut)
            wrong("a record behind one that is cut short", words[0]);
        if (count) {
            parse(&record, words, count);
            fwrite(record.bytes, 1, record.length, out);
        }
    }
    free(line);
}

static Options read_options(int count, char **arguments)
{
    static const struct option names[] = {
        { "answers", 0, NULL, 'a' }, { "board", 1, NULL, 'b' }, { "output", 1, NULL, 'o' },
        { "help", 0, NULL, 'h' }, { "version", 0, NULL, 'V' }, { NULL, 0, NULL, 0 },
    };
    Options o = { .input = "-", .output = "-", .board = 9 };
    int option;
    while ((option = getopt_long(count, arguments, ":o:hV", names, NULL)) != -1)
        switch (option) {
        case 'a': o.answers = 1; break;
        case 'b': o.board = (uint8_t)number_of("--board", optarg, 0, 255); break;
        case 'o': o.output = optarg; break;
        case 'h': fputs(help, stdout); exit(fflush(stdout) ? BAD_FILE : DONE);
        case 'V': puts("ppu-log " PPU_VERSION); exit(DONE);
        default: bad_option(option, arguments);
        }
    if (optind == count)
        give_up(BAD_USAGE, "show or make? --help says how");
    o.command = arguments[optind++];
    if (optind < count)
        o.input = arguments[optind++];
    if (optind < count)
        give_up(BAD_USAGE, "%s: one file at a time", arguments[optind]);
    return o;
}

int main(int count, char **arguments)
{
    tool_name = "ppu-log";
    opterr = 0;
    Options options = read_options(count, arguments);
    int shows = strcmp(options.command, "show") == 0;
    if (!shows && strcmp(options.command, "make"))
        give_up(BAD_USAGE, "%s: neither show nor make; --help says how", options.command);
    if (!shows && options.answers)
        give_up(BAD_USAGE, "--answers: only with show");
    if (!shows && strcmp(options.output, "-") == 0 && isatty(STDOUT_FILENO))
        give_up(BAD_USAGE, "a log is not for a terminal: name a file with -o");
    FILE *in = open_input(options.input), *out = open_whole(options.output);
    text.path = options.input;
    if (shows)
        show(in, out, &options);
    else
        make(in, out);
    close_input(in, options.input);
    close_whole();
    return DONE;
}
