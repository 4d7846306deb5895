/* ppu-picture: plays a log and writes its pictures as PNG files. */
#define _POSIX_C_SOURCE 200809L
#include <errno.h>
#include <getopt.h>
#include <stdlib.h>
#include <string.h>
#include <sys/stat.h>
#include <unistd.h>
#include "../examples/colours.h"
#include "encode.h"
#include "screens.h"
#include "tool.h"

#define NAME_LENGTH 4096

static const char help[] =
    "Usage: ppu-picture [OPTION]... LOG\n"
    "Plays a log of accesses on a picture unit 2C02 and writes its pictures as PNG files.\n"
    "\n"
    "LOG is a file, or - for standard input. It is played as the player does it: a fresh unit, all memory zero.\n"
    "A picture is lines 0 to 239 of one frame, 256 x 240 pixels; it is whole when line 239 was drawn.\n"
    "Pictures count from 1. The first is blank in most logs, since a fresh unit must warm up for a frame.\n"
    "\n"
    "Which pictures\n"
    HELP_WHICH
    "\n"
    "How they look\n"
    "      --scale N       each pixel is a square of N x N, 1 to 16 (default 1)\n"
    "      --palette FILE  a .pal file of red, green, blue, three bytes a colour: 192 bytes are the unit's 64 colours, of which those\n"
    "                      with emphasis are made; 1536 bytes are all 512, 64 without emphasis, then 64 for each emphasis, where\n"
    "                      1 is red, 2 green, 4 blue (default: the 64 of examples/2c02.pal, which are built in)\n"
    "                      A pixel has the finished colour that the unit gave it when its line was drawn: palette RAM,\n"
    "                      greyscale, emphasis and backdrop override are followed.\n"
    "      --grey          in place of the colours the pixel numbers, 0 to 31: number n has the grey level 69 + 6n and 0 is\n"
    "                      black, so that 1 is a dark grey and 31 is white\n"
    "\n"
    "Where they go\n"
    "  -o, --output DIR    into this folder, made if it is not there (default: the current folder), as NAME-0001.png and\n"
    "                      so on (more digits from picture 10000 on), where NAME is the log's name without its ending,\n"
    "                      or picture for standard input\n"
    "  -o PATH.png         as PATH-0001.png and so on; with --last as PATH.png\n"
    "  -o -                to standard output; only with --last\n"
    "                      A file of the same name is replaced. No file is ever half-written.\n"
    "\n"
    "The unit\n"
    HELP_BOARD
    "\n"
    "What is reported\n"
    "      --strict        a refused record makes the exit status 1\n"
    "      --summary       at the end a line on standard output: pictures, records, refusals by number\n"
    "  -h, --help          this text\n"
    "  -V, --version       the version\n";

static const char help_numbers[] =
    "\n"
    "A record that is refused is reported on standard error by its place in the log, counted from 1, and its number:\n"
    HELP_NUMBERS
    "The play goes on, but it ends at a 5; pictures before it are kept. The first 10 are shown, the others counted.\n"
    "\n"
    "Exit status\n"
    "  0  done, also where records were refused with 1 to 4\n"
    "  1  done, but records were refused, with --strict\n"
    "  2  a wrong option or argument\n"
    "  3  a file that cannot be read or written, or is no palette\n"
    "  4  the log ended at a record that was refused with 5\n"
    "  5  no picture: the log is empty, or has no whole picture, or not as many as --every asks for\n"
    "\n"
    "Example: ppu-picture --scale 2 -o pictures examples/picture.log\n";

typedef struct {
    const char *output, *palette;
    int summary, grey;
    Form form;
} Options;

/* what the play has come to */
static struct {
    Options options;
    Playing playing;
    Line drawing[PICTURE_HEIGHT], whole[PICTURE_HEIGHT]; /* the picture being drawn; with --last, the last that was whole */
} at;

/* NAME of the log: neither its folder nor its ending */
static void stem_of(char *stem, const char *log)
{
    const char *slash = strrchr(log, '/'), *name = slash ? slash + 1 : log, *dot = strrchr(name, '.');
    size_t length = dot && dot != name ? (size_t)(dot - name) : strlen(name);
    if (strcmp(log, "-") == 0)
        snprintf(stem, NAME_LENGTH, "picture");
    else
        snprintf(stem, NAME_LENGTH, "%.*s", (int)length, name);
}

static int ends_in_png(const char *name)
{
    size_t length = strlen(name);
    return length > 4 && strcmp(name + length - 4, ".png") == 0;
}

/* the file of a picture */
static void name_picture(char *name, unsigned long number)
{
    const char *output = at.options.output;
    char stem[NAME_LENGTH];
    int length;
    if (output && (strcmp(output, "-") == 0 || (ends_in_png(output) && at.playing.last))) {
        length = snprintf(name, NAME_LENGTH, "%s", output);
    } else if (output && ends_in_png(output)) {
        length = snprintf(name, NAME_LENGTH, "%.*s-%04lu.png", (int)strlen(output) - 4, output, number);
    } else {
        stem_of(stem, at.playing.log);
        length = snprintf(name, NAME_LENGTH, "%s%s%s-%04lu.png", output ? output : "", output ? "/" : "", stem, number);
    }
    if (length >= NAME_LENGTH)
        give_up(BAD_FILE, "%.40s...: the name is too long", name);
}

static void make_folder(void)
{
    const char *output = at.options.output;
    if (at.playing.written || !output || strcmp(output, "-") == 0 || ends_in_png(output))
        return;
    if (mkdir(output, 0777) && errno != EEXIST)
        give_up(BAD_FILE, "%s: the folder cannot be made: %s", output, strerror(errno));
}

/* A picture that is the same as the one before has the same PNG: games stand still often. */
static void write_picture(const Line *lines, unsigned long number)
{
    static Line before[PICTURE_HEIGHT];
    static const uint8_t *png;
    static size_t length;
    char name[NAME_LENGTH];
    make_folder();
    if (!png || memcmp(before, lines, sizeof before)) {
        png = encode(lines, &at.options.form, &length);
        memcpy(before, lines, sizeof before);
    }
    name_picture(name, number);
    fwrite(png, 1, length, open_whole(name));
    close_whole();
    at.playing.written++;
}

static void line_drawn(void *context, const Machine *machine, unsigned line)
{
    Line *to = &at.drawing[line];
    (void)context;
    memcpy(to->numbers, machine->line, sizeof to->numbers);
    memcpy(to->colours, machine->colours, sizeof to->colours);
    if (line != PICTURE_HEIGHT - 1)
        return;
    if (at.playing.last)
        memcpy(at.whole, at.drawing, sizeof at.whole);
    if (take_picture(&at.playing))
        write_picture(at.drawing, at.playing.pictures);
}

/* a line on standard output, if it was asked for */
static void print_summary(void)
{
    const Playing *p = &at.playing;
    if (at.options.summary)
        printf("pictures %lu of %lu, records %lu, refused 1:%lu 2:%lu 3:%lu 4:%lu 5:%lu\n", p->written, p->pictures,
               p->record.number - !p->record.length, p->refused[1], p->refused[2], p->refused[3], p->refused[4], p->refused[5]);
}

/* The 512 colours of a palette file, of the built-in ones if there is none. */
static const uint8_t *load_palette(const char *path)
{
    static uint8_t rgb[PALETTE_FILE_LENGTH];
    uint8_t bytes[PALETTE_FILE_LENGTH];
    size_t length = path ? read_at_most(path, bytes, sizeof bytes) : sizeof colours_2c02;
    if (!colours_set(rgb, path ? bytes : colours_2c02, length))
        give_up(BAD_FILE, "%s: not a palette: it has %s%u bytes, not 192 (64 colours) or 1536 (512 colours)", input_name(path),
                length > sizeof bytes ? "more than " : "", (unsigned)(length > sizeof bytes ? sizeof bytes : length));
    return rgb;
}

static void set_option(int option, const char *argument)
{
    Options *o = &at.options;
    switch (option) {
    case 's': o->form.scale = (unsigned)number_of("--scale", argument, 1, MOST_SCALE); break;
    case 'p': o->palette = argument; break;
    case 'g': o->grey = 1; break;
    case 'o': o->output = argument; break;
    case 'y': o->summary = 1; break;
    case 'h': fputs(help, stdout); fputs(help_numbers, stdout); exit(DONE);
    case 'V': puts("ppu-picture " PPU_VERSION); exit(DONE);
    default: set_playing(&at.playing, option, argument);
    }
}

static void check_options(void)
{
    const Options *o = &at.options;
    int to_standard_output = o->output && strcmp(o->output, "-") == 0;
    check_playing(&at.playing);
    if (o->grey && o->palette)
        give_up(BAD_USAGE, "--grey and --palette: only one of them can be given");
    if (o->output && !*o->output)
        give_up(BAD_USAGE, "--output: the name is empty");
    if (to_standard_output && (!at.playing.last || o->summary))
        give_up(BAD_USAGE, "--output -: only with --last, and without --summary");
}

static void read_options(int count, char **arguments)
{
    static const struct option names[] = {
        { "every", 1, NULL, 'e' }, { "last", 0, NULL, 'l' }, { "scale", 1, NULL, 's' }, { "palette", 1, NULL, 'p' }, { "grey", 0, NULL, 'g' },
        { "output", 1, NULL, 'o' }, { "board", 1, NULL, 'b' }, { "strict", 0, NULL, 'x' }, { "summary", 0, NULL, 'y' }, { "help", 0, NULL, 'h' },
        { "version", 0, NULL, 'V' }, { NULL, 0, NULL, 0 },
    };
    int option;
    while ((option = getopt_long(count, arguments, ":o:hV", names, NULL)) != -1) {
        if (option == '?' || option == ':')
            bad_option(option, arguments);
        set_option(option, optarg);
    }
    check_options();
    if (optind == count)
        give_up(BAD_USAGE, "no log given; --help says how");
    if (optind + 1 < count)
        give_up(BAD_USAGE, "%s: one log at a time; ppu-batch takes many", arguments[optind + 1]);
    at.playing.log = arguments[optind];
    at.options.form.rgb = at.options.grey ? NULL : load_palette(at.options.palette);
}

int main(int count, char **arguments)
{
    tool_name = "ppu-picture";
    at.options.form.scale = 1;
    at.playing = all_pictures();
    at.playing.bar = isatty(STDERR_FILENO);
    opterr = 0;
    read_options(count, arguments);
    play_log(&at.playing, line_drawn);
    if (at.playing.last && at.playing.pictures)
        write_picture(at.whole, at.playing.pictures);
    int status = report_end(&at.playing);
    print_summary();
    if (fflush(stdout))
        give_up(BAD_FILE, "standard output: %s", strerror(errno));
    return status;
}
