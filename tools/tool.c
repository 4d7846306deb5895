#define _XOPEN_SOURCE 700
#include <ctype.h>
#include <errno.h>
#include <fcntl.h>
#include <getopt.h>
#include <signal.h>
#include <stdarg.h>
#include <stdlib.h>
#include <string.h>
#include <sys/stat.h>
#include <unistd.h>
#include "tool.h"

const char *tool_name = "tool";
int bar_shown;

/* the file that is being written; part is its name until then, empty if it has its own */
static struct {
    FILE *file;
    char path[4096], part[4096];
} whole;

/* set while the part is there, for a signal that ends the program */
static volatile sig_atomic_t has_part;

static void remove_part(void)
{
    if (has_part)
        unlink(whole.part);
    has_part = 0;
}

static void end_by(int signal_number)
{
    remove_part();
    signal(signal_number, SIG_DFL);
    raise(signal_number);
}

void clear_bar(void)
{
    if (bar_shown)
        fputs("\r\033[K", stderr);
    bar_shown = 0;
}

static void print_message(const char *format, va_list arguments)
{
    clear_bar();
    fprintf(stderr, "%s: ", tool_name);
    vfprintf(stderr, format, arguments);
    fputc('\n', stderr);
}

void say(const char *format, ...)
{
    va_list arguments;
    va_start(arguments, format);
    print_message(format, arguments);
    va_end(arguments);
}

void give_up(int status, const char *format, ...)
{
    va_list arguments;
    remove_part();
    va_start(arguments, format);
    print_message(format, arguments);
    va_end(arguments);
    exit(status);
}

void give_up_at(int status, const char *path, unsigned long line, const char *format, ...)
{
    static char place[4096];
    va_list arguments;
    remove_part();
    snprintf(place, sizeof place, "%s:%lu", input_name(path), line);
    tool_name = place;
    va_start(arguments, format);
    print_message(format, arguments);
    va_end(arguments);
    exit(status);
}

const char *shown(char text[SHOWN_LENGTH], const char *word)
{
    size_t i;
    for (i = 0; i + 1 < SHOWN_LENGTH && word[i]; i++)
        text[i] = (char)(isprint((unsigned char)word[i]) ? word[i] : '?');
    text[i] = 0;
    return text;
}

unsigned long number_of(const char *option, const char *text, unsigned long least, unsigned long most)
{
    char *end;
    errno = 0;
    unsigned long number = strtoul(text, &end, 10);
    if (*text < '0' || *text > '9' || *end || errno || number < least || number > most)
        give_up(BAD_USAGE, "%s %s: not a number from %lu to %lu", option, text, least, most);
    return number;
}

void bad_option(int result, char **arguments)
{
    const char *argument = arguments[optind - 1];
    char letter[3] = { '-', (char)optopt, 0 };
    const char *option = strncmp(argument, "--", 2) == 0 || !optopt ? argument : letter;
    give_up(BAD_USAGE, "%s: %s; --help lists the options", option,
            result == ':' ? "an argument is missing" : optopt && option == argument ? "takes no argument" : "no such option");
}

const char *input_name(const char *path) { return strcmp(path, "-") ? path : "standard input"; }

FILE *open_input(const char *path)
{
    struct stat status;
    FILE *file = strcmp(path, "-") ? fopen(path, "rb") : stdin;
    if (!file)
        give_up(BAD_FILE, "%s: %s", path, strerror(errno));
    if (fstat(fileno(file), &status) == 0 && S_ISDIR(status.st_mode))
        give_up(BAD_FILE, "%s: a folder, not a file", input_name(path));
    return file;
}

void close_input(FILE *file, const char *path)
{
    if (ferror(file))
        give_up(BAD_FILE, "%s: %s", input_name(path), strerror(errno));
    if (file != stdin)
        fclose(file);
}

size_t read_at_most(const char *path, void *bytes, size_t most)
{
    FILE *file = open_input(path);
    size_t got = fread(bytes, 1, most, file);
    got += got == most && fgetc(file) != EOF;
    close_input(file, path);
    return got;
}

int read_exactly(const char *path, void *bytes, size_t length)
{
    size_t got = read_at_most(path, bytes, length);
    return got < length ? -1 : got > length;
}

/* A device or a pipe must keep its place: nothing is renamed over it. */
static int is_special(const char *path)
{
    struct stat status;
    return stat(path, &status) == 0 && !S_ISREG(status.st_mode);
}

/* A signal that ends the program takes the part away; one that is ignored stays so. A file that grows too large is an error of its write. */
static void catch_signals(void)
{
    static const int signals[] = { SIGHUP, SIGINT, SIGTERM, SIGPIPE };
    static int caught;
    for (size_t i = 0; !caught && i < sizeof signals / sizeof *signals; i++)
        if (signal(signals[i], SIG_IGN) != SIG_IGN)
            signal(signals[i], end_by);
    signal(SIGXFSZ, SIG_IGN);
    caught = 1;
}

static FILE *open_part(void)
{
    catch_signals();
    has_part = 1; /* before it is there, lest a signal falls between */
    int descriptor = open(whole.part, O_WRONLY | O_CREAT | O_TRUNC, 0666);
    has_part = descriptor >= 0;
    return has_part ? fdopen(descriptor, "wb") : NULL;
}

FILE *open_whole(const char *path)
{
    if (snprintf(whole.path, sizeof whole.path, "%s", path) >= (int)sizeof whole.path - 40)
        give_up(BAD_FILE, "%.40s...: the name is too long", path);
    snprintf(whole.part, sizeof whole.part, "%.4000s.%ld.part", path, (long)getpid());
    if (strcmp(path, "-") == 0)
        whole.file = stdout;
    else
        whole.file = is_special(path) ? fopen(path, "wb") : open_part();
    if (!whole.file)
        give_up(BAD_FILE, "%s: %s", path, strerror(errno));
    return whole.file;
}

void close_whole(void)
{
    const char *name = strcmp(whole.path, "-") ? whole.path : "standard output";
    int failed = fflush(whole.file) || ferror(whole.file);
    int reason = errno;
    if (whole.file != stdout && fclose(whole.file) && !failed) {
        failed = 1;
        reason = errno;
    }
    if (!failed && has_part && rename(whole.part, whole.path)) {
        failed = 1;
        reason = errno;
    }
    if (failed)
        give_up(BAD_FILE, "%s: cannot be written: %s", name, strerror(reason));
    has_part = 0;
}
