#define _POSIX_C_SOURCE 200809L
#include <string.h>
#include <sys/stat.h>
#include <time.h>
#include <unistd.h>
#include "screens.h"
#include "tool.h"

Playing all_pictures(void) { return (Playing){ .every = 1, .board = 9 }; }

void set_playing(Playing *playing, int option, const char *argument)
{
    switch (option) {
    case 'e':
        playing->every = number_of("--every", argument, 1, 1000000000);
        playing->every_given = 1;
        break;
    case 'l': playing->last = 1; break;
    case 'b': playing->board = (uint8_t)number_of("--board", argument, 0, 255); break;
    case 'x': playing->strict = 1; break;
    }
}

void check_playing(const Playing *playing)
{
    if (playing->last && playing->every_given)
        give_up(BAD_USAGE, "--every and --last: only one of them can be given");
}

/* A bar on a terminal, ten times a second at most. */
static void show_progress(const Playing *playing)
{
    static const char full[] = "##############################", empty[] = "..............................";
    static struct timespec last;
    struct timespec now;
    if (!playing->bar)
        return;
    clock_gettime(CLOCK_MONOTONIC, &now);
    if ((now.tv_sec - last.tv_sec) * 10 + (now.tv_nsec - last.tv_nsec) / 100000000 < 1)
        return;
    last = now;
    fprintf(stderr, "\r\033[K%s: ", input_name(playing->log));
    if (playing->size > 0) {
        int percent = (int)(playing->record.number * 400.0 / (double)playing->size), part = percent * 30 / 100;
        part = part > 30 ? 30 : part;
        fprintf(stderr, "[%.*s%.*s] %d %%, ", part, full, 30 - part, empty, percent > 100 ? 100 : percent);
    }
    fprintf(stderr, "%lu pictures", playing->pictures);
    bar_shown = 1;
}

static unsigned long all_refused(const Playing *playing)
{
    unsigned long sum = 0;
    for (int i = 1; i < REFUSALS; i++)
        sum += playing->refused[i];
    return sum;
}

static void report_refusal(Playing *playing, unsigned number)
{
    char why[200];
    playing->refused[number < REFUSALS ? number : 0]++;
    if (all_refused(playing) > SHOWN_REPORTS && number != PPU_BAD_REQUEST)
        return;
    explain(why, sizeof why, &playing->record, number);
    say("%s: record %lu: refused %u: %s", input_name(playing->log), playing->record.number, number, why);
}

static void report_others(const Playing *playing)
{
    const unsigned long *refused = playing->refused, sum = all_refused(playing);
    if (sum > SHOWN_REPORTS)
        say("%s: %lu records refused in all: %lu with 1, %lu with 2, %lu with 3, %lu with 4, %lu with 5", input_name(playing->log), sum,
            refused[1], refused[2], refused[3], refused[4], refused[5]);
}

void play_log(Playing *playing, Drawn *drawn)
{
    Machine machine = { .drawn = drawn };
    struct stat status;
    unsigned number = 0;
    if (start(&machine, playing->board) == PPU_BAD_UNIT)
        give_up(BAD_USAGE, "--board %u: refused 3: not a board byte, " BOARD_BYTES " is", playing->board);
    FILE *log = open_input(playing->log);
    playing->size = fstat(fileno(log), &status) == 0 && S_ISREG(status.st_mode) ? (long long)status.st_size : -1;
    while (number != PPU_BAD_REQUEST && next_record(log, &playing->record)) {
        number = ppu_number(play(&machine, &playing->record));
        if (number)
            report_refusal(playing, number);
        if (playing->record.number % 65536 == 0)
            show_progress(playing);
    }
    close_input(log, playing->log);
    playing->next_line = next_line(&machine);
}

void play_into(Playing *playing, const char *output, Drawn *drawn, void (*write_last)(void))
{
    int on_terminal = strcmp(output, "-") == 0 && isatty(STDOUT_FILENO);
    playing->bar = isatty(STDERR_FILENO) && (playing->last || !on_terminal);
    play_log(playing, drawn);
    clear_bar();
    if (playing->last && playing->pictures)
        write_last();
    if (playing->written)
        close_whole();
    playing->bar = playing->bar && !on_terminal;
}

int take_picture(Playing *playing)
{
    playing->pictures++;
    show_progress(playing);
    return !playing->last && playing->pictures % playing->every == 0;
}

/* Why there is no picture, if there is none; what ended the play has been said. */
static int report_status(const Playing *playing)
{
    const char *log = input_name(playing->log);
    if (playing->refused[PPU_BAD_REQUEST])
        return BAD_LOG;
    if (playing->written)
        return playing->strict && all_refused(playing) ? REFUSED : DONE;
    if (playing->record.number == 1)
        say("%s: the log is empty, no picture", log);
    else if (!playing->pictures)
        say("%s: no whole picture: the log ends before line %u of the first", log, playing->next_line);
    else
        say("%s: no picture: it has %lu whole pictures, --every %lu takes none of them", log, playing->pictures, playing->every);
    return NO_PICTURE;
}

/* The last line on a terminal stands in place of the bar. */
int report_end(const Playing *playing)
{
    report_others(playing);
    int status = report_status(playing);
    if (playing->bar && playing->written)
        say("%s: %lu of %lu pictures written", input_name(playing->log), playing->written, playing->pictures);
    return status;
}
