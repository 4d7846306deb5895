/* What every command here does alike: one-line errors, numbers on the command line, files that are whole or not there. */
#ifndef TOOL_H
#define TOOL_H

#include <stdio.h>

/* exit statuses; --help of each command lists its own */
enum { DONE = 0, REFUSED = 1, BAD_USAGE = 2, BAD_FILE = 3, BAD_LOG = 4, NO_PICTURE = 5, NO_CHARACTER = 6 };

#if defined(__GNUC__)
#define LIKE_PRINTF(at) __attribute__((format(printf, at, at + 1)))
#else
#define LIKE_PRINTF(at)
#endif

/* the name that messages begin with; set first of all */
extern const char *tool_name;

/* set while a progress bar stands on the terminal's line; a message takes its place */
extern int bar_shown;

/* Takes the bar away, for output on the same terminal. */
void clear_bar(void);

/* Prints one line on standard error. */
void say(const char *format, ...) LIKE_PRINTF(1);

/* The same, and ends the program with this status; a file that is being written is taken away. */
void give_up(int status, const char *format, ...) LIKE_PRINTF(2);

/* The same, but the message begins with a line's place, FILE:LINE, as an editor looks for it. */
void give_up_at(int status, const char *path, unsigned long line, const char *format, ...) LIKE_PRINTF(4);

/* Of a word from a file what can be shown in a message: its beginning, with ? for what is not printable. */
#define SHOWN_LENGTH 40
const char *shown(char text[SHOWN_LENGTH], const char *word);

/* The number that an option's argument is, or an end with BAD_USAGE. */
unsigned long number_of(const char *option, const char *text, unsigned long least, unsigned long most);

/* What getopt_long came upon that is no option of ours, as an end with BAD_USAGE: its result is '?' or ':'. */
void bad_option(int result, char **arguments);

/* The file to read; "-" is standard input. Anything but a file that opens is an end with BAD_FILE. */
FILE *open_input(const char *path);

/* How messages call it. */
const char *input_name(const char *path);

/* The end of reading: an error on the way is an end with BAD_FILE. */
void close_input(FILE *file, const char *path);

/* Reads a file of at most so many bytes: how many it has, one more than that if there are more. */
size_t read_at_most(const char *path, void *bytes, size_t most);

/* Reads a file that must have this many bytes: 0 if it has, below 0 if it has fewer, above 0 if it has more. */
int read_exactly(const char *path, void *bytes, size_t length);

/* A file for writing that gets its name only when it is closed; until then it has another name in the same folder, and is taken away if the
   program ends. What is there and is not a plain file, such as a device, is written as it is. "-" is standard output. One at a time. */
FILE *open_whole(const char *path);
void close_whole(void);

#endif
