/* Tables of characters, and the texts that ppu-text reads. A character is a byte: ASCII below 128, Latin-1 from 160 on. In texts it stands in
   UTF-8; 1 to 31 and 127 to 159 are control characters. */
#ifndef TABLE_H
#define TABLE_H

#include <stdint.h>
#include <stdio.h>
#include "ppu.h"

/* a text that is read line by line */
typedef struct {
    const char *path;
    int status; /* what a wrong line ends the program with */
    FILE *file;
    char *line;
    size_t room;
    unsigned long number; /* of the line, counted from 1 */
} Text;

Text open_text(const char *path, int status);

/* The next line without its end, LF or CR LF, and without a byte order mark at the start of the text; NULL at its end. A CR or a zero byte
   within it ends the program. */
const char *read_line(Text *text);

void close_text(Text *text);

/* The character at the front of a line that is not empty, and the bytes it has there: 0 if they are not UTF-8. Above LAST_CHARACTER it is no
   character of a table. */
#define LAST_CHARACTER 255
size_t character_of(const char *line, unsigned *character);

int is_control(unsigned character);

/* A character in UTF-8: its bytes, ended by a 0. */
#define CHARACTER_LENGTH 3
const char *in_utf8(char text[CHARACTER_LENGTH], unsigned character);

/* Fills the table from a file of 256 bytes, or from the entries of a file whose name ends in .tbl; anything else is an end with BAD_FILE. */
void load_table(uint8_t table[PPU_TABLE_LENGTH], const char *path);

#endif
