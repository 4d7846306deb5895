#define _POSIX_C_SOURCE 200809L
#include <stdlib.h>
#include <string.h>
#include <strings.h>
#include <sys/types.h>
#include "table.h"
#include "tool.h"

#define ENTRY "an entry is one tile and one character, as in 41=A"
#define FOREIGN "a character that is neither ASCII nor Latin-1, which a table of bytes cannot hold"

Text open_text(const char *path, int status) { return (Text){ .path = path, .status = status, .file = open_input(path) }; }

void close_text(Text *text)
{
    close_input(text->file, text->path);
    free(text->line);
}

const char *read_line(Text *text)
{
    static const char mark[] = "\xEF\xBB\xBF";
    ssize_t got = getline(&text->line, &text->room, text->file);
    if (got < 0)
        return NULL;
    size_t length = (size_t)got;
    text->number++;
    if (strlen(text->line) != length)
        give_up_at(text->status, text->path, text->number, "a zero byte: this is no text");
    if (length && text->line[length - 1] == '\n')
        length--;
    if (length && text->line[length - 1] == '\r')
        length--;
    text->line[length] = 0;
    if (strchr(text->line, '\r'))
        give_up_at(text->status, text->path, text->number, "a CR within the line: line ends are LF or CR LF");
    return text->number == 1 && strncmp(text->line, mark, strlen(mark)) == 0 ? text->line + strlen(mark) : text->line;
}

size_t character_of(const char *line, unsigned *character)
{
    static const unsigned least[] = { 0, 0, 0x80, 0x800, 0x10000 }; /* by how many bytes it has */
    const unsigned char *bytes = (const unsigned char *)line;
    unsigned first = bytes[0];
    size_t length = first < 0x80 ? 1 : first < 0xC2 || first > 0xF4 ? 0 : first < 0xE0 ? 2 : first < 0xF0 ? 3 : 4;
    *character = length == 1 ? first : first & (0x7Fu >> length);
    for (size_t i = 1; i < length; i++) {
        if ((bytes[i] & 0xC0) != 0x80)
            return 0;
        *character = *character << 6 | (bytes[i] & 63u);
    }
    int is_surrogate = *character >= 0xD800 && *character < 0xE000;
    return *character < least[length] || *character > 0x10FFFF || is_surrogate ? 0 : length;
}

int is_control(unsigned character) { return character < 32 || (character >= 127 && character < 160); }

const char *in_utf8(char text[CHARACTER_LENGTH], unsigned character)
{
    size_t length = 0;
    if (character >= 0x80)
        text[length++] = (char)(0xC0 | character >> 6);
    text[length++] = (char)(character < 0x80 ? character : 0x80 | (character & 63));
    text[length] = 0;
    return text;
}

/* A value in quotes, for a message: ? stands for what cannot be shown, ... for the rest of a long one. */
#define QUOTED_LENGTH (SHOWN_LENGTH + 8)
static const char *quoted(char text[QUOTED_LENGTH], const char *value)
{
    size_t at = 0, bytes;
    unsigned character;
    text[at++] = '\'';
    for (; *value && at < SHOWN_LENGTH; value += bytes ? bytes : 1) {
        bytes = character_of(value, &character);
        int is_shown = bytes && !is_control(character);
        memcpy(text + at, is_shown ? value : "?", is_shown ? bytes : 1);
        at += is_shown ? bytes : 1;
    }
    strcpy(text + at, *value ? "'..." : "'");
    return text;
}

/* The one character behind =. A byte alone that is not UTF-8 is taken for Latin-1, as older files have it. */
static uint8_t value_of(const Text *text, const char *value)
{
    char part[QUOTED_LENGTH];
    unsigned character;
    if (!*value)
        give_up_at(text->status, text->path, text->number, "nothing behind =, not even a space; a tile without a character has no line");
    size_t length = character_of(value, &character);
    if (!length && !value[1]) {
        character = (unsigned char)*value;
        length = 1;
    }
    if (!length)
        give_up_at(text->status, text->path, text->number, "%s: bytes that are not UTF-8: more than one Latin-1 character, or " FOREIGN,
                   quoted(part, value));
    if (character > LAST_CHARACTER)
        give_up_at(text->status, text->path, text->number, "%s: " FOREIGN, quoted(part, value));
    if (value[length])
        give_up_at(text->status, text->path, text->number, "%s: more than one character behind =; " ENTRY, quoted(part, value));
    if (is_control(character))
        give_up_at(text->status, text->path, text->number, "a control character, $%02X, behind =; " ENTRY, character);
    return (uint8_t)character;
}

/* The tile before =. */
static unsigned entry_tile(const Text *text, const char *line)
{
    size_t digits = strspn(line, "0123456789abcdefABCDEF");
    char part[SHOWN_LENGTH];
    if (!digits || line[digits] != '=')
        give_up_at(text->status, text->path, text->number, "%s: no entry; " ENTRY, shown(part, line));
    if (digits != 2)
        give_up_at(text->status, text->path, text->number, "%s: a tile has two hexadecimal digits; " ENTRY, shown(part, line));
    return (unsigned)strtoul(line, NULL, 16);
}

static int is_comment(const char *line) { return !*line || *line == '#' || *line == ';' || strncmp(line, "//", 2) == 0; }

static void read_entries(uint8_t *table, const char *path)
{
    unsigned long lines[PPU_TABLE_LENGTH] = { 0 }; /* where a tile has its entry */
    Text text = open_text(path, BAD_FILE);
    const char *line;
    unsigned entries = 0;
    while ((line = read_line(&text))) {
        line += strspn(line, " \t");
        if (is_comment(line))
            continue;
        unsigned tile = entry_tile(&text, line);
        if (lines[tile])
            give_up_at(text.status, path, text.number, "tile $%02X has its character from line %lu already", tile, lines[tile]);
        lines[tile] = text.number;
        table[tile] = value_of(&text, line + 3);
        entries++;
    }
    close_text(&text);
    if (!entries)
        give_up(BAD_FILE, "%s: not a table: it has no entry like 41=A", path);
}

void load_table(uint8_t table[PPU_TABLE_LENGTH], const char *path)
{
    size_t length = strlen(path);
    memset(table, 0, PPU_TABLE_LENGTH);
    if (length >= 4 && strcasecmp(path + length - 4, ".tbl") == 0) {
        read_entries(table, path);
        return;
    }
    int more = read_exactly(path, table, PPU_TABLE_LENGTH);
    if (more)
        give_up(BAD_FILE, "%s: not a table: it has %s than 256 bytes, and its name does not end in .tbl, as that of entries like 41=A must",
                input_name(path), more > 0 ? "more" : "fewer");
}
