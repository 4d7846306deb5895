/* What the viewer shows, as 32-bit pixels $00RRGGBB: the picture on the left, a panel with the unit and the log on the right. */
#ifndef SCREEN_H
#define SCREEN_H

#include <stdarg.h>
#include <stdio.h>
#include "colours.h"
#include "font.h"
#include "play.h"

enum { MARGIN = 8, PANEL_COLUMNS = 26, PANEL_PITCH = 9, VALUE_COLUMN = 12, PANEL_LEFT = MARGIN + PICTURE_WIDTH + 2 * MARGIN };
enum { SCREEN_WIDTH = PANEL_LEFT + PANEL_COLUMNS * FONT_SIZE + MARGIN, SCREEN_HEIGHT = MARGIN + PICTURE_HEIGHT + MARGIN };
enum { BACKDROP = 0x24272E, QUIET = 0x8A93A6, PLAIN = 0xE8EAF0, LIVELY = 0xFFC857 };

typedef struct {
    uint32_t pixels[SCREEN_HEIGHT][SCREEN_WIDTH];
    uint8_t rgb[PALETTE_FILE_LENGTH]; /* the colours of the picture */
} Screen;

/* Text from this column and row of the panel on; what does not fit is left out. */
static inline void screen_text(Screen *s, int column, int row, uint32_t colour, const char *format, ...)
{
    char text[PANEL_COLUMNS + 1];
    va_list values;
    va_start(values, format);
    vsnprintf(text, sizeof text - (size_t)column, format, values);
    va_end(values);
    for (int i = 0; text[i]; i++)
        for (int y = 0; y < FONT_SIZE; y++)
            for (int x = 0; x < FONT_SIZE; x++)
                if (font_point(text[i], x, y))
                    s->pixels[MARGIN + PANEL_PITCH * row + y][PANEL_LEFT + FONT_SIZE * (column + i) + x] = colour;
}

/* Arrows in the margins beside the line drawn last. */
static inline void screen_mark(Screen *s, int line)
{
    for (int x = 0; x < 5; x++)
        for (int y = x - 4; y <= 4 - x; y++)
            s->pixels[MARGIN + line + y][1 + x] = s->pixels[MARGIN + line + y][2 * MARGIN + PICTURE_WIDTH - 2 - x] = LIVELY;
}

/* Within a picture the lines below the one drawn last are still those of the picture before, and are shown at half their brightness. */
static inline void screen_picture(Screen *s, const Play *p)
{
    int next = (int)play_word(p, PPU_AT_NEXT_LINE), within = next > 0 && next < PICTURE_HEIGHT;
    for (int y = 0; y < PICTURE_HEIGHT; y++)
        for (int x = 0; x < PICTURE_WIDTH; x++) {
            const uint8_t *parts = s->rgb + 3 * p->picture[y][x];
            uint32_t rgb = (uint32_t)parts[0] << 16 | (uint32_t)parts[1] << 8 | parts[2];
            s->pixels[MARGIN + y][MARGIN + x] = within && y >= next ? rgb >> 1 & 0x7F7F7F : rgb;
        }
    if (within)
        screen_mark(s, next - 1);
}

/* A name and its value, which the format shows. */
static inline void screen_value(Screen *s, int row, const char *name, const char *format, unsigned value)
{
    screen_text(s, 0, row, QUIET, "%s", name);
    screen_text(s, VALUE_COLUMN, row, PLAIN, format, value);
}

/* The same of a byte whose bits have a meaning each. */
static inline void screen_bits(Screen *s, int row, const char *name, unsigned byte)
{
    screen_value(s, row, name, "$%02X", byte);
    for (unsigned i = 0; i < 8; i++)
        screen_text(s, VALUE_COLUMN + 4 + (int)i, row, byte >> (7 - i) & 1 ? LIVELY : QUIET, "%u", byte >> (7 - i) & 1);
}

/* How many sprites the search for sprite overflow looks at on the next line, if that is drawn: with fewer than 64 it sets status bit 5. */
static inline void screen_search(Screen *s, int row, const Play *p)
{
    uint64_t answer = ppu_search(p->unit, sizeof p->unit, (uint16_t)play_word(p, PPU_AT_NEXT_LINE), p->oam, sizeof p->oam);
    if (ppu_number(answer) == PPU_DONE && p->unit[PPU_AT_MASK] & 0x18)
        screen_text(s, VALUE_COLUMN + 4, row, ppu_looked(answer) < 64 ? LIVELY : QUIET, "SEARCH %u", ppu_looked(answer));
}

static inline void screen_unit(Screen *s, int row, const Play *p)
{
    const uint8_t *unit = p->unit;
    screen_bits(s, row++, "CONTROL", unit[PPU_AT_CONTROL]);
    screen_bits(s, row++, "MASK", unit[PPU_AT_MASK]);
    screen_bits(s, row++, "STATUS", unit[PPU_AT_STATUS]);
    screen_value(s, row++, "OAMADDR", "$%02X", unit[PPU_AT_OAMADDR]);
    screen_value(s, row++, "V", "$%04X", play_word(p, PPU_AT_V));
    screen_value(s, row++, "T", "$%04X", play_word(p, PPU_AT_T));
    screen_value(s, row++, "FINE X", "%u", unit[PPU_AT_FINE_X]);
    screen_value(s, row++, "W", "%u", unit[PPU_AT_W]);
    screen_value(s, row++, "READ BUFFER", "$%02X", unit[PPU_AT_READ_BUFFER]);
    screen_value(s, row++, "LATCH", "$%02X", unit[PPU_AT_LATCH]);
    screen_search(s, row, p);
    screen_value(s, row++, "NEXT LINE", "%u", play_word(p, PPU_AT_NEXT_LINE));
    screen_value(s, row++, "WARMED UP", "%u", unit[PPU_AT_WARMED_UP]);
    screen_value(s, row++, "BOARD", "$%02X", unit[PPU_AT_BOARD]);
    screen_value(s, row++, "NMI LEVEL", "%u", unit[PPU_AT_CONTROL] >> 7 & unit[PPU_AT_STATUS] >> 7);
}

/* The record played last, what it came to, and the last refusal of all. */
static inline void screen_record(Screen *s, int row, const Play *p)
{
    static const char *const reasons[] = { "", "ADDRESS", "LENGTH", "UNIT", "DRAWING", "RECORD" };
    enum { READ, WRITE, RUN }; /* kinds */
    unsigned number = ppu_number(p->answer), kind = p->record[0], address = 256u * p->record[1] + p->record[2];
    if (p->records == 0)
        screen_text(s, 0, row, PLAIN, "FRESH UNIT");
    else if (number == PPU_BAD_REQUEST)
        screen_text(s, 0, row, PLAIN, "$%02X %02X %02X %02X", kind, p->record[1], p->record[2], p->record[3]);
    else if (kind == RUN)
        screen_text(s, 0, row, PLAIN, "RUN %u LINES, %u LEFT", address, (unsigned)p->lines_left);
    else if (kind == WRITE)
        screen_text(s, 0, row, PLAIN, "WRITE $%02X TO $%04X", p->record[3], address);
    else
        screen_text(s, 0, row, PLAIN, "READ $%04X", address);
    if (number != PPU_DONE)
        screen_text(s, 0, row + 1, LIVELY, "REFUSED %u: %s", number, reasons[number]);
    else if (p->records && kind == READ)
        screen_text(s, 0, row + 1, PLAIN, "GAVE $%02X", ppu_byte(p->answer));
    else
        screen_text(s, 0, row + 1, PLAIN, "DONE");
    screen_text(s, 0, row + 2, QUIET, "LAST REFUSAL");
    if (p->refusal)
        screen_text(s, VALUE_COLUMN + 1, row + 2, PLAIN, "%u AT %lu", p->refusal, (unsigned long)p->refused);
    else
        screen_text(s, VALUE_COLUMN + 1, row + 2, PLAIN, "NONE");
}

/* All of it: `name` is the log's, `state` playing or not, `message` what the last key did. */
static inline void screen_draw(Screen *s, const Play *p, const char *name, const char *state, const char *message)
{
    for (int y = 0; y < SCREEN_HEIGHT; y++)
        for (int x = 0; x < SCREEN_WIDTH; x++)
            s->pixels[y][x] = BACKDROP;
    screen_picture(s, p);
    screen_text(s, 0, 0, PLAIN, "%s", name);
    screen_text(s, 0, 1, LIVELY, "PICTURE %lu, %s", p->pictures, state);
    screen_text(s, 0, 2, PLAIN, "RECORD %lu/%lu", (unsigned long)p->records, (unsigned long)play_records(p));
    screen_unit(s, 4, p);
    screen_record(s, 19, p);
    screen_text(s, 0, 22, LIVELY, "%s", message);
    screen_text(s, 0, 23, QUIET, "SPACE PLAY  N PICTURE");
    screen_text(s, 0, 24, QUIET, "R RESTART   L LINE");
    screen_text(s, 0, 25, QUIET, "S SHOT      H HIT   Q QUIT");
}

#endif
