/* The text of a screen: plays a log and prints the text that its nametable page has at the end, then makes a page of that text.
   After `make install`: cc examples/text.c $(pkg-config --cflags --libs ppu ppu-text) -o text && ./text <examples/picture.log */
#include <ppu.h>
#include <stdio.h>
#include <stdlib.h>
#include <string.h>

static uint8_t unit[PPU_RECORD_LENGTH], left[PPU_PATTERN_LENGTH], right[PPU_PATTERN_LENGTH], nametables[PPU_NAMETABLE_LENGTH];
static uint8_t oam[PPU_OAM_LENGTH], palette[PPU_PALETTE_LENGTH], line[PPU_LINE_LENGTH], colours[PPU_COLOURS_LENGTH];

/* Byte t is the character of tile t: here tiles 0 to 12, as examples/picture.log has them. The others have none, and show as spaces. */
static const uint8_t table[PPU_TABLE_LENGTH] = "  02BCEHILMOS";

static void check(const char *call, uint64_t answer)
{
    if (ppu_number(answer) != PPU_DONE) {
        fprintf(stderr, "text: the call %s was refused with %u\n", call, ppu_number(answer));
        exit(1);
    }
}

static void play(FILE *log)
{
    uint8_t record[PPU_LOG_RECORD_LENGTH];
    size_t length;
    check("fresh", ppu_fresh(unit, sizeof unit, PPU_VERTICAL | PPU_WRITABLE));
    while ((length = fread(record, 1, sizeof record, log)) > 0)
        check("play", ppu_play(unit, sizeof unit, record, length, left, sizeof left, right, sizeof right, nametables, sizeof nametables,
                               oam, sizeof oam, palette, sizeof palette, line, sizeof line, colours, sizeof colours));
}

int main(void)
{
    uint8_t rows[PPU_ROWS_LENGTH], made[PPU_NAMETABLE_PAGE_LENGTH] = { 0 }, again[PPU_ROWS_LENGTH];
    play(stdin);

    /* the page of the quarter that control's low two bits name */
    const uint8_t *page = nametables + ppu_quarter(unit[PPU_AT_BOARD], unit[PPU_AT_CONTROL] & 3);
    uint64_t answer = ppu_text(page, PPU_NAMETABLE_PAGE_LENGTH, table, sizeof table, rows, sizeof rows);
    check("text", answer);
    for (int row = 0; row < PPU_ROWS; row++)
        printf("%.*s\n", PPU_ROW_LENGTH, (const char *)rows + PPU_ROW_LENGTH * row);
    printf("%u tiles without a character\n", (unsigned)ppu_count(answer));

    /* and back: a character that no tile has would be refused with 8 */
    check("page", ppu_page(rows, sizeof rows, table, sizeof table, made, sizeof made));
    check("text", ppu_text(made, sizeof made, table, sizeof table, again, sizeof again));
    return memcmp(again, rows, sizeof rows) ? 1 : 0;
}
