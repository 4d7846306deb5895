/* The text layer without the picture unit: a program that links libtext.a alone. Its page, the last of a board with four, comes from no unit. */
#include "check.h"
#include "ppu.h"

int main(void)
{
    static uint8_t nametables[PPU_FOUR_PAGES_LENGTH], back[PPU_NAMETABLE_PAGE_LENGTH], table[PPU_TABLE_LENGTH], rows[PPU_ROWS_LENGTH];
    uint8_t *page = nametables + ppu_quarter(PPU_FOUR_PAGES, 3);
    for (int tile = 0; tile < 256; tile++)
        table[tile] = (uint8_t)(tile ^ 0x80);
    for (int k = 0; k < PPU_ROWS_LENGTH; k++)
        page[k] = (uint8_t)(k % 128);
    EXPECT(ppu_text(page, PPU_NAMETABLE_PAGE_LENGTH, table, sizeof table, rows, sizeof rows), PPU_DONE);
    for (int k = 0; k < PPU_ROWS_LENGTH; k++)
        EXPECT(rows[k], k % 128 + 128);
    EXPECT(ppu_page(rows, sizeof rows, table, sizeof table, back, sizeof back), PPU_DONE);
    EXPECT_BYTES(back, page, sizeof back);
    EXPECT(page - nametables, ppu_nametable_length(PPU_FOUR_PAGES) - PPU_NAMETABLE_PAGE_LENGTH);
    part("the text layer alone");
    return verdict("tests/alone");
}
