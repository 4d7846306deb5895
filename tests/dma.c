/* ppu_dma: the page over OAM from every OAMADDR; while drawing only the latch. */
#include "machine.h"

static Machine m, wanted;

static void begin(unsigned mask, unsigned next_line, unsigned oamaddr)
{
    static const uint8_t record[16] = { 0x7F, 0, 0x60, 0, 0x45, 0x63, 0x55, 0x55, 2, 1, 0x77, 0x5A, 0, 0, 1, 0 };
    scatter(&m, 3 + oamaddr);
    memcpy(m.unit, record, 16);
    m.unit[PPU_AT_BOARD] = oamaddr % 3 ? PPU_FIRST_PAGE + PPU_WRITABLE : PPU_FOUR_PAGES;
    m.unit[PPU_AT_MASK] = (uint8_t)mask;
    m.unit[PPU_AT_OAMADDR] = (uint8_t)oamaddr;
    set_word(m.unit, PPU_AT_NEXT_LINE, next_line);
    copy(&wanted, &m);
}

/* OAM takes the page from OAMADDR round; OAMADDR itself comes back to where it was */
static void copied(unsigned oamaddr)
{
    for (unsigned i = 0; i < 256; i++)
        wanted.oam[(oamaddr + i) % 256] = wanted.page[i];
    wanted.unit[PPU_AT_LATCH] = wanted.page[255];
}

static void every_oamaddr(void)
{
    for (unsigned oamaddr = 0; oamaddr < 256; oamaddr++)
        for (unsigned warm = 0; warm < 2; warm++) {
            at = oamaddr;
            begin(warm ? 0x1E : 0xE7, warm ? 241 : 17, oamaddr);
            m.unit[PPU_AT_WARMED_UP] = wanted.unit[PPU_AT_WARMED_UP] = (uint8_t)warm;
            copied(oamaddr);
            EXPECT(sprite_dma(&m), 0);
            EXPECT_SAME(&m, &wanted);
        }
    part("from every OAMADDR, before and after warm-up");
}

static void drawing(void)
{
    for (unsigned next_line = 0; next_line < 262; next_line++)
        for (unsigned mask = 0; mask < 32; mask += 8) {
            at = next_line;
            begin(mask, next_line, next_line * 3 % 256);
            if (mask == 0 || (next_line >= 240 && next_line <= 260))
                copied(next_line * 3 % 256);
            wanted.unit[PPU_AT_LATCH] = wanted.page[255];
            EXPECT(sprite_dma(&m), 0);
            EXPECT_BYTES(m.unit, wanted.unit, 16);
            EXPECT_BYTES(m.oam, wanted.oam, 256);
            EXPECT_BYTES(m.page, wanted.page, 256);
        }
    part("before every line with mask bits 3 and 4: while drawing only the latch");
}

static void nmi_levels(void)
{
    for (unsigned n = 0; n < 8; n++) {
        at = n;
        begin(n & 4 ? 8 : 0, 20, 0);
        m.unit[PPU_AT_CONTROL] = n & 1 ? 0x80 : 0x7F;
        m.unit[PPU_AT_STATUS] = n & 2 ? 0x80 : 0x60;
        EXPECT(sprite_dma(&m), answer(0, (n & 3) == 3, 0));
    }
    part("the NMI level in the answer");
}

int main(void)
{
    m = machine();
    wanted = machine();
    every_oamaddr();
    drawing();
    nmi_levels();
    release(&m);
    release(&wanted);
    return verdict("tests/dma");
}
