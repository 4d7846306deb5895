/* Ports 0 to 6, and port 7 at every mirror: what each read and write does to the record and to memory. */
#include "machine.h"

static Machine m, wanted;

/* the record from which most parts set out: status bits all set, t's bits alternate, next line 241 */
static const uint8_t base[16] = { 0, 0, 0xE0, 0x21, 0x45, 0x63, 0x55, 0x55, 2, 0, 0x77, 0x5A, 241, 0, 1, 9 };

static void begin(void)
{
    memcpy(m.unit, base, 16);
    memcpy(wanted.unit, base, 16);
}

static void set_both(int offset, unsigned byte) { m.unit[offset] = wanted.unit[offset] = (uint8_t)byte; }

static void set_both_words(int offset, unsigned number)
{
    set_word(m.unit, offset, number);
    set_word(wanted.unit, offset, number);
}

static unsigned level(const uint8_t *record) { return record[PPU_AT_STATUS] >= 128 && record[PPU_AT_CONTROL] >= 128; }

/* the access is done, the record becomes the wanted one but for the latch, which is the byte */
static void expect_write(unsigned address, unsigned byte)
{
    wanted.unit[PPU_AT_LATCH] = (uint8_t)byte;
    EXPECT(write_at(&m, address, byte), answer(0, level(wanted.unit), 0));
    EXPECT_BYTES(m.unit, wanted.unit, 16);
}

static void expect_read(unsigned address, unsigned byte)
{
    wanted.unit[PPU_AT_LATCH] = (uint8_t)byte;
    EXPECT(read_at(&m, address), answer(byte, level(wanted.unit), 0));
    EXPECT_BYTES(m.unit, wanted.unit, 16);
}

/* MIRRORS. A write of $B6 from the base, by port */
static void wrote_B6(unsigned port)
{
    switch (port) {
    case 0:
        wanted.unit[PPU_AT_CONTROL] = 0xB6;
        set_word(wanted.unit, PPU_AT_T, 0x5955);
        break;
    case 1:
        wanted.unit[PPU_AT_MASK] = 0xB6;
        break;
    case 3:
        wanted.unit[PPU_AT_OAMADDR] = 0xB6;
        break;
    case 4:
        wanted.oam[0x21] = 0xB6;
        wanted.unit[PPU_AT_OAMADDR] = 0x22;
        break;
    case 5:
        set_word(wanted.unit, PPU_AT_T, 0x5556);
        wanted.unit[PPU_AT_FINE_X] = 6;
        wanted.unit[PPU_AT_W] = 1;
        break;
    case 6:
        set_word(wanted.unit, PPU_AT_T, 0x3655);
        wanted.unit[PPU_AT_W] = 1;
        break;
    case 7:
        wanted.nametables[0x345] = 0xB6;
        set_word(wanted.unit, PPU_AT_V, 0x6346);
        break;
    }
}

static void written_mirrors(void)
{
    for (unsigned address = 0x2000; address < 0x4000; address++) {
        at = address;
        begin();
        m.oam[0x21] = wanted.oam[0x21] = 0x99;
        m.nametables[0x345] = wanted.nametables[0x345] = 0x66;
        wrote_B6(address % 8);
        expect_write(address, 0xB6);
        EXPECT_SAME(&m, &wanted);
    }
    part("a write at every mirror of each port");
}

static void read_mirrors(void)
{
    static const uint8_t bytes[8] = { 0x5A, 0x5A, 0xFA, 0x5A, 0x99, 0x5A, 0x5A, 0x77 };
    m.oam[0x21] = wanted.oam[0x21] = 0x99;
    m.nametables[0x345] = wanted.nametables[0x345] = 0x66;
    for (unsigned address = 0x2000; address < 0x4000; address++) {
        at = address;
        begin();
        set_both(PPU_AT_W, 1);
        if (address % 8 == 2) {
            wanted.unit[PPU_AT_STATUS] = 0x60;
            wanted.unit[PPU_AT_W] = 0;
        } else if (address % 8 == 7) {
            wanted.unit[PPU_AT_READ_BUFFER] = 0x66;
            set_word(wanted.unit, PPU_AT_V, 0x6346);
        }
        expect_read(address, bytes[address % 8]);
        EXPECT_SAME(&m, &wanted);
    }
    part("a read at every mirror of each port");
}

/* WRITES of every byte, with t at its extremes */
static const unsigned some_t[] = { 0, 0x7FFF, 0x5555, 0x2AAA, 0x0C00, 0x73FF };

static void ports_0_to_3(void)
{
    for (unsigned byte = 0; byte < 256; byte++) {
        at = byte;
        for (int i = 0; i < 6; i++) {
            unsigned t = some_t[i];
            begin();
            set_both_words(PPU_AT_T, t);
            wanted.unit[PPU_AT_CONTROL] = (uint8_t)byte;
            set_word(wanted.unit, PPU_AT_T, t / 4096 * 4096 + byte % 4 * 1024 + t % 1024);
            expect_write(0x2000, byte);
        }
        begin();
        wanted.unit[PPU_AT_MASK] = (uint8_t)byte;
        expect_write(0x2001, byte);
        begin();
        expect_write(0x2002, byte);
        wanted.unit[PPU_AT_OAMADDR] = (uint8_t)byte;
        expect_write(0x2003, byte);
    }
    part("writes of ports 0 to 3 with every byte");
}

static void ports_5_and_6(void)
{
    for (unsigned byte = 0; byte < 256; byte++)
        for (int i = 0; i < 6; i++) {
            unsigned t = some_t[i];
            at = 256 * (long)t + byte;
            begin();
            set_both_words(PPU_AT_T, t);
            set_word(wanted.unit, PPU_AT_T, t / 32 * 32 + byte / 8);
            wanted.unit[PPU_AT_FINE_X] = byte % 8;
            wanted.unit[PPU_AT_W] = 1;
            expect_write(0x2005, byte);
            begin();
            set_both_words(PPU_AT_T, t);
            set_both(PPU_AT_W, 1);
            set_word(wanted.unit, PPU_AT_T, byte % 8 * 4096 + t / 1024 % 4 * 1024 + byte / 8 * 32 + t % 32);
            wanted.unit[PPU_AT_W] = 0;
            expect_write(0x2005, byte);
            begin();
            set_both_words(PPU_AT_T, t);
            set_word(wanted.unit, PPU_AT_T, byte % 64 * 256 + t % 256);
            wanted.unit[PPU_AT_W] = 1;
            expect_write(0x2006, byte);
            begin();
            set_both_words(PPU_AT_T, t);
            set_both(PPU_AT_W, 1);
            set_word(wanted.unit, PPU_AT_T, t / 256 * 256 + byte);
            set_word(wanted.unit, PPU_AT_V, t / 256 * 256 + byte);
            wanted.unit[PPU_AT_W] = 0;
            expect_write(0x2006, byte);
        }
    part("first and second writes of ports 5 and 6 with every byte");
}

/* One toggle: whichever of ports 5 and 6 was written first, the next write of either is a second one; a read of port 2 clears it. */
static void one_toggle(void)
{
    for (int first = 5; first <= 6; first++)
        for (int second = 5; second <= 6; second++) {
            at = 10 * first + second;
            begin();
            set_both_words(PPU_AT_T, 0);
            EXPECT(write_at(&m, 0x2000u + (unsigned)first, 0x2B), 0);
            EXPECT(m.unit[PPU_AT_W], 1);
            EXPECT(word(m.unit, PPU_AT_T), first == 5 ? 5 : 0x2B00);
            EXPECT(m.unit[PPU_AT_FINE_X], first == 5 ? 3 : 2);
            EXPECT(write_at(&m, 0x2000u + (unsigned)second, 0x6D), 0);
            EXPECT(m.unit[PPU_AT_W], 0);
            if (second == 5)
                EXPECT(word(m.unit, PPU_AT_T), 0x5000 + 13 * 32 + (first == 5 ? 5 : 0x0800));
            else
                EXPECT(word(m.unit, PPU_AT_T), first == 5 ? 0x006D : 0x2B6D);
            EXPECT(word(m.unit, PPU_AT_V), second == 6 ? word(m.unit, PPU_AT_T) : 0x6345);
        }
    begin();
    set_both_words(PPU_AT_T, 0);
    write_at(&m, 0x2006, 0x15);
    read_at(&m, 0x2002);
    EXPECT(m.unit[PPU_AT_W], 0);
    write_at(&m, 0x2006, 0x16);
    EXPECT(m.unit[PPU_AT_W], 1);
    EXPECT(word(m.unit, PPU_AT_T), 0x1600);
    part("one write toggle for ports 5 and 6, cleared by a read of port 2");
}

static void warm_up(void)
{
    for (unsigned byte = 0; byte < 256; byte++)
        for (unsigned w = 0; w < 2; w++) {
            static const unsigned shut[] = { 0, 1, 5, 6 };
            at = byte;
            begin();
            set_both(PPU_AT_WARMED_UP, 0);
            set_both(PPU_AT_W, w);
            for (int i = 0; i < 4; i++)
                expect_write(0x2000 + shut[i], byte);
            expect_write(0x2002, byte);
            wanted.unit[PPU_AT_OAMADDR] = (uint8_t)byte;
            expect_write(0x2003, byte);
            wanted.unit[PPU_AT_OAMADDR] = (uint8_t)(byte + 1);
            wanted.oam[byte] = (uint8_t)~byte;
            expect_write(0x2004, (uint8_t)~byte);
            EXPECT_BYTES(m.oam, wanted.oam, 256);
            set_word(wanted.unit, PPU_AT_V, 0x6346);
            wanted.nametables[0x345] = (uint8_t)byte;
            expect_write(0x2007, byte);
            EXPECT(m.nametables[0x345], byte);
            wanted.unit[PPU_AT_STATUS] = 0x60;
            wanted.unit[PPU_AT_W] = 0;
            expect_read(0x2002, 0xE0 + byte % 32);
        }
    EXPECT_SAME(&m, &wanted);
    part("before warm-up, writes of ports 0, 1, 5, 6 only fill the latch; the other ports act");
}

/* OAM: port 4 both ways */
static void write_oam(void)
{
    for (unsigned address = 0; address < 256; address++)
        for (int drawing = 0; drawing < 2; drawing++) {
            unsigned byte = (address * 7 + 3) % 256;
            at = address;
            begin();
            set_both(PPU_AT_OAMADDR, address);
            set_both(PPU_AT_MASK, drawing ? 0x08 : 0x18);
            set_both_words(PPU_AT_NEXT_LINE, drawing ? 239 : 240);
            m.oam[address] = wanted.oam[address] = (uint8_t)~byte;
            if (!drawing) {
                wanted.oam[address] = (uint8_t)byte;
                wanted.unit[PPU_AT_OAMADDR] = (uint8_t)(address == 255 ? 0 : address + 1);
            }
            expect_write(0x2004, byte);
            EXPECT_BYTES(m.oam, wanted.oam, 256);
        }
    begin();
    set_both(PPU_AT_OAMADDR, 200);
    for (unsigned i = 0; i < 600; i++)
        write_at(&m, 0x2004, i % 251);
    for (unsigned i = 600 - 256; i < 600; i++)
        EXPECT(m.oam[(200 + i) % 256], i % 251);
    EXPECT(m.unit[PPU_AT_OAMADDR], (200 + 600) % 256);
    copy(&wanted, &m);
    part("writes of port 4 at every OAMADDR, with its wrap; while drawing only the latch");
}

static void drawing_lines(void)
{
    for (unsigned next_line = 0; next_line < 262; next_line++)
        for (unsigned mask = 0; mask < 32; mask += 8) {
            int drawing = mask != 0 && (next_line < 240 || next_line == 261);
            at = next_line;
            begin();
            set_both(PPU_AT_MASK, mask);
            set_both_words(PPU_AT_NEXT_LINE, next_line);
            m.oam[0x21] = wanted.oam[0x21] = 0x10;
            if (!drawing) {
                wanted.oam[0x21] = 0xEF;
                wanted.unit[PPU_AT_OAMADDR] = 0x22;
            }
            expect_write(0x2004, 0xEF);
            EXPECT_BYTES(m.oam, wanted.oam, 256);
        }
    part("a write of port 4 before every line: dropped exactly while drawing");
}

static void read_oam(void)
{
    for (unsigned address = 0; address < 256; address++)
        for (unsigned byte = 0; byte < 256; byte += 15) {
            at = address;
            begin();
            set_both(PPU_AT_OAMADDR, address);
            m.oam[address] = wanted.oam[address] = (uint8_t)byte;
            expect_read(0x2004, address % 4 == 2 ? byte & 0xE3 : byte);
        }
    EXPECT_SAME(&m, &wanted);
    part("reads of port 4 at every OAMADDR: $E3 on attribute bytes, no step");
}

/* STATUS */
static void read_status(void)
{
    for (unsigned status = 0; status < 256; status += 32)
        for (unsigned latch = 0; latch < 256; latch++)
            for (unsigned w = 0; w < 2; w++) {
                at = 256 * (long)status + latch;
                begin();
                set_both(PPU_AT_CONTROL, 0x80);
                set_both(PPU_AT_STATUS, status);
                set_both(PPU_AT_LATCH, latch);
                set_both(PPU_AT_W, w);
                wanted.unit[PPU_AT_STATUS] = status % 128;
                wanted.unit[PPU_AT_W] = 0;
                expect_read(0x2002, status + latch % 32);
                expect_read(0x2002, status % 128 + latch % 32);
            }
    part("reads of port 2 with every status, latch and w, twice");
}

static void read_latch(void)
{
    static const unsigned ports[] = { 0, 1, 3, 5, 6 };
    for (unsigned latch = 0; latch < 256; latch++)
        for (int i = 0; i < 5; i++)
            for (int drawing = 0; drawing < 2; drawing++) {
                at = latch;
                begin();
                set_both(PPU_AT_W, 1);
                set_both(PPU_AT_MASK, drawing ? 0xFF : 0);
                set_both_words(PPU_AT_NEXT_LINE, 261);
                set_both(PPU_AT_LATCH, latch);
                expect_read(0x2000 + ports[i], latch);
            }
    part("reads of ports 0, 1, 3, 5, 6: the latch, and nothing changes");
}

/* NMI: the level after each access, before and after warm-up */
static void nmi_levels(void)
{
    for (unsigned n = 0; n < 2 * 8 * 8; n++) {
        unsigned port = n % 8, control = n & 8 ? 0x80 : 0x7B, status = n & 16 ? 0x80 : 0x60, byte = n & 32 ? 0x80 : 0x7F;
        unsigned warm = n & 64 ? 1 : 0;
        unsigned control_after = port == 0 && warm ? byte : control;
        at = n;
        begin();
        set_both(PPU_AT_CONTROL, control);
        set_both(PPU_AT_STATUS, status);
        set_both(PPU_AT_WARMED_UP, warm);
        EXPECT(ppu_nmi(write_at(&m, 0x2000 + port, byte)), control_after >= 128 && status == 0x80);
        begin();
        set_both(PPU_AT_CONTROL, control);
        set_both(PPU_AT_STATUS, status);
        set_both(PPU_AT_WARMED_UP, warm);
        EXPECT(ppu_nmi(read_at(&m, 0x2000 + port)), port != 2 && control == 0x80 && status == 0x80);
    }
    part("the NMI level after a read and a write of each port");
}

static void checked_values(void)
{
    begin();
    set_both_words(PPU_AT_T, 0);
    EXPECT(write_at(&m, 0x2005, 125), 0);
    EXPECT(write_at(&m, 0x2005, 94), 0);
    EXPECT(word(m.unit, PPU_AT_T), 24943);
    EXPECT(m.unit[PPU_AT_FINE_X], 5);
    EXPECT(write_at(&m, 0x2006, 0x3D), 0);
    EXPECT(write_at(&m, 0x2006, 0xF0), 0);
    EXPECT(word(m.unit, PPU_AT_V), 15856);
    begin();
    set_both(PPU_AT_STATUS, 0x80);
    set_both(PPU_AT_LATCH, 0x35);
    EXPECT(read_at(&m, 0x2002), answer(0x95, 0, 0));
    EXPECT(read_at(&m, 0x2002), answer(0x15, 0, 0));
    EXPECT(ppu_number(read_at(&m, 0x1FFF)), 1);
    EXPECT(ppu_number(read_at(&m, 0x4000)), 1);
    EXPECT(ppu_number(read_at(&m, 0x3FFF)), 0);
    part("checked values of ports 2, 5 and 6, and the addresses' ends");
}

int main(void)
{
    m = machine();
    wanted = machine();
    scatter(&m, 11);
    copy(&wanted, &m);
    written_mirrors();
    read_mirrors();
    ports_0_to_3();
    ports_5_and_6();
    one_toggle();
    warm_up();
    write_oam();
    drawing_lines();
    read_oam();
    read_status();
    read_latch();
    nmi_levels();
    checked_values();
    release(&m);
    release(&wanted);
    return verdict("tests/ports");
}
