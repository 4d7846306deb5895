/* The record at the front of a log: document 01's example, which logs are refused with 5 and before what, which lengths each kind of record
   looks at, and that a record does what ppu_read, ppu_write and ppu_run do. */
#include "machine.h"

static Machine m, other;

/* a log of this length on the heap by itself, from the record's bytes and $6D behind them */
static uint8_t *log_of(const uint8_t *record, size_t length)
{
    uint8_t *log = malloc(length ? length : 1);
    if (!log)
        exit(2);
    memset(log, 0x6D, length ? length : 1);
    memcpy(log, record, length < 4 ? length : 4);
    return log;
}

/* plays a log of this length, which must stay as it is */
static uint64_t play_of(Machine *machine, const uint8_t *record, size_t length)
{
    uint8_t *log = log_of(record, length), *kept = log_of(record, length);
    uint64_t got = play_log(machine, log, length);
    EXPECT_BYTES(log, kept, length ? length : 1);
    free(log);
    free(kept);
    return got;
}

static uint64_t play(Machine *machine, unsigned kind, unsigned number, unsigned last)
{
    uint8_t record[4] = { (uint8_t)kind, (uint8_t)(number / 256), (uint8_t)(number % 256), (uint8_t)last };
    return play_of(machine, record, PPU_LOG_RECORD_LENGTH);
}

static void restart(unsigned mask, unsigned line) { renew(&m, 11, mask, line); }

/* what stands in m now is refused with this number, and stays */
static void expect_refused(const uint8_t *record, size_t length, unsigned number)
{
    copy(&other, &m);
    EXPECT(play_of(&m, record, length), number);
    EXPECT_SAME(&m, &other);
}

/* a line of the player's output for an answer, or nothing */
static void print_answer(char *text, unsigned kind, uint64_t got)
{
    char *end = text + strlen(text);
    if (ppu_number(got) != PPU_DONE)
        sprintf(end, "refused %u\n", ppu_number(got));
    else if (kind == 0)
        sprintf(end, "%02X\n", ppu_byte(got));
    else if (kind == 2)
        sprintf(end, "line %u nmi %u\n", word(m.unit, PPU_AT_NEXT_LINE), ppu_nmi(got));
}

/* on memory that is all zero still */
static void example(void)
{
    static const uint8_t log[] = {
        2, 0x01, 0x06, 0x00, 1, 0x20, 0x06, 0x21, 1, 0x20, 0x06, 0x08, 1, 0x20, 0x07, 0x42, 1, 0x20, 0x06, 0x21,
        1, 0x20, 0x06, 0x08, 0, 0x20, 0x07, 0x00, 0, 0x20, 0x07, 0x00, 0, 0x20, 0x02, 0x00, 0, 0x40, 0x00, 0x00,
    };
    static const char wanted[] = "line 0 nmi 0\n00\n42\n02\nrefused 1\n";
    char text[400] = "";
    EXPECT(ppu_fresh(m.unit, 16, PPU_VERTICAL | PPU_WRITABLE), 0);
    for (size_t front = 0; front < sizeof log; front += PPU_LOG_RECORD_LENGTH)
        print_answer(text, log[front], play_log(&m, log + front, sizeof log - front));
    EXPECT_BYTES((const uint8_t *)text, (const uint8_t *)wanted, sizeof wanted);
    EXPECT(m.nametables[0x108], 0x42);
    EXPECT(play_log(&m, log + sizeof log, 0), PPU_BAD_REQUEST);
    part("document 01's example: what it prints, record by record; at its end 5");
}

/* whether a record of four bytes is one */
static int is_record(unsigned kind, unsigned last) { return kind == 1 || ((kind == 0 || kind == 2) && last == 0); }

static void kinds(void)
{
    restart(0, 241);
    for (unsigned kind = 0; kind < 256; kind++)
        for (unsigned last = 0; last < 256; last++) {
            uint8_t record[4] = { (uint8_t)kind, kind == 2 ? 0 : 0x20, 0x03, (uint8_t)last };
            at = 256 * (long)kind + (long)last;
            good_record(&m, 0, 241);
            if (is_record(kind, last))
                EXPECT(ppu_number(play_of(&m, record, 4)), PPU_DONE);
            else if (last < 3 || last == 255 || kind < 3)
                expect_refused(record, 4, PPU_BAD_REQUEST);
            else
                EXPECT(play_of(&m, record, 4), PPU_BAD_REQUEST);
        }
    part("every kind with every last byte: 5 but for kind 1, and kinds 0 and 2 with last byte 0");
}

static void cut_logs(void)
{
    static const uint8_t records[3][4] = { { 0, 0x20, 0x02, 0 }, { 1, 0x20, 0x03, 0x3C }, { 2, 0, 1, 0 } };
    for (int kind = 0; kind < 3; kind++)
        for (size_t length = 0; length <= 12; length++) {
            at = 16 * kind + (long)length;
            restart(0x1E, 100);
            if (length < PPU_LOG_RECORD_LENGTH)
                expect_refused(records[kind], length, PPU_BAD_REQUEST);
            else
                EXPECT(ppu_number(play_of(&m, records[kind], length)), PPU_DONE);
        }
    part("logs of 0 to 12 bytes: 5 exactly below 4; what stands behind the first record is not looked at");
}

static int looks_at(int kind, int which) { return which != PAGE && (kind == 2 || (which != LINE && which != COLOURS)); }

static void lengths(void)
{
    static const uint8_t records[3][4] = { { 0, 0x20, 0x02, 0 }, { 1, 0x20, 0x03, 0x3C }, { 2, 0, 3, 0 } };
    for (int kind = 0; kind < 3; kind++)
        for (int which = 0; which < BUFFERS; which++)
            for (int i = 0; i < 12; i++) {
                at = 1000 * kind + 100 * which + i;
                restart(0x1E, 100);
                m.unit[PPU_AT_BOARD] = i % 2 ? PPU_FOUR_PAGES : PPU_VERTICAL;
                const size_t right = right_length(&m, which), other_board = other_length(&m, which);
                const size_t tried[] = { 0, right - 1, right + 1, right + 256, right + 65536, other_board };
                lend_filled(&m, which, tried[i / 2]);
                if (looks_at(kind, which)) {
                    expect_refused(records[kind], 4, PPU_BAD_LENGTH);
                } else {
                    copy(&other, &m);
                    EXPECT(ppu_number(play_of(&m, records[kind], 4)), PPU_DONE);
                    EXPECT_BYTES(*buffer(&m, which), *buffer(&other, which), tried[i / 2]);
                }
            }
    part("each memory with other lengths, of boards with two pages and four: an access looks at neither line nor colours; else 2");
}

/* a record of the kind with each thing of the set wrong; how: which kind of 5, which field, and how long the unit's record and the memory are */
static void together(int kind, unsigned set, int which, int how)
{
    uint8_t record[4] = { (uint8_t)kind, set >> OUTSIDE & 1 ? 0x40 : 0x20, 0x07, 0 };
    size_t length = 4;
    if (kind == 2)
        record[1] = 0;
    restart(set >> SHUT & 1 ? 0x18 : 0, 100);
    if (set >> MEMORY & 1)
        lend_filled(&m, which, how == 2 ? other_length(&m, which) : right_length(&m, which) + (how ? 1 : (size_t)-1));
    if (set >> MALFORMED & 1)
        m.unit[how == 1 ? PPU_AT_BOARD : PPU_AT_FINE_X] = 13;
    if (set >> RECORD & 1)
        lend_filled(&m, UNIT, how == 2 ? 0 : how ? 17 : 15);
    if (set >> REQUEST & 1) {
        record[0] = how == 0 ? 3 : record[0];
        record[3] = how == 1 ? 1 : 0;
        length = how == 2 ? 3 : 4;
    }
    expect_refused(record, length, number_for(set));
}

/* a run has no address and no port */
static void order(void)
{
    for (int kind = 0; kind < 3; kind++)
        for (unsigned set = 1; set < (kind == 2 ? 1u << OUTSIDE : 1u << WRONGS); set++)
            for (int which = LEFT; which < BUFFERS; which++)
                for (int how = 0; how < 3; how++) {
                    at = (long)(1000 * (unsigned)kind + set);
                    if (looks_at(kind, which) && !(kind == 1 && how == 1 && set >> REQUEST & 1))
                        together(kind, set, which, how);
                }
    part("every set of things wrong at once: the first in the order 5, 2 for the record, 3, 2 for memory, 1, 4, and nothing changes");
}

/* the same access by ppu_read or ppu_write on a copy */
static void access_alike(unsigned kind, unsigned address, unsigned byte)
{
    copy(&other, &m);
    uint64_t wanted = kind == 0 ? read_at(&other, address) : write_at(&other, address, byte);
    EXPECT(play(&m, kind, address, kind == 0 ? 0 : byte), wanted);
    EXPECT_BYTES(m.unit, other.unit, 16);
}

static void accesses(void)
{
    restart(0, 241);
    for (unsigned address = 0; address < 65536; address++) {
        at = address;
        good_record(&m, address % 3 ? 0 : 0x18, address % 5 ? 241 : 17);
        access_alike(0, address, 0);
        access_alike(1, address, address % 251);
    }
    EXPECT_SAME(&m, &other);
    part("every address: the answer and the record of ppu_read and ppu_write");
    for (unsigned port = 0; port < 8; port++)
        for (unsigned byte = 0; byte < 256; byte++) {
            at = 256 * (long)port + (long)byte;
            good_record(&m, byte % 4 * 8, byte % 2 ? 241 : 17);
            set_word(m.unit, PPU_AT_V, 131 * byte + port);
            access_alike(1, 0x2000 + port, byte);
            EXPECT_SAME(&m, &other);
            access_alike(0, 0x3FF8 + port, byte);
            EXPECT_SAME(&m, &other);
        }
    part("every port and byte, drawing or not, v everywhere: every byte of memory, too");
}

/* a run of a log, and on a copy as many runs of one line */
static void run_alike(unsigned lines)
{
    uint64_t last = 0;
    copy(&other, &m);
    unsigned nmi = other.unit[PPU_AT_CONTROL] >> 7 & other.unit[PPU_AT_STATUS] >> 7;
    for (unsigned i = 0; i < lines; i++) {
        last = one_line(&other);
        nmi = ppu_nmi(last);
    }
    EXPECT(ppu_number(last), PPU_DONE);
    EXPECT(play(&m, 2, lines, 0), answer(0, nmi, lines));
    EXPECT_SAME(&m, &other);
}

static void runs(void)
{
    static const unsigned counts[] = { 0, 1, 2, 3, 22, 241, 242, 255, 256, 262, 263 };
    restart(0, 0);
    for (unsigned line = 0; line < 262; line++)
        for (size_t i = 0; i < sizeof counts / sizeof counts[0]; i++) {
            at = line;
            good_record(&m, line % 32 == 9 ? 0x1E : 0, line);
            run_alike(counts[i]);
            good_record(&m, line % 32 == 17 ? 0x1E : 0, line);
            m.unit[PPU_AT_CONTROL] = 0;
            run_alike(counts[i]);
        }
    part("runs from every line, control bit 7 set and not: as many runs of one line, in every byte");
    for (unsigned lines = 1; lines < 600; lines++) {
        at = lines;
        good_record(&m, 0, 241);
        m.unit[PPU_AT_STATUS] = 0;
        EXPECT(ppu_lines(play(&m, 2, lines, 0)), lines);
        EXPECT(word(m.unit, PPU_AT_NEXT_LINE), (241 + lines) % 262);
    }
    good_record(&m, 0, 241);
    EXPECT(play(&m, 2, 65535, 0), answer(0, 0, 65535));
    EXPECT(word(m.unit, PPU_AT_NEXT_LINE), (241 + 65535) % 262);
    part("runs of 1 to 599 and 65535 lines over line 241 with control bit 7 set: none stops early");
}

int main(void)
{
    m = machine();
    other = machine();
    example();
    kinds();
    cut_logs();
    lengths();
    order();
    accesses();
    runs();
    release(&m);
    release(&other);
    return verdict("tests/play");
}
