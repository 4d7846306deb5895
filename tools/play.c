#include <string.h>
#include "play.h"

unsigned start(Machine *machine, uint8_t board)
{
    Drawn *drawn = machine->drawn;
    void *context = machine->context;
    memset(machine, 0, sizeof *machine);
    machine->drawn = drawn;
    machine->context = context;
    return ppu_number(ppu_fresh(machine->unit, sizeof machine->unit, board));
}

int next_record(FILE *log, Record *record)
{
    record->length = fread(record->bytes, 1, sizeof record->bytes, log);
    record->number++;
    return record->length > 0;
}

unsigned middle(const Record *record) { return record->bytes[1] * 256u + record->bytes[2]; }

unsigned next_line(const Machine *machine) { return machine->unit[PPU_AT_NEXT_LINE] + 256u * machine->unit[PPU_AT_NEXT_LINE + 1]; }

size_t nametables_length(const Machine *machine) { return ppu_nametable_length(machine->unit[PPU_AT_BOARD]); }

/* unit_length is the unit's, or 0 to play nothing */
static uint64_t call(Machine *m, size_t unit_length, const Record *record)
{
    return ppu_play(m->unit, unit_length, record->bytes, record->length, m->left, sizeof m->left, m->right, sizeof m->right, m->nametables,
                    nametables_length(m), m->oam, sizeof m->oam, m->palette, sizeof m->palette, m->line, sizeof m->line, m->colours,
                    sizeof m->colours);
}

/* 5 is tested before 2: lent a unit of no bytes, the library refuses a record with 2 and what is none with 5. */
int is_record(Machine *machine, const Record *record) { return ppu_number(call(machine, 0, record)) != PPU_BAD_REQUEST; }

static void hand_on(Machine *m, unsigned line)
{
    if (line < PICTURE_LINES)
        m->drawn(m->context, m, line);
}

/* ppu_play leaves only the last line of a run. A run changes nothing but the unit's record and the line's two buffers: so as many runs of a
   single line, from the record as it was before, give each of the lines exactly, and leave what the run left. */
static void run_again(Machine *m, const uint8_t *before, uint32_t lines)
{
    memcpy(m->unit, before, sizeof m->unit);
    for (; lines; lines--) {
        unsigned line = next_line(m);
        ppu_run(m->unit, sizeof m->unit, 1, PPU_RUN_ALL, m->left, sizeof m->left, m->right, sizeof m->right, m->nametables,
                nametables_length(m), m->oam, sizeof m->oam, m->palette, sizeof m->palette, m->line, sizeof m->line, m->colours,
                sizeof m->colours);
        hand_on(m, line);
    }
}

uint64_t play(Machine *machine, const Record *record)
{
    uint8_t before[PPU_RECORD_LENGTH];
    unsigned line = next_line(machine);
    memcpy(before, machine->unit, sizeof before);
    uint64_t answer = call(machine, sizeof machine->unit, record);
    if (machine->drawn && ppu_lines(answer) == 1)
        hand_on(machine, line);
    else if (machine->drawn && ppu_lines(answer))
        run_again(machine, before, ppu_lines(answer));
    return answer;
}

static void explain_record(char *text, size_t size, const Record *record)
{
    static const char *const kinds[] = { "read", "write", "run" };
    unsigned kind = record->bytes[0];
    if (record->length < sizeof record->bytes)
        snprintf(text, size, "record cut short, %u of 4 bytes", (unsigned)record->length);
    else if (kind > RUN)
        snprintf(text, size, "unknown kind $%02X, not 0 read, 1 write or 2 run", kind);
    else
        snprintf(text, size, "the last byte of a %s is $%02X, not 0", kinds[kind], record->bytes[3]);
}

void explain(char *text, size_t size, const Record *record, unsigned number)
{
    switch (number) {
    case PPU_BAD_ADDRESS:
        snprintf(text, size, "address $%04X is outside $2000-$3FFF", middle(record));
        break;
    case PPU_BAD_LENGTH:
        snprintf(text, size, "a lent memory, or the unit's record, has the wrong length");
        break;
    case PPU_BAD_UNIT:
        snprintf(text, size, "the unit is not well formed");
        break;
    case PPU_DRAWING:
        snprintf(text, size, "%s of port %u while drawing", record->bytes[0] == READ ? "read" : "write", middle(record) % 8);
        break;
    case PPU_BAD_REQUEST:
        explain_record(text, size, record);
        break;
    default:
        snprintf(text, size, "a number that is not known");
    }
}
