/* Two units, one cartridge: plays two logs on one machine, a line or an access of the one after a line or an access of the other, and prints the last
   whole picture of each as PPM, side by side. The units share the cartridge's tiles and the line buffers, and neither sees the other. After
   `make install`: cc examples/two.c $(pkg-config --cflags --libs ppu) -o two && ./two CARTRIDGE.chr LEFT.log RIGHT.log >two.ppm */
#include <errno.h>
#include <ppu.h>
#include <stdarg.h>
#include <stdio.h>
#include <stdlib.h>
#include <string.h>
#include "colours.h"

/* The cartridge and the line buffers are there once, all else once for each unit. */
static uint8_t left[PPU_PATTERN_LENGTH], right[PPU_PATTERN_LENGTH], line[PPU_LINE_LENGTH], colours[PPU_COLOURS_LENGTH];
static uint8_t unit[2][PPU_RECORD_LENGTH], nametables[2][PPU_FOUR_PAGES_LENGTH], oam[2][PPU_OAM_LENGTH], palette[2][PPU_PALETTE_LENGTH];

/* A shared call is lent the memory of both units, that of unit 0 first; of nametable RAM as much as each unit's board has. */
#define LENT(memory) memory, sizeof memory
#define BOTH(memory) LENT(memory[0]), LENT(memory[1])
#define NAMETABLES(which) nametables[which], ppu_nametable_length(unit[which][PPU_AT_BOARD])
#define MEMORY LENT(left), LENT(right), NAMETABLES(0), NAMETABLES(1), BOTH(oam), BOTH(palette)

enum { HEIGHT = 240 };
static struct {
    const char *name;
    FILE *file;
    unsigned long records; /* taken from it so far */
    unsigned lines_left;   /* that the last of them has still to run */
    int whole;             /* whether it has drawn a whole picture */
    uint16_t drawn[HEIGHT][PPU_LINE_LENGTH], picture[HEIGHT][PPU_LINE_LENGTH]; /* finished colours: each line's last; the last whole picture */
} logs[2];

static void need(int holds, const char *what, ...)
{
    va_list values;
    if (holds)
        return;
    va_start(values, what);
    fputs("two: ", stderr);
    vfprintf(stderr, what, values);
    fputs("\n", stderr);
    exit(1);
}

static void check(uint8_t which, uint64_t answer)
{
    unsigned number = ppu_number(answer), board = unit[which][PPU_AT_BOARD];
    need(number != PPU_WRITABLE_BOARD, "%s: board %u has writable pattern memory, which two units cannot share", logs[which].name, board);
    need(number == PPU_DONE, "%s: record %lu was refused with %u", logs[which].name, logs[which].records, number);
}

static void load_cartridge(const char *name)
{
    FILE *file = fopen(name, "rb");
    need(file != NULL, "%s: %s", name, strerror(errno));
    int whole = fread(left, sizeof left, 1, file) == 1 && fread(right, sizeof right, 1, file) == 1 && fgetc(file) == EOF;
    need(whole, "%s: %s", name, ferror(file) ? strerror(errno) : "a cartridge is 8192 bytes, the left pattern table and the right one");
    fclose(file);
}

static void run_line(uint8_t which)
{
    unsigned y = unit[which][PPU_AT_NEXT_LINE] + 256u * unit[which][PPU_AT_NEXT_LINE + 1];
    check(which, ppu_shared_run(which, BOTH(unit), 1, PPU_RUN_ALL, MEMORY, LENT(line), LENT(colours)));
    for (unsigned x = 0; y < HEIGHT && x < PPU_LINE_LENGTH; x++) /* copied at once: the next run, of either unit, fills the buffers anew */
        logs[which].drawn[y][x] = (uint16_t)ppu_colour(colours, x);
    if (y == HEIGHT - 1)
        memcpy(logs[which].picture, logs[which].drawn, sizeof logs[which].drawn);
    logs[which].whole |= y == HEIGHT - 1;
    logs[which].lines_left--;
}

/* The log's next record, whose four bytes ppu.h describes at LOGS: an access is made, of a run the number of lines kept; 0 at the log's end. */
static int take_record(uint8_t which)
{
    uint8_t record[PPU_LOG_RECORD_LENGTH];
    size_t length = fread(record, 1, sizeof record, logs[which].file);
    need(!ferror(logs[which].file), "%s: %s", logs[which].name, strerror(errno));
    if (length == 0)
        return 0;
    logs[which].records++;
    need(length == sizeof record, "%s: record %lu is cut short", logs[which].name, logs[which].records);
    need(record[0] == 1 || (record[0] < 3 && record[3] == 0), "%s: record %lu is no log record", logs[which].name, logs[which].records);
    uint16_t n = (uint16_t)(256 * record[1] + record[2]);
    if (record[0] == 0)
        check(which, ppu_shared_read(which, BOTH(unit), n, MEMORY));
    else if (record[0] == 1)
        check(which, ppu_shared_write(which, BOTH(unit), n, record[3], MEMORY));
    else
        logs[which].lines_left = n;
    return 1;
}

int main(int argc, char **argv)
{
    static uint8_t rgb[PALETTE_FILE_LENGTH];
    int more[2] = { 1, 1 };
    need(argc == 4 || argc == 6, "usage: two CARTRIDGE.chr LEFT.log RIGHT.log [LEFT_BOARD RIGHT_BOARD]");
    load_cartridge(argv[1]);
    for (int which = 0; which < 2; which++) {
        unsigned long board = argc == 6 ? strtoul(argv[4 + which], NULL, 10) : PPU_VERTICAL;
        need(board < 256 && ppu_fresh(LENT(unit[which]), (uint8_t)board) == PPU_DONE, "no board has the number %lu", board);
        logs[which].name = argv[2 + which];
        logs[which].file = fopen(argv[2 + which], "rb");
        need(logs[which].file != NULL, "%s: %s", argv[2 + which], strerror(errno));
    }
    for (uint8_t which = 0; more[0] || more[1]; which = !which) /* when one log has ended, the other goes on */
        if (logs[which].lines_left)
            run_line(which);
        else
            more[which] = take_record(which);
    for (int which = 0; which < 2; which++)
        need(logs[which].whole, "%s: it draws no whole picture", logs[which].name);
    colours_set(rgb, colours_2c02, sizeof colours_2c02);
    printf("P6 %d %d 255\n", 2 * PPU_LINE_LENGTH, HEIGHT);
    for (int row = 0; row < 2 * HEIGHT; row++) /* of each line the left half, then the right one */
        for (int x = 0; x < PPU_LINE_LENGTH; x++)
            fwrite(rgb + 3 * logs[row % 2].picture[row / 2][x], 3, 1, stdout);
    return fflush(stdout) || ferror(stdout) ? 1 : 0;
}
