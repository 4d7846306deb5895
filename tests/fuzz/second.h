/* The calls of the second picture unit and text layer: those of ppu.h under other names. */
#ifndef SECOND_H
#define SECOND_H
#include <stddef.h>
#include <stdint.h>

uint64_t second_fresh(uint8_t *unit, size_t, uint8_t board);
uint64_t second_read(uint8_t *unit, size_t, uint16_t address, const uint8_t *left, size_t, const uint8_t *right, size_t,
                     const uint8_t *nametables, size_t, const uint8_t *oam, size_t, const uint8_t *palette, size_t);
uint64_t second_write(uint8_t *unit, size_t, uint16_t address, uint8_t byte, uint8_t *left, size_t, uint8_t *right, size_t,
                      uint8_t *nametables, size_t, uint8_t *oam, size_t, uint8_t *palette, size_t);
uint64_t second_dma(uint8_t *unit, size_t, uint8_t *oam, size_t, const uint8_t *page, size_t);
uint64_t second_run(uint8_t *unit, size_t, uint16_t lines, uint8_t reason, const uint8_t *left, size_t, const uint8_t *right,
                    size_t, const uint8_t *nametables, size_t, const uint8_t *oam, size_t, const uint8_t *palette, size_t,
                    uint8_t *line, size_t, uint8_t *colours, size_t);
uint64_t second_search(const uint8_t *unit, size_t, uint16_t line, const uint8_t *oam, size_t);
uint64_t second_play(uint8_t *unit, size_t, const uint8_t *log, size_t, uint8_t *left, size_t, uint8_t *right, size_t,
                     uint8_t *nametables, size_t, uint8_t *oam, size_t, uint8_t *palette, size_t, uint8_t *line, size_t,
                     uint8_t *colours, size_t);
uint64_t second_shared_read(uint8_t which, uint8_t *unit0, size_t, uint8_t *unit1, size_t, uint16_t address, const uint8_t *left,
                            size_t, const uint8_t *right, size_t, const uint8_t *nametables0, size_t,
                            const uint8_t *nametables1, size_t, const uint8_t *oam0, size_t, const uint8_t *oam1, size_t,
                            const uint8_t *palette0, size_t, const uint8_t *palette1, size_t);
uint64_t second_shared_write(uint8_t which, uint8_t *unit0, size_t, uint8_t *unit1, size_t, uint16_t address, uint8_t byte,
                             const uint8_t *left, size_t, const uint8_t *right, size_t, uint8_t *nametables0, size_t,
                             uint8_t *nametables1, size_t, uint8_t *oam0, size_t, uint8_t *oam1, size_t, uint8_t *palette0,
                             size_t, uint8_t *palette1, size_t);
uint64_t second_shared_dma(uint8_t which, uint8_t *unit0, size_t, uint8_t *unit1, size_t, uint8_t *oam0, size_t, uint8_t *oam1,
                           size_t, const uint8_t *page, size_t);
uint64_t second_shared_run(uint8_t which, uint8_t *unit0, size_t, uint8_t *unit1, size_t, uint16_t lines, uint8_t reason,
                           const uint8_t *left, size_t, const uint8_t *right, size_t, const uint8_t *nametables0, size_t,
                           const uint8_t *nametables1, size_t, const uint8_t *oam0, size_t, const uint8_t *oam1, size_t,
                           const uint8_t *palette0, size_t, const uint8_t *palette1, size_t, uint8_t *line, size_t,
                           uint8_t *colours, size_t);
uint64_t second_text(const uint8_t *page, size_t, const uint8_t *table, size_t, uint8_t *rows, size_t);
uint64_t second_page(const uint8_t *rows, size_t, const uint8_t *table, size_t, uint8_t *page, size_t);
size_t second_quarter(uint8_t board, unsigned quarter);
#endif
