/* What the library has in its header alone, as functions for the differential tests. */
#include "ppu.h"

size_t header_nametable_length(uint8_t board);
size_t header_quarter(uint8_t board, uint32_t quarter);

size_t header_nametable_length(uint8_t board) { return ppu_nametable_length(board); }

size_t header_quarter(uint8_t board, uint32_t quarter) { return ppu_quarter(board, quarter); }
