/* The calls of the peers: those of include/ppu.h with the prefix PFX in place of ppu_. */
#include <stddef.h>
#include <stdint.h>
typedef uint8_t u8; typedef uint16_t u16; typedef uint32_t u32; typedef uint64_t u64;
#ifndef PFX
#define PFX plain_
#endif
#define PEER_CAT2(a, b) a##b
#define PEER_CAT(a, b) PEER_CAT2(a, b)
#define ppu_fresh PEER_CAT(PFX, fresh)
#define ppu_read PEER_CAT(PFX, read)
#define ppu_write PEER_CAT(PFX, write)
#define ppu_dma PEER_CAT(PFX, dma)
#define ppu_run PEER_CAT(PFX, run)
#define ppu_search PEER_CAT(PFX, search)
#define ppu_play PEER_CAT(PFX, play)
#define ppu_text PEER_CAT(PFX, text)
#define ppu_page PEER_CAT(PFX, page)
