/* The drawers that are measured: the archive's calls, then the peers that were compiled. PEERS says which: PEER(plain, gcc) PEER(table, gcc) ..
   With BEFORE defined another archive comes last, the library before a change, whose calls were renamed from ppu_ to before_. With BEFORE_LINE it
   is from before document 02's request 3: its ppu_line runs one line, and its ppu_run takes no reason and stops as with PPU_UNTIL_NMI. */
#ifndef DRAWERS_H
#define DRAWERS_H

#include "ppu.h"

typedef uint64_t Run(uint8_t *, size_t, uint16_t, uint8_t, const uint8_t *, size_t, const uint8_t *, size_t, const uint8_t *, size_t,
                     const uint8_t *, size_t, const uint8_t *, size_t, uint8_t *, size_t, uint8_t *, size_t);
typedef uint64_t OldLine(uint8_t *, size_t, const uint8_t *, size_t, const uint8_t *, size_t, const uint8_t *, size_t, const uint8_t *, size_t,
                         const uint8_t *, size_t, uint8_t *, size_t, uint8_t *, size_t);
typedef uint64_t OldRun(uint8_t *, size_t, uint16_t, const uint8_t *, size_t, const uint8_t *, size_t, const uint8_t *, size_t,
                        const uint8_t *, size_t, const uint8_t *, size_t, uint8_t *, size_t, uint8_t *, size_t);
typedef uint64_t Read(uint8_t *, size_t, uint16_t, const uint8_t *, size_t, const uint8_t *, size_t, const uint8_t *, size_t,
                      const uint8_t *, size_t, const uint8_t *, size_t);
typedef uint64_t Write(uint8_t *, size_t, uint16_t, uint8_t, uint8_t *, size_t, uint8_t *, size_t, uint8_t *, size_t, uint8_t *, size_t,
                       uint8_t *, size_t);
typedef uint64_t Dma(uint8_t *, size_t, uint8_t *, size_t, const uint8_t *, size_t);
typedef uint64_t Search(const uint8_t *, size_t, uint16_t, const uint8_t *, size_t);
typedef uint64_t Play(uint8_t *, size_t, const uint8_t *, size_t, uint8_t *, size_t, uint8_t *, size_t, uint8_t *, size_t, uint8_t *, size_t,
                      uint8_t *, size_t, uint8_t *, size_t, uint8_t *, size_t);

typedef struct {
    const char *name;
    OldLine *old_line; /* these two are NULL but with BEFORE_LINE, where run is */
    OldRun *old_run;
    Run *run;
    Read *read;
    Write *write;
    Dma *dma;
    Search *search;
    Play *play;
} Drawer;

#define DECLARE(d) Read d##_read; Write d##_write; Dma d##_dma; Search d##_search; Play d##_play;
#define CALLS_OF(d) d##_read, d##_write, d##_dma, d##_search, d##_play
#define DRAWER(name, d) { name, NULL, NULL, d##_run, CALLS_OF(d) }

#define PEER(kind, compiler) DECLARE(kind##_##compiler) Run kind##_##compiler##_run;
PEERS
#undef PEER

/* A call that is new may be missing in the archive before: it is weak, so that it is NULL there, and a pass looks for it. A call with other arguments
   has a place of its own in Drawer, and a pass makes it itself: a function between that hands all arguments on would take time. */
#ifdef BEFORE
DECLARE(before)
#pragma weak before_search
#ifdef BEFORE_LINE
OldLine before_line;
OldRun before_run;
#define BEFORE_DRAWER { "before", before_line, before_run, NULL, CALLS_OF(before) }
#else
Run before_run;
#define BEFORE_DRAWER DRAWER("before", before)
#endif
enum { HAS_BEFORE = 1 };
#else
#define BEFORE_DRAWER
enum { HAS_BEFORE = 0 };
#endif

#define PEER(kind, compiler) DRAWER(#kind " " #compiler, kind##_##compiler),
static const Drawer drawers[] = { DRAWER("ppu", ppu), PEERS BEFORE_DRAWER };
#undef PEER

/* all that are measured; the archive and its peers, which must agree; the last, which is the archive before if there is one */
enum { MEASURED = sizeof drawers / sizeof *drawers, DRAWERS = MEASURED - HAS_BEFORE, BEFORE_AT = MEASURED - 1 };

#endif
