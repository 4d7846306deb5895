/* Checks that count themselves. EXPECT compares two numbers and EXPECT_BYTES two rows of bytes; one that fails prints its file and line,
   what it got and what was wanted, and `at`. `part` ends a part of a test and prints how many checks it made; `verdict` ends the program:
   it prints the summary and gives the exit status. */
#ifndef CHECK_H
#define CHECK_H

#include <stddef.h>
#include <stdint.h>
#include <stdio.h>
#include <string.h>

/* the round that a loop of checks is in */
static long at;

static unsigned long checks, failures, checks_before;

static inline void expect(const char *file, int line, const char *what, uint64_t got, uint64_t wanted)
{
    checks++;
    if (got == wanted)
        return;
    if (failures++ < 20)
        printf("%s:%d: %s is %llu ($%llX), not %llu ($%llX), at %ld ($%lX)\n", file, line, what, (unsigned long long)got,
               (unsigned long long)got, (unsigned long long)wanted, (unsigned long long)wanted, at, (unsigned long)at);
}

static inline void expect_bytes(const char *file, int line, const char *what, const uint8_t *got, const uint8_t *wanted, size_t length)
{
    size_t i = 0;
    checks++;
    if (memcmp(got, wanted, length) == 0)
        return;
    while (got[i] == wanted[i])
        i++;
    if (failures++ < 20)
        printf("%s:%d: %s byte %lu is $%02X, not $%02X, at %ld ($%lX)\n", file, line, what, (unsigned long)i, got[i], wanted[i], at,
               (unsigned long)at);
}

#define EXPECT(got, wanted) expect(__FILE__, __LINE__, #got, (uint64_t)(got), (uint64_t)(wanted))
#define EXPECT_BYTES(got, wanted, length) expect_bytes(__FILE__, __LINE__, #got, (got), (wanted), (length))

static inline void part(const char *what)
{
    printf("%9lu  %s\n", checks - checks_before, what);
    checks_before = checks;
    at = 0;
}

static inline int verdict(const char *name)
{
    printf("%s: %lu checks, %lu failed\n", name, checks, failures);
    return failures != 0;
}

#endif
