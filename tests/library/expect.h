/* What both C tests of the library share: arrays that end at a page nobody may touch, and the count of what did not hold. */
#ifndef EXPECT_H
#define EXPECT_H

#include <stdint.h>
#include <stdio.h>
#include <stdlib.h>
#include <string.h>
#include <sys/mman.h>
#include <unistd.h>

#include "../../include/cmm.h"

enum { UNTOUCHED = 0xA5 };

static unsigned passed, failed;

static void expect(int holds, const char *name, const char *what)
{
    if (holds) {
        passed++;
        return;
    }
    failed++;
    printf("FAILED: %s: %s\n", name, what);
}

static int conclude(const char *program)
{
    printf("%s: %u passed, %u failed\n", program, passed, failed);
    return failed > 0 || passed == 0;
}

/* Room for so many bytes, each UNTOUCHED; the byte after the last one cannot be read or written. */
static void *fenced(size_t bytes)
{
    size_t page = (size_t)sysconf(_SC_PAGESIZE), whole = (bytes + page - 1) / page * page;
    uint8_t *at = mmap(NULL, whole + page, PROT_READ | PROT_WRITE, MAP_PRIVATE | MAP_ANONYMOUS, -1, 0);
    if (at == MAP_FAILED || mprotect(at + whole, page, PROT_NONE) != 0) {
        perror("memory");
        exit(2);
    }
    memset(at, UNTOUCHED, whole);
    return at + whole - bytes;
}

static int untouched(const void *at, size_t bytes)
{
    const uint8_t *byte = at;
    size_t i;
    for (i = 0; i < bytes; i++)
        if (byte[i] != UNTOUCHED)
            return 0;
    return 1;
}

/* The worked example of document 01 as text, and its figures. */
static const char worked_sheet[] =
    "intervals=1\ndevices=1\ncounted=1\nreplaced=0\nexcluded=0\nmethane_l=3000000\ndestroyed_l=2985000\n"
    "uncombusted_l=15000\nbaseline_mg=42021000000\nco2_mg=5475236250\nuncombusted_mg=210105000\nfuel_mg=700000000\n"
    "reduction_mg=35635658750\ntonnes=35\ncredits=35\n";

static const uint64_t worked_amounts[CMM_AMOUNTS] = {
    1, 1, 1, 0, 0, 3000000, 2985000, 15000, 42021000000, 5475236250, 210105000, 700000000, 35};

static const int64_t worked_balances[CMM_BALANCES] = {35635658750, 35};

#endif
