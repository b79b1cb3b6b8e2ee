/* alone: what a record file costs without the command, in nanoseconds, as two numbers: the library's own time for reading it,
 * quantifying it and writing its sheet, with memory that has all been touched before; and the system's time for handing the file's
 * bytes over into memory that has not, which is more or less by the machine. Each is the least of some runs. tests/check_command
 * holds the command's whole time to their sum.
 *   alone RECORD RUNS */
#define _GNU_SOURCE
#include <stdio.h>
#include <stdlib.h>
#include <string.h>
#include <sys/mman.h>
#include <time.h>

#include "../../include/cmm.h"

enum { ROWS = CMM_ENTRIES_MOST };

static uint16_t flow[ROWS], content[ROWS], flow_used[ROWS], content_used[ROWS];
static int16_t temp[ROWS];
static uint32_t press[ROWS];
static uint8_t status[ROWS], outcome[ROWS];

static double now(void)
{
    struct timespec t;

    clock_gettime(CLOCK_MONOTONIC, &t);
    return 1e9 * (double)t.tv_sec + (double)t.tv_nsec;
}

static double once(const uint8_t *text, size_t length)
{
    uint8_t out[CMM_TEXT_MOST];
    double began = now();

    cmm_report(text, length, flow, ROWS, content, ROWS, temp, ROWS, press, ROWS, status, ROWS, outcome, ROWS, flow_used, ROWS,
               content_used, ROWS, out);
    return now() - began;
}

/* The file's bytes read into new memory, for which large pages are asked as the command asks for them. */
static double handed_over(const char *name, size_t length)
{
    const uintptr_t large = (uintptr_t)2 << 20;
    double began = now(), took;
    uint8_t *room = mmap(NULL, length, PROT_READ | PROT_WRITE, MAP_PRIVATE | MAP_ANONYMOUS, -1, 0);
    uintptr_t from = ((uintptr_t)room + large - 1) / large * large, to = ((uintptr_t)room + length) / large * large;
    FILE *file = fopen(name, "rb");
    size_t got = 0;

    if (room != MAP_FAILED && file) {
        if (from < to)
            madvise((void *)from, to - from, MADV_HUGEPAGE);
        setvbuf(file, NULL, _IONBF, 0);
        got = fread(room, 1, length, file);
    }
    took = now() - began;
    if (!file || fclose(file) != 0 || got != length || munmap(room, length) != 0)
        exit(2);
    return took;
}

static double lesser(double least, double took)
{
    return least < 0 || took < least ? took : least;
}

int main(int argc, char **argv)
{
    const size_t most = CMM_RECORD_BYTES(ROWS);
    uint8_t *text = malloc(most);
    FILE *file = argc == 3 ? fopen(argv[1], "rb") : NULL;
    double own = -1, handed = -1;
    size_t length;
    int k;

    if (!text || !file)
        return 2;
    memset(text, 1, most);
    length = fread(text, 1, most, file);
    once(text, length); /* touches what a record of this length needs */
    for (k = atoi(argv[2]); k > 0; --k) {
        own = lesser(own, once(text, length));
        handed = lesser(handed, handed_over(argv[1], length));
    }
    printf("%.0f %.0f\n", own, handed);
    return fclose(file) == 0 ? 0 : 2;
}
