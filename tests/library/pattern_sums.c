/* pattern_sums FIRST COUNT: every binary32 there is, as one good sample that the library reads. Prints for each of COUNT
 * blocks of 2^20 patterns, from block FIRST on (0 to 4095), its number and a checksum of the answers, in the lines of
 * `independent pattern-sums`. The checksum is FNV-1a of 64 bits over three bytes for each pattern: the refusal's number
 * or 0, and the entry, low byte first, 0 if refused.
 *
 * A block is read in one call. If that is refused, the samples before the refused one are read in one call, and the
 * others one by one. */
#include <stdio.h>
#include <stdlib.h>

#include "../../include/cmm.h"

#define BLOCK UINT32_C(1048576)
#define BLOCKS 4096
#define KEPT UINT16_C(54321) /* what no flow is, and stands where nothing may be written */

static uint8_t samples[CMM_SAMPLE * BLOCK];
static uint16_t row[BLOCK];

static void need(int holds, uint32_t pattern, const char *what)
{
    if (!holds) {
        fprintf(stderr, "pattern_sums: 0x%08lx: %s\n", (unsigned long)pattern, what);
        exit(1);
    }
}

static void fill(uint32_t first)
{
    uint32_t k;
    for (k = 0; k < BLOCK; k++) {
        uint8_t *sample = samples + CMM_SAMPLE * (size_t)k;
        const uint32_t pattern = first + k;
        sample[0] = 0;
        sample[1] = (uint8_t)pattern;
        sample[2] = (uint8_t)(pattern >> 8);
        sample[3] = (uint8_t)(pattern >> 16);
        sample[4] = (uint8_t)(pattern >> 24);
        row[k] = KEPT;
    }
}

static uint64_t with_byte(uint64_t sum, uint8_t byte)
{
    return (sum ^ byte) * UINT64_C(0x100000001b3);
}

static uint64_t with_answer(uint64_t sum, uint64_t number, uint16_t entry)
{
    return with_byte(with_byte(with_byte(sum, (uint8_t)number), (uint8_t)entry), (uint8_t)(entry >> 8));
}

/* How many samples of the block are read before one is refused; their entries stand in the row. */
static uint32_t read_together(uint32_t first)
{
    uint64_t place = KEPT;
    uint64_t number = cmm_read_flow(samples, sizeof samples, row, BLOCK, &place);
    uint32_t k;
    if (number == 0) {
        need(place == 0, first, "a place is given where nothing is refused");
        return BLOCK;
    }
    need(number == 16 && place < BLOCK, first, "another refusal than 16");
    for (k = 0; k < BLOCK; k++)
        need(row[k] == KEPT, first + k, "a refused call has written an entry");
    k = (uint32_t)place;
    number = cmm_read_flow(samples, CMM_SAMPLE * (size_t)k, row, k, &place);
    need(number == 0 && place == 0, first, "samples before the refused one are refused");
    return k;
}

static uint64_t sum_of_block(uint32_t first)
{
    uint64_t sum = UINT64_C(0xcbf29ce484222325);
    uint32_t together, k;
    fill(first);
    together = read_together(first);
    for (k = 0; k < together; k++)
        sum = with_answer(sum, 0, row[k]);
    for (; k < BLOCK; k++) {
        uint16_t entry = KEPT;
        uint64_t place = KEPT;
        const uint64_t number = cmm_read_flow(samples + CMM_SAMPLE * (size_t)k, CMM_SAMPLE, &entry, 1, &place);
        need(place == 0, first + k, "another place than that of the only sample");
        need(number == 0 || (number == 16 && entry == KEPT), first + k, "another refusal, or an entry written");
        sum = with_answer(sum, number, number == 0 ? entry : 0);
    }
    return sum;
}

int main(int count, char **words)
{
    const long first = count == 3 ? strtol(words[1], NULL, 10) : -1;
    const long blocks = count == 3 ? strtol(words[2], NULL, 10) : -1;
    long block;
    if (first < 0 || blocks < 0 || first > BLOCKS || blocks > BLOCKS - first) {
        fprintf(stderr, "usage: pattern_sums FIRST COUNT\n");
        return 2;
    }
    for (block = first; block < first + blocks; block++) {
        printf("%ld %016llx\n", block, (unsigned long long)sum_of_block((uint32_t)block * BLOCK));
        fflush(stdout);
    }
    return 0;
}
