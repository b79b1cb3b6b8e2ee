/* bench.c: measures the proved library against the hand-written code, on the same made-up records; bench/run builds and runs it.
 *
 *   bench [-n INTERVALS] [-d DEVICES] [-l LONG] [-s SHORT] [-r REPETITIONS] [-a SMALL]
 *       asks both about SMALL small records and files and then about each bucket's data, ends with 1 if an answer differs, and prints
 *       for each bucket the cpu time of a call, the least of REPETITIONS, in ns: `time BUCKET LIBRARY HAND`
 *   bench [..] -o BUCKET WHICH
 *       makes that bucket's data and calls one of them once, for a tool that counts what happens inside the call
 *
 * Quantification and exports are of INTERVALS for each of DEVICES; the record files are of one device, LONG and SHORT intervals. */
#define _POSIX_C_SOURCE 200809L
#include "agree.h"
#include "both.h"

#include <stdio.h>
#include <stdlib.h>
#include <string.h>
#include <time.h>

enum { SEED = 2015 };
enum {
    REALISTIC, DENSE_GAPS, LAST_WRONG, READ_LONG, READ_SHORT, FLOW_REALISTIC, FLOW_DENSE_GAPS,
    AIR_REALISTIC, AIR_LAST_WRONG, BUCKETS
};

static const char *const names[BUCKETS] = {
    "quantify-realistic", "quantify-dense-gaps", "quantify-last-wrong", "read-long", "read-short",
    "flow-realistic", "flow-dense-gaps", "ventilation-realistic", "ventilation-last-wrong"};

struct sizes {
    uint32_t intervals, devices, text[2], repetitions, small;
};

/* A bucket's data, and for each implementation arrays of its own. */
struct bucket {
    int is_text, is_flow, is_air;
    struct record record;
    struct air air;
    size_t length[SLICES], air_length[AIR_SLICES], entries;
    struct answer answer[BOTH];
    uint8_t *text;
    size_t text_length;
    struct reading reading[BOTH];
    uint8_t *exports;
    struct filling filling[BOTH];
};

static struct bucket made(int k, const struct sizes *s)
{
    struct bucket b;
    memset(&b, 0, sizeof b);
    draw_from(SEED);
    b.is_text = k == READ_LONG || k == READ_SHORT;
    b.is_flow = k == FLOW_REALISTIC || k == FLOW_DENSE_GAPS;
    b.is_air = k == AIR_REALISTIC || k == AIR_LAST_WRONG;
    b.record = b.is_text ? record_new(s->text[k - READ_LONG], 1) : record_new(s->intervals, s->devices);
    b.entries = (size_t)b.record.intervals * b.record.devices;
    if (b.is_air) {
        b.air = air_new(s->intervals, s->devices);
        fill_air(&b.air, 1);
        if (k == AIR_LAST_WRONG)
            b.air.status[b.entries - 1] = 4;
        right_air_lengths(&b.air, b.air_length);
    } else if (k == DENSE_GAPS || k == FLOW_DENSE_GAPS) {
        fill_dense_gaps(&b.record, 8);
    } else {
        fill_realistic(&b.record, 1);
    }
    if (k == LAST_WRONG)
        b.record.status[b.entries - 1] = 4;
    right_lengths(&b.record, b.length);
    if (b.is_text) {
        b.text = malloc(CMM_RECORD_BYTES(b.entries));
        if (b.text == NULL)
            exit(2);
        b.text_length = record_text(&b.record, b.text);
    }
    if (b.is_flow) {
        b.exports = malloc(CMM_SAMPLE * b.entries);
        if (b.exports == NULL)
            exit(2);
        record_exports(&b.record, b.exports);
    }
    for (int w = 0; w < BOTH; w++) {
        b.answer[w] = answer_new(b.entries);
        b.reading[w] = reading_new(b.entries);
        b.filling[w] = filling_new(b.entries);
    }
    return b;
}

static void unmake(struct bucket *b)
{
    record_free(&b->record);
    air_free(&b->air);
    free(b->text);
    free(b->exports);
    for (int w = 0; w < BOTH; w++) {
        answer_free(&b->answer[w]);
        reading_free(&b->reading[w]);
        filling_free(&b->filling[w]);
    }
}

static void ask(struct bucket *b, int which)
{
    if (b->is_flow)
        ask_flow(which, b->exports, CMM_SAMPLE * (size_t)b->record.intervals, b->record.devices, &b->filling[which]);
    else if (b->is_text)
        ask_read(which, b->text, b->text_length, &b->reading[which]);
    else if (b->is_air)
        ask_ventilation(which, &b->air, b->air_length, &b->answer[which]);
    else
        ask_quantify(which, &b->record, b->length, &b->answer[which]);
}

static uint64_t cpu_ns(void)
{
    struct timespec t;
    clock_gettime(CLOCK_PROCESS_CPUTIME_ID, &t);
    return (uint64_t)t.tv_sec * 1000000000 + (uint64_t)t.tv_nsec;
}

/* What the figures say of the data, so that a reader sees what was measured. */
static void describe(int k, const struct bucket *b)
{
    const struct answer *a = &b->answer[LIBRARY];
    if (b->is_flow)
        printf("# %s: %u devices, %u samples each, refusal %u\n", names[k], (unsigned)b->record.devices, (unsigned)b->record.intervals,
               (unsigned)b->filling[LIBRARY].number);
    else if (b->is_text)
        printf("# %s: one device, %u intervals, %zu bytes, refusal %u\n", names[k], (unsigned)b->record.intervals, b->text_length,
               (unsigned)b->reading[LIBRARY].number);
    else if (a->number > 0)
        printf("# %s: %u intervals, %u devices, refusal %u\n", names[k], (unsigned)b->record.intervals, (unsigned)b->record.devices,
               (unsigned)a->number);
    else
        printf("# %s: %u intervals, %u devices, counted %llu, of them replaced %llu, excluded %llu\n", names[k],
               (unsigned)b->record.intervals, (unsigned)b->record.devices, (unsigned long long)a->amounts[CMM_COUNTED],
               (unsigned long long)a->amounts[CMM_REPLACED], (unsigned long long)a->amounts[CMM_EXCLUDED]);
}

/* Whether both answer alike; prints the times, the two taking turns so that a busy machine troubles both. */
static int measured(int k, const struct sizes *s)
{
    struct bucket b = made(k, s);
    uint64_t least[BOTH] = {UINT64_MAX, UINT64_MAX};
    int same;
    for (uint32_t turn = 0; turn < s->repetitions; turn++)
        for (int w = 0; w < BOTH; w++) {
            const uint64_t before = cpu_ns();
            ask(&b, w);
            const uint64_t taken = cpu_ns() - before;
            least[w] = taken < least[w] ? taken : least[w];
        }
    same = b.is_flow ? same_filling(&b.filling[LIBRARY], &b.filling[HAND])
           : b.is_text
               ? same_reading(&b.reading[LIBRARY], &b.reading[HAND])
               : same_answer(&b.answer[LIBRARY], &b.answer[HAND], b.entries);
    describe(k, &b);
    printf("time %s %llu %llu\n", names[k], (unsigned long long)least[LIBRARY], (unsigned long long)least[HAND]);
    if (!same)
        fprintf(stderr, "%s: the library and the hand-written code answer differently\n", names[k]);
    unmake(&b);
    return same;
}

static int usage(const char *name)
{
    fprintf(stderr, "usage: %s [-n INTERVALS] [-d DEVICES] [-l LONG] [-s SHORT] [-r REPETITIONS] [-a SMALL] [-o BUCKET WHICH]\n", name);
    fprintf(stderr, "BUCKET 0 .. %d, WHICH 0 library or 1 hand-written\n", BUCKETS - 1);
    return 2;
}

/* Reads an option's number into its place; 0 if it is no option or out of its range. */
static int option(struct sizes *s, const char *name, const char *number)
{
    const struct {
        char letter;
        uint32_t *place, least, most;
    } all[] = {{'n', &s->intervals, 1, CMM_INTERVALS_MOST}, {'d', &s->devices, 1, CMM_DEVICES_MOST},
               {'l', &s->text[0], 1, CMM_INTERVALS_MOST},   {'s', &s->text[1], 1, CMM_INTERVALS_MOST},
               {'r', &s->repetitions, 1, 1000000},          {'a', &s->small, 0, 1000000}};
    char *end;
    const unsigned long v = strtoul(number, &end, 10);
    for (size_t k = 0; k < sizeof all / sizeof *all; k++)
        if (name[0] == '-' && name[1] == all[k].letter && name[2] == 0) {
            *all[k].place = (uint32_t)v;
            return *end == 0 && v >= all[k].least && v <= all[k].most;
        }
    return 0;
}

int main(int argc, char **argv)
{
    struct sizes s = {CMM_INTERVALS_MOST, CMM_DEVICES_MOST, {CMM_INTERVALS_MOST, 2976}, 25, 5000};
    int different, i = 1;
    for (; i + 1 < argc && strcmp(argv[i], "-o") != 0; i += 2)
        if (!option(&s, argv[i], argv[i + 1]))
            return usage(argv[0]);
    if (i + 3 == argc && strcmp(argv[i], "-o") == 0) {
        const int k = atoi(argv[i + 1]), w = atoi(argv[i + 2]);
        struct bucket b;
        if (k < 0 || k >= BUCKETS || w < 0 || w >= BOTH)
            return usage(argv[0]);
        b = made(k, &s);
        ask(&b, w);
        unmake(&b);
        return 0;
    }
    if (i != argc)
        return usage(argv[0]);
    draw_from(SEED);
    different = disagreements(s.small) != 0;
    for (int k = 0; k < BUCKETS; k++)
        different |= !measured(k, &s);
    return different;
}
