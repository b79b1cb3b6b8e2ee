/* Holds cmm_read_flow to section 18 of the rules: the numbers of its table, refusals with their places, the row left as it was, lengths
 * that no five times a row is. Exports are written with C's own floats too. Every expectation is the rules' or worked out by hand. */
#define _DEFAULT_SOURCE
#include "expect.h"

enum { MOST = 16 };

struct sample {
    uint8_t quality;
    uint32_t pattern;
};

/* The bytes of some samples, at the end of which nothing can be read. */
static uint8_t *export_of(const struct sample *s, size_t n)
{
    uint8_t *t = fenced(CMM_SAMPLE * n);
    size_t k;
    int b;
    for (k = 0; k < n; k++) {
        t[CMM_SAMPLE * k] = s[k].quality;
        for (b = 0; b < 4; b++)
            t[CMM_SAMPLE * k + 1 + (size_t)b] = (uint8_t)(s[k].pattern >> 8 * b);
    }
    return t;
}

static void accepted(const char *name, const struct sample *s, size_t n, const uint16_t *wanted)
{
    uint16_t *flow = fenced(n * sizeof *flow);
    uint64_t *place = fenced(sizeof *place);
    expect(cmm_read_flow(export_of(s, n), CMM_SAMPLE * n, flow, n, place) == 0 && *place == 0, name, "accepted");
    expect(memcmp(flow, wanted, n * sizeof *flow) == 0, name, "row");
}

static void refused(const char *name, const struct sample *s, size_t n, uint64_t number, uint64_t wanted)
{
    uint16_t *flow = fenced(n * sizeof *flow);
    uint64_t *place = fenced(sizeof *place);
    expect(cmm_read_flow(export_of(s, n), CMM_SAMPLE * n, flow, n, place) == number, name, "number");
    expect(*place == wanted, name, "place");
    expect(untouched(flow, n * sizeof *flow), name, "row as it was");
}

/* Rule 18.10. */
static void check_table(void)
{
    static const struct sample right[] = {{0, 0},          {0, 0x80000000}, {0, 1},          {0, 0x007fffff}, {0, 0x3dcccccd},
                                          {0, 0x3f333333}, {0, 0x3f800000}, {0, 0x453b7fff}, {0, 0x453b8000}, {1, 0x7fc00000},
                                          {2, 0xffffffff}, {1, 0x3f800000}};
    static const uint16_t flow[] = {0, 0, 0, 0, 1, 6, 10, 29999, 30000, CMM_FLOW_MISSING, CMM_FLOW_MISSING, CMM_FLOW_MISSING};
    static const uint32_t wrong[] = {0x453b8001, 0x80000001, 0xff7fffff, 0x7f800000, 0xff800000, 0x7f800001, 0x7fc00000, 0xffffffff};
    size_t k;
    accepted("the table's numbers", right, sizeof right / sizeof *right, flow);
    for (k = 0; k < sizeof wrong / sizeof *wrong; k++) {
        struct sample s[MOST] = {{0, 0}};
        s[k].pattern = wrong[k];
        refused("a wrong reading", s, MOST, 16, k);
        s[k].quality = 1;
        s[k + 1].quality = 3;
        refused("the same, uncertain", s, MOST, 15, k + 1);
    }
}

/* The first wrong sample decides, at each place of a row, and lengths before all. */
static void check_order(void)
{
    size_t k;
    for (k = 0; k + 1 < MOST; k++) {
        struct sample s[MOST] = {{0, 0}};
        s[k].quality = 3;
        s[k].pattern = 0x7fc00000; /* not looked at */
        s[k + 1].pattern = 0xbf800000;
        refused("quality, then reading", s, MOST, 15, k);
        s[k].quality = 0;
        s[k + 1].quality = 255;
        refused("reading, then quality", s, MOST, 16, k);
    }
}

static void check_lengths(void)
{
    static const struct sample s[] = {{3, 0}, {0, 0xffffffff}};
    static const size_t wrong[] = {0, 4, 6, 9, 10};
    uint64_t *place = fenced(sizeof *place);
    uint16_t *flow = fenced(sizeof *flow);
    uint8_t *t = export_of(s, 2);
    size_t k;
    for (k = 0; k < sizeof wrong / sizeof *wrong; k++) {
        expect(cmm_read_flow(t, wrong[k], flow, 1, place) == 14 && *place == 0, "a wrong length", "14");
        expect(untouched(flow, sizeof *flow), "a wrong length", "row as it was");
    }
    expect(cmm_read_flow(t, 5, flow, 0, place) == 14, "a sample for no entry", "14");
    expect(cmm_read_flow(t, 0, flow, 0, place) == 0 && *place == 0 && untouched(flow, sizeof *flow), "no sample and no entry", "accepted");
}

/* Tenths as a program writes them that holds them as floats: each comes out as it was, or one lower (rule 18.11). */
static void check_tenths(void)
{
    enum { N = 30001 };
    uint16_t *flow = fenced(N * sizeof *flow);
    uint8_t *t = fenced(CMM_SAMPLE * N);
    uint64_t place[1];
    unsigned lower = 0, other = 0, k;
    for (k = 0; k < N; k++) {
        const float x = (float)(k / 10.0);
        t[CMM_SAMPLE * k] = 0;
        memcpy(t + CMM_SAMPLE * k + 1, &x, sizeof x);
    }
    expect(cmm_read_flow(t, CMM_SAMPLE * N, flow, N, place) == 0, "tenths", "accepted");
    for (k = 0; k < N; k++) {
        lower += flow[k] + 1U == k;
        other += flow[k] != k && flow[k] + 1U != k;
    }
    expect(lower == 11998 && other == 0, "tenths", "11,998 one lower, the others as they were");
}

int main(void)
{
    check_table();
    check_order();
    check_lengths();
    check_tenths();
    return conclude("check_flow");
}
