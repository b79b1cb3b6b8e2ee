/* synthetic.h: made-up records of any size, always the same for the same seed, and their record files. */
#ifndef SYNTHETIC_H
#define SYNTHETIC_H

#include "../include/cmm.h"

struct record {
    uint32_t intervals, devices, mine, fuels;
    uint32_t *kinds, *counts, *places, *press, *quantity, *factor;
    int32_t *drifts;
    uint16_t *flow, *content;
    int16_t *temp;
    uint8_t *status;
};

/* What enters an oxidiser for ventilation air or leaves it, and a record of such oxidisers. */
struct stream {
    uint16_t *flow, *ppm;
    int16_t *temp;
    uint32_t *press;
};
struct air {
    uint32_t intervals, devices, fuels;
    uint32_t *quantity, *factor;
    struct stream inlet, exhaust;
    uint8_t *status;
};

/* A number below `most`, from the one generator behind everything here. */
uint32_t drawn(uint32_t most);
void draw_from(uint64_t seed);

/* Room for a record of that size, ended if there is none. Fuel arrays have room for one line too many. */
struct record record_new(uint32_t intervals, uint32_t devices);
void record_free(struct record *r);

struct air air_new(uint32_t intervals, uint32_t devices);
void air_free(struct air *r);

/* Gaps of every length in each series, stops, intervals that are not attested, checks every two weeks with some that fail. What is
 * missing is so many times as frequent as in a real year: `often` 1 is realistic. */
void fill_realistic(struct record *r, uint32_t often);

/* The dearest gaps that were found: in both series one reading is missing after every 16, no reading else, and every interval is
 * attested. `phase` is how far CH4's gaps lie behind those of flow. */
void fill_dense_gaps(struct record *r, uint32_t phase);

/* Stops of some hours, readings missing in either stream, intervals without a record of status, some with more methane
 * out than in; `often` as above. */
void fill_air(struct air *r, uint32_t often);

/* The exports of a record's flow, a sample for each entry, which has room for CMM_SAMPLE bytes each: the binary32 nearest to a flow,
 * and uncertain or bad with any bytes where it is missing. */
void record_exports(const struct record *r, uint8_t *samples);

/* The record file, at the start of `text`, which has room for CMM_RECORD_BYTES(intervals * devices); gives its length. */
size_t record_text(const struct record *r, uint8_t *text);

#endif
