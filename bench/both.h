/* both.h: the proved library and the hand-written code side by side, each with arrays of its own to answer in. */
#ifndef BOTH_H
#define BOTH_H

#include "hand.h"
#include "synthetic.h"

enum { LIBRARY, HAND, BOTH };

/* The lengths that a call of quantification says, in the order of the parameters. */
enum { KINDS, COUNTS, PLACES, DRIFTS, FLOW, CONTENT, TEMP, PRESS, STATUS, QUANTITY, FACTOR, OUTCOME, FLOW_USED, CONTENT_USED, SLICES };

/* The same for ventilation air. */
enum {
    INLET_FLOW, INLET_PPM, INLET_TEMP, INLET_PRESS, EXHAUST_FLOW, EXHAUST_PPM, EXHAUST_TEMP, EXHAUST_PRESS, AIR_STATUS,
    AIR_QUANTITY, AIR_FACTOR, AIR_OUTCOME, AIR_SLICES
};

/* What a call of quantification answers, with the rows that it is lent. That of ventilation air
 * leaves the rows of values used as they are. */
struct answer {
    uint64_t number, at[2], accounts[CMM_ACCOUNTS], amounts[CMM_AMOUNTS];
    int64_t balances[CMM_BALANCES];
    uint8_t *outcome;
    uint16_t *flow_used, *content_used;
};

/* What reading a record file answers, with the arrays that it fills. */
struct reading {
    uint64_t number, line[1];
    uint32_t head[4], quantity[64], factor[64], kinds[16], counts[32], places[1024];
    int32_t drifts[1024];
    size_t rows;
    uint16_t *flow, *content;
    int16_t *temp;
    uint32_t *press;
    uint8_t *status;
};

/* What reading the exports of some devices answers, the last one's number and place, with the rows that it fills. */
struct filling {
    uint64_t number, place[1];
    size_t entries;
    uint16_t *flow;
};

/* Answers with rows of so many entries, every byte of them the same in every new answer, so that an entry that only one of the two
 * writes is found. */
struct answer answer_new(size_t entries);
void answer_free(struct answer *a);
struct reading reading_new(size_t entries);
void reading_free(struct reading *a);
struct filling filling_new(size_t entries);
void filling_free(struct filling *a);

void right_lengths(const struct record *r, size_t length[SLICES]);
void ask_quantify(int which, const struct record *r, const size_t length[SLICES], struct answer *a);
void right_air_lengths(const struct air *r, size_t length[AIR_SLICES]);
void ask_ventilation(int which, const struct air *r, const size_t length[AIR_SLICES], struct answer *a);
void ask_read(int which, const uint8_t *text, size_t length, struct reading *a);
/* Of each of so many devices the export of that length, one after the other. */
void ask_flow(int which, const uint8_t *exports, size_t length, size_t devices, struct filling *a);

/* Whether two answers are the same, in rows of so many entries too. */
int same_answer(const struct answer *a, const struct answer *b, size_t entries);
int same_reading(const struct reading *a, const struct reading *b);
int same_filling(const struct filling *a, const struct filling *b);

#endif
