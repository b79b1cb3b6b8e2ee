/* rows.h: the rows that the library fills and works in, just as long as a record needs them. */
#ifndef ROWS_H
#define ROWS_H

#include <stddef.h>
#include <stdint.h>

#include "../include/cmm.h"
#include "input.h"

struct rows {
    size_t entries; /* intervals times devices */
    uint32_t *press;
    uint16_t *flow, *content, *flow_used, *content_used;
    int16_t *temp;
    uint8_t *status, *outcome;
};

/* What a record file has beside its rows, in arrays of the largest size. */
struct record {
    uint32_t quantity[CMM_FUELS_MOST], factor[CMM_FUELS_MOST], kinds[CMM_DEVICES_MOST], counts[2 * CMM_DEVICES_MOST];
    uint32_t positions[2 * CMM_DEVICES_MOST * CMM_CHECKS_MOST];
    int32_t drifts[2 * CMM_DEVICES_MOST * CMM_CHECKS_MOST];
    uint32_t head[4]; /* intervals, devices, mine, fuel lines */
};

/* Has the library read a record file into rows. Gives the refusal's number, or 0; `line` gets the first wrong line, or 0. */
uint64_t record_read(const struct text *t, struct record *r, struct rows *w, uint64_t line[1]);

/* Asks for the rows of the record that a text says it is; where its first two lines are wrong, rows of no entry, with which the
 * library gives the same refusal. Gives YES, or says what is the matter and gives TROUBLE. */
int rows_lend(const struct text *t, struct rows *r);
void rows_free(struct rows *r);

#endif
