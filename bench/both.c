/* both.c: see both.h. */
#include "both.h"

#include <stdio.h>
#include <stdlib.h>
#include <string.h>

enum { UNTOUCHED = 0xa5 };

static void *untouched(size_t bytes)
{
    void *p = malloc(bytes + 1);
    if (p == NULL) {
        perror("memory");
        exit(2);
    }
    return memset(p, UNTOUCHED, bytes + 1);
}

struct answer answer_new(size_t entries)
{
    struct answer a;
    memset(&a, UNTOUCHED, sizeof a);
    a.outcome = untouched(entries * sizeof *a.outcome);
    a.flow_used = untouched(entries * sizeof *a.flow_used);
    a.content_used = untouched(entries * sizeof *a.content_used);
    return a;
}

void answer_free(struct answer *a)
{
    free(a->outcome);
    free(a->flow_used);
    free(a->content_used);
}

struct reading reading_new(size_t entries)
{
    struct reading a;
    memset(&a, UNTOUCHED, sizeof a);
    a.rows = entries;
    a.flow = untouched(entries * sizeof *a.flow);
    a.content = untouched(entries * sizeof *a.content);
    a.temp = untouched(entries * sizeof *a.temp);
    a.press = untouched(entries * sizeof *a.press);
    a.status = untouched(entries * sizeof *a.status);
    return a;
}

void reading_free(struct reading *a)
{
    free(a->flow);
    free(a->content);
    free(a->temp);
    free(a->press);
    free(a->status);
}

struct filling filling_new(size_t entries)
{
    struct filling a;
    memset(&a, UNTOUCHED, sizeof a);
    a.entries = entries;
    a.flow = untouched(entries * sizeof *a.flow);
    return a;
}

void filling_free(struct filling *a)
{
    free(a->flow);
}

void right_lengths(const struct record *r, size_t length[SLICES])
{
    const size_t d = r->devices, all = r->intervals * d, f = r->fuels;
    const size_t wanted[SLICES] = {d, 2 * d, 64 * d, 64 * d, all, all, all, all, all, f, f, all, all, all};
    memcpy(length, wanted, sizeof wanted);
}

void ask_quantify(int which, const struct record *r, const size_t l[SLICES], struct answer *a)
{
    a->number = (which == LIBRARY ? cmm_quantify : hand_quantify)(
        r->intervals, r->devices, r->mine, r->kinds, l[KINDS], r->counts, l[COUNTS], r->places, l[PLACES], r->drifts, l[DRIFTS],
        r->flow, l[FLOW], r->content, l[CONTENT], r->temp, l[TEMP], r->press, l[PRESS], r->status, l[STATUS],
        r->quantity, l[QUANTITY], r->factor, l[FACTOR], a->outcome, l[OUTCOME], a->flow_used, l[FLOW_USED],
        a->content_used, l[CONTENT_USED], a->accounts, a->amounts, a->balances, a->at);
}

void right_air_lengths(const struct air *r, size_t length[AIR_SLICES])
{
    for (size_t k = 0; k < AIR_SLICES; k++)
        length[k] = k == AIR_QUANTITY || k == AIR_FACTOR ? r->fuels : (size_t)r->intervals * r->devices;
}

void ask_ventilation(int which, const struct air *r, const size_t l[AIR_SLICES], struct answer *a)
{
    const struct stream *in = &r->inlet, *out = &r->exhaust;
    a->number = (which == LIBRARY ? cmm_quantify_ventilation : hand_quantify_ventilation)(
        r->intervals, r->devices, in->flow, l[INLET_FLOW], in->ppm, l[INLET_PPM], in->temp, l[INLET_TEMP],
        in->press, l[INLET_PRESS], out->flow, l[EXHAUST_FLOW], out->ppm, l[EXHAUST_PPM], out->temp, l[EXHAUST_TEMP],
        out->press, l[EXHAUST_PRESS], r->status, l[AIR_STATUS], r->quantity, l[AIR_QUANTITY], r->factor, l[AIR_FACTOR],
        a->outcome, l[AIR_OUTCOME], a->accounts, a->amounts, a->balances, a->at);
}

void ask_read(int which, const uint8_t *text, size_t length, struct reading *a)
{
    a->number = (which == LIBRARY ? cmm_read_record : hand_read_record)(
        text, length, a->quantity, a->factor, a->kinds, a->counts, a->places, a->drifts, a->flow, a->rows, a->content, a->rows,
        a->temp, a->rows, a->press, a->rows, a->status, a->rows, a->head, a->line);
}

void ask_flow(int which, const uint8_t *exports, size_t length, size_t devices, struct filling *a)
{
    const size_t n = a->entries / devices;
    for (size_t d = 0; d < devices; d++)
        a->number = (which == LIBRARY ? cmm_read_flow : hand_read_flow)(exports + d * length, length, a->flow + d * n, n, a->place);
}

int same_answer(const struct answer *a, const struct answer *b, size_t entries)
{
    return a->number == b->number && memcmp(a->at, b->at, sizeof a->at) == 0
           && memcmp(a->accounts, b->accounts, sizeof a->accounts) == 0
           && memcmp(a->amounts, b->amounts, sizeof a->amounts) == 0 && memcmp(a->balances, b->balances, sizeof a->balances) == 0
           && memcmp(a->outcome, b->outcome, entries * sizeof *a->outcome) == 0
           && memcmp(a->flow_used, b->flow_used, entries * sizeof *a->flow_used) == 0
           && memcmp(a->content_used, b->content_used, entries * sizeof *a->content_used) == 0;
}

int same_reading(const struct reading *a, const struct reading *b)
{
    return a->number == b->number && a->line[0] == b->line[0] && memcmp(a->head, b->head, sizeof a->head) == 0
           && memcmp(a->quantity, b->quantity, sizeof a->quantity) == 0 && memcmp(a->factor, b->factor, sizeof a->factor) == 0
           && memcmp(a->kinds, b->kinds, sizeof a->kinds) == 0 && memcmp(a->counts, b->counts, sizeof a->counts) == 0
           && memcmp(a->places, b->places, sizeof a->places) == 0 && memcmp(a->drifts, b->drifts, sizeof a->drifts) == 0
           && a->rows == b->rows && memcmp(a->flow, b->flow, a->rows * sizeof *a->flow) == 0
           && memcmp(a->content, b->content, a->rows * sizeof *a->content) == 0
           && memcmp(a->temp, b->temp, a->rows * sizeof *a->temp) == 0
           && memcmp(a->press, b->press, a->rows * sizeof *a->press) == 0
           && memcmp(a->status, b->status, a->rows * sizeof *a->status) == 0;
}

int same_filling(const struct filling *a, const struct filling *b)
{
    return a->number == b->number && a->place[0] == b->place[0] && a->entries == b->entries
           && memcmp(a->flow, b->flow, a->entries * sizeof *a->flow) == 0;
}
