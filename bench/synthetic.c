/* synthetic.c: see synthetic.h. */
#include "synthetic.h"

#include <stdio.h>
#include <stdlib.h>
#include <string.h>

static uint64_t state;

void draw_from(uint64_t seed) { state = seed; }

/* splitmix64 */
uint32_t drawn(uint32_t most)
{
    uint64_t z = state += UINT64_C(0x9e3779b97f4a7c15);
    z = (z ^ (z >> 30)) * UINT64_C(0xbf58476d1ce4e5b9);
    z = (z ^ (z >> 27)) * UINT64_C(0x94d049bb133111eb);
    return (uint32_t)(((z ^ (z >> 31)) >> 32) * most >> 32);
}

static uint32_t between(uint32_t least, uint32_t most) { return least + drawn(most - least + 1); }

static void *room(size_t count, size_t size)
{
    void *p = calloc(count, size);
    if (p == NULL) {
        perror("memory");
        exit(2);
    }
    return p;
}

struct record record_new(uint32_t intervals, uint32_t devices)
{
    const size_t all = (size_t)intervals * devices;
    struct record r = {.intervals = intervals, .devices = devices};
    r.kinds = room(devices, sizeof *r.kinds);
    r.counts = room(2 * devices, sizeof *r.counts);
    r.places = room(64 * devices, sizeof *r.places);
    r.drifts = room(64 * devices, sizeof *r.drifts);
    r.flow = room(all, sizeof *r.flow);
    r.content = room(all, sizeof *r.content);
    r.temp = room(all, sizeof *r.temp);
    r.press = room(all, sizeof *r.press);
    r.status = room(all, sizeof *r.status);
    r.quantity = room(CMM_FUELS_MOST + 1, sizeof *r.quantity);
    r.factor = room(CMM_FUELS_MOST + 1, sizeof *r.factor);
    return r;
}

void record_free(struct record *r)
{
    free(r->kinds);
    free(r->counts);
    free(r->places);
    free(r->drifts);
    free(r->flow);
    free(r->content);
    free(r->temp);
    free(r->press);
    free(r->status);
    free(r->quantity);
    free(r->factor);
}

static struct stream stream_new(size_t all)
{
    struct stream s;
    s.flow = room(all, sizeof *s.flow);
    s.ppm = room(all, sizeof *s.ppm);
    s.temp = room(all, sizeof *s.temp);
    s.press = room(all, sizeof *s.press);
    return s;
}

static void stream_free(struct stream *s)
{
    free(s->flow);
    free(s->ppm);
    free(s->temp);
    free(s->press);
}

struct air air_new(uint32_t intervals, uint32_t devices)
{
    const size_t all = (size_t)intervals * devices;
    struct air r = {.intervals = intervals, .devices = devices};
    r.inlet = stream_new(all);
    r.exhaust = stream_new(all);
    r.status = room(all, sizeof *r.status);
    r.quantity = room(CMM_FUELS_MOST + 1, sizeof *r.quantity);
    r.factor = room(CMM_FUELS_MOST + 1, sizeof *r.factor);
    return r;
}

void air_free(struct air *r)
{
    stream_free(&r->inlet);
    stream_free(&r->exhaust);
    free(r->status);
    free(r->quantity);
    free(r->factor);
}

/* A walk that stays between two limits. */
static int32_t walk(int32_t now, uint32_t step, int32_t least, int32_t most)
{
    const int32_t next = now + (int32_t)drawn(2 * step + 1) - (int32_t)step;
    return next < least ? least : next > most ? most : next;
}

static void fill_measured(struct record *r, size_t from)
{
    int32_t flow = 15000, content = 5000, temp = 1500, press = 103000;
    for (size_t i = from; i < from + r->intervals; i++) {
        flow = walk(flow, 250, 6000, 24000);
        content = walk(content, 60, 3000, 7500);
        temp = walk(temp, 40, -800, 4200);
        press = walk(press, 150, 94000, 118000);
        r->flow[i] = (uint16_t)flow;
        r->content[i] = (uint16_t)content;
        r->temp[i] = (int16_t)temp;
        r->press[i] = (uint32_t)press;
        r->status[i] = 1;
    }
}

enum series { FLOW, CONTENT, TEMP, PRESS, STOPPED, ATTESTED, NO_RECORD };

static void mark(struct record *r, size_t i, enum series what)
{
    switch (what) {
    case FLOW: r->flow[i] = CMM_FLOW_MISSING; break;
    case CONTENT: r->content[i] = CMM_CONTENT_MISSING; break;
    case TEMP: r->temp[i] = CMM_TEMP_MISSING; break;
    case PRESS: r->press[i] = CMM_PRESS_MISSING; break;
    case STOPPED: r->status[i] = 0; break;
    case ATTESTED: r->status[i] = 2; break;
    case NO_RECORD: r->status[i] = 3; break;
    }
}

/* How many of what happens `in_a_year`, or their share in a shorter record. */
static uint32_t share(uint32_t intervals, uint32_t in_a_year)
{
    return (in_a_year * intervals + drawn(CMM_INTERVALS_MOST)) / CMM_INTERVALS_MOST;
}

/* Marks stretches of a device. */
static void mark_stretches(struct record *r, size_t from, enum series what, uint32_t in_a_year, uint32_t least, uint32_t most)
{
    for (uint32_t times = share(r->intervals, in_a_year); times > 0; times--) {
        const uint32_t start = drawn(r->intervals), length = between(least, most);
        for (uint32_t i = start; i < r->intervals && i - start < length; i++)
            mark(r, from + i, what);
    }
}

/* About every two weeks; one in eight fails. */
static void fill_checks(struct record *r, size_t instrument)
{
    uint32_t place = drawn(1344), count = 0;
    while (place <= r->intervals && count < CMM_CHECKS_MOST) {
        const int32_t size = (int32_t)(drawn(8) == 0 ? between(500, 1800) : drawn(500));
        r->places[32 * instrument + count] = place;
        r->drifts[32 * instrument + count] = drawn(2) ? size : -size;
        count++;
        place += between(1250, 1438);
    }
    r->counts[instrument] = count;
}

void fill_realistic(struct record *r, uint32_t often)
{
    r->mine = 1;
    r->fuels = 4;
    for (uint32_t k = 0; k < r->fuels; k++) {
        r->quantity[k] = drawn(1000001);
        r->factor[k] = drawn(4000001);
    }
    for (size_t d = 0; d < r->devices; d++) {
        const size_t from = d * r->intervals;
        r->kinds[d] = between(1, 6);
        fill_checks(r, 2 * d);
        fill_checks(r, 2 * d + 1);
        fill_measured(r, from);
        mark_stretches(r, from, ATTESTED, 40, 96, 960);
        mark_stretches(r, from, STOPPED, 24 * often, 4, 384);
        mark_stretches(r, from, NO_RECORD, 8 * often, 1, 40);
        mark_stretches(r, from, TEMP, 12 * often, 1, 12);
        mark_stretches(r, from, PRESS, 12 * often, 1, 12);
        for (int s = FLOW; s <= CONTENT; s++) {
            mark_stretches(r, from, (enum series)s, 60 * often, 1, 6);
            mark_stretches(r, from, (enum series)s, 10 * often, 7, 23);
            mark_stretches(r, from, (enum series)s, 6 * often, 24, 95);
            mark_stretches(r, from, (enum series)s, 3 * often, 96, 672);
            mark_stretches(r, from, (enum series)s, often, 673, 1200);
        }
    }
}

void fill_dense_gaps(struct record *r, uint32_t phase)
{
    r->mine = 1;
    r->fuels = 0;
    for (size_t d = 0; d < r->devices; d++) {
        const size_t from = d * r->intervals;
        r->kinds[d] = 2;
        r->counts[2 * d] = r->counts[2 * d + 1] = 0;
        fill_measured(r, from);
        for (size_t i = 0; i < r->intervals; i++) {
            r->status[from + i] = 2;
            if (i % 17 == 16)
                mark(r, from + i, FLOW);
            if (i >= phase && (i - phase) % 17 == 16)
                mark(r, from + i, CONTENT);
        }
    }
}

static void fill_running(struct air *r, size_t from)
{
    int32_t flow = 15000, ppm = 5000, left = 150, temp = 1800, hot = 6500, press = 101000, behind = 99500;
    for (size_t i = from; i < from + r->intervals; i++) {
        flow = walk(flow, 200, 5000, 25000);
        ppm = walk(ppm, 80, 2000, 9000);
        left = walk(left, 10, 50, 400);
        temp = walk(temp, 20, 500, 3000);
        hot = walk(hot, 40, 4000, 9000);
        press = walk(press, 100, 96000, 106000);
        behind = walk(behind, 100, 95000, 104000);
        r->inlet.flow[i] = (uint16_t)flow;
        r->inlet.ppm[i] = (uint16_t)ppm;
        r->inlet.temp[i] = (int16_t)temp;
        r->inlet.press[i] = (uint32_t)press;
        r->exhaust.flow[i] = (uint16_t)walk(flow, 300, 5000, 25000);
        r->exhaust.ppm[i] = (uint16_t)left;
        r->exhaust.temp[i] = (int16_t)hot;
        r->exhaust.press[i] = (uint32_t)behind;
        r->status[i] = 1;
    }
}

/* What happens to an oxidiser: one of a stream's readings is missing (four for the inlet, then four for the exhaust),
 * its status changes, or more methane leaves it than enters it. */
enum { READINGS = 4, AIR_STOPPED = 2 * READINGS, AIR_ATTESTED, AIR_NO_RECORD, ABOVE };

static void mark_air(struct air *r, size_t i, int what)
{
    const struct stream *s = what < READINGS ? &r->inlet : &r->exhaust;
    switch (what < AIR_STOPPED ? what % READINGS : what) {
    case 0: s->flow[i] = CMM_FLOW_MISSING; break;
    case 1: s->ppm[i] = CMM_PPM_MISSING; break;
    case 2: s->temp[i] = CMM_TEMP_MISSING; break;
    case 3: s->press[i] = CMM_PRESS_MISSING; break;
    case AIR_STOPPED: r->status[i] = 0; break;
    case AIR_ATTESTED: r->status[i] = 2; break;
    case AIR_NO_RECORD: r->status[i] = 3; break;
    case ABOVE:
        r->exhaust.flow[i] = r->inlet.flow[i];
        r->exhaust.ppm[i] = (uint16_t)(2 * r->inlet.ppm[i]);
        break;
    }
}

static void air_stretches(struct air *r, size_t from, int what, uint32_t in_a_year, uint32_t least, uint32_t most)
{
    for (uint32_t times = share(r->intervals, in_a_year); times > 0; times--) {
        const uint32_t start = drawn(r->intervals), length = between(least, most);
        for (uint32_t i = start; i < r->intervals && i - start < length; i++)
            mark_air(r, from + i, what);
    }
}

void fill_air(struct air *r, uint32_t often)
{
    r->fuels = 4;
    for (uint32_t k = 0; k < r->fuels; k++) {
        r->quantity[k] = drawn(1000001);
        r->factor[k] = drawn(4000001);
    }
    for (size_t d = 0; d < r->devices; d++) {
        const size_t from = d * r->intervals;
        fill_running(r, from);
        air_stretches(r, from, ABOVE, 6 * often, 1, 6);
        air_stretches(r, from, AIR_ATTESTED, 40, 96, 960);
        air_stretches(r, from, AIR_STOPPED, 40 * often, 4, 48);
        air_stretches(r, from, AIR_NO_RECORD, 8 * often, 1, 12);
        for (int what = 0; what < AIR_STOPPED; what++)
            air_stretches(r, from, what, 12 * often, 1, 12);
    }
}

static char *put_checks(char *p, const struct record *r, const char *key, size_t instrument)
{
    p += sprintf(p, "%s=%u\n", key, (unsigned)r->counts[instrument]);
    for (size_t k = 32 * instrument; k < 32 * instrument + r->counts[instrument]; k++)
        p += sprintf(p, "at=%u\ndrift=%d\n", (unsigned)r->places[k], (int)r->drifts[k]);
    return p;
}

static char *put_reading(char *p, const char *key, long value, long missing)
{
    return p + (value == missing ? sprintf(p, "%s=\n", key) : sprintf(p, "%s=%ld\n", key, value));
}

size_t record_text(const struct record *r, uint8_t *text)
{
    char *p = (char *)text;
    p += sprintf(p, "intervals=%u\ndevices=%u\nmine=%u\nfuels=%u\n", (unsigned)r->intervals, (unsigned)r->devices,
                 (unsigned)r->mine, (unsigned)r->fuels);
    for (size_t k = 0; k < r->fuels; k++)
        p += sprintf(p, "quantity=%u\nfactor=%u\n", (unsigned)r->quantity[k], (unsigned)r->factor[k]);
    for (size_t d = 0; d < r->devices; d++) {
        p += sprintf(p, "kind=%u\n", (unsigned)r->kinds[d]);
        p = put_checks(p, r, "flow_checks", 2 * d);
        p = put_checks(p, r, "ch4_checks", 2 * d + 1);
        for (size_t i = d * r->intervals; i < (d + 1) * r->intervals; i++) {
            p = put_reading(p, "flow", r->flow[i], CMM_FLOW_MISSING);
            p = put_reading(p, "ch4", r->content[i], CMM_CONTENT_MISSING);
            p = put_reading(p, "temp", r->temp[i], CMM_TEMP_MISSING);
            p = put_reading(p, "press", (long)r->press[i], CMM_PRESS_MISSING);
            p += sprintf(p, "status=%u\n", (unsigned)r->status[i]);
        }
    }
    return (size_t)(p - (char *)text);
}

void record_exports(const struct record *r, uint8_t *samples)
{
    for (size_t i = 0; i < (size_t)r->intervals * r->devices; i++) {
        uint8_t *sample = samples + CMM_SAMPLE * i;
        const float x = (float)r->flow[i] / 10;
        const uint32_t any = drawn(UINT32_MAX);
        sample[0] = (uint8_t)(r->flow[i] == CMM_FLOW_MISSING ? 1 + drawn(2) : 0);
        memcpy(sample + 1, sample[0] == 0 ? (const void *)&x : (const void *)&any, 4);
    }
}
