/* agree.c: see agree.h. Damage is drawn so that every refusal is met, two of them at once at times, and limits on both sides. */
#include "agree.h"

#include "both.h"

#include <stdio.h>
#include <stdlib.h>
#include <string.h>

static unsigned met[24], outcomes[10], air_outcomes[10];

static void damage_checks(struct record *r)
{
    const size_t k = drawn(2 * r->devices), entry = 32 * k + drawn(r->counts[k] + 1) % 32;
    static const int32_t drifts[] = {-9001, -9000, -500, -499, 499, 500, 20000, 20001};
    switch (drawn(4)) {
    case 0: r->counts[k] = 32 + drawn(2); break;
    case 1: r->places[entry] = r->intervals + drawn(2); break;
    case 2: r->places[entry] = drawn(r->intervals + 1); break;
    default: r->drifts[entry] = drifts[drawn(8)]; break;
    }
}

static void damage_reading(struct record *r)
{
    static const uint16_t flow[] = {0, 30000, 30001, 65534, 65535}, content[] = {0, 10000, 10001, 65534, 65535};
    static const int16_t temp[] = {-32768, -32767, -4001, -4000, 10000, 10001, 32767};
    static const uint32_t press[] = {0, 1, 49999, 50000, 300000, 300001, UINT32_MAX};
    static const uint8_t status[] = {0, 1, 2, 3, 4, 255};
    const size_t i = drawn(r->intervals * r->devices);
    switch (drawn(5)) {
    case 0: r->flow[i] = flow[drawn(5)]; break;
    case 1: r->content[i] = content[drawn(5)]; break;
    case 2: r->temp[i] = temp[drawn(7)]; break;
    case 3: r->press[i] = press[drawn(7)]; break;
    default: r->status[i] = status[drawn(6)]; break;
    }
}

/* Fuel lines of the greatest numbers, at times one too many of them or a number one above; gives how many there are. */
static uint32_t any_fuel(uint32_t *quantity, uint32_t *factor)
{
    const uint32_t some = drawn(67), fuels = some > 65 ? 65 : some;
    for (size_t k = 0; k < fuels; k++) {
        quantity[k] = 1000000000 + (drawn(200) == 0);
        factor[k] = 4000000 + (drawn(200) == 0);
    }
    return fuels;
}

static void damage_fuel(struct record *r, size_t length[SLICES])
{
    r->fuels = any_fuel(r->quantity, r->factor);
    length[QUANTITY] = length[FACTOR] = r->fuels;
}

/* Nothing here makes an array seem longer than it is. */
static void damage(struct record *r, size_t length[SLICES])
{
    switch (drawn(16)) {
    case 0: r->intervals = drawn(2) ? 0 : 35137; break;
    case 1: r->devices = drawn(2) ? 0 : 17; break;
    case 2: length[drawn(SLICES)] /= 2; break;
    case 3: r->mine = 2 + drawn(300); break;
    case 4: r->kinds[drawn(r->devices)] = drawn(10) + 256 * drawn(2); break;
    case 5: r->mine = 0; break;
    case 6:
    case 7:
    case 8: damage_checks(r); break;
    case 9:
    case 10:
    case 11: damage_reading(r); break;
    case 12: damage_fuel(r, length); break;
    default: break;
    }
}

/* Gaps and what is measured between them one shorter, as long and one longer than the table of gaps has borders. */
static void fill_borders(struct record *r)
{
    static const uint32_t gaps[] = {1, 23, 24, 95, 96, 672, 673}, measured[] = {15, 16, 17, 95, 96, 97, 287, 288, 289};
    fill_dense_gaps(r, 0);
    for (size_t d = 0; d < r->devices; d++)
        for (uint32_t i = 0, flow = drawn(2); i < r->intervals;) {
            uint32_t left = measured[drawn(9)];
            for (; left > 0 && i < r->intervals; left--, i++) {
                r->flow[d * r->intervals + i] = (uint16_t)drawn(30001);
                r->content[d * r->intervals + i] = (uint16_t)drawn(10001);
            }
            for (left = gaps[drawn(7)]; left > 0 && i < r->intervals; left--, i++) {
                r->flow[d * r->intervals + i] = flow ? CMM_FLOW_MISSING : 30000;
                r->content[d * r->intervals + i] = flow ? 10000 : CMM_CONTENT_MISSING;
            }
        }
}

/* Up to three checks for each instrument, not always in order. */
static void fill_any_checks(struct record *r)
{
    static const int32_t drifts[] = {-9000, -500, -499, 499, 500, 20000};
    for (size_t k = 0; k < 2 * r->devices; k++) {
        r->counts[k] = drawn(4);
        for (size_t entry = 32 * k; entry < 32 * k + r->counts[k]; entry++) {
            r->places[entry] = (uint32_t)(entry % 32 + drawn(2)) * r->intervals / 3;
            r->drifts[entry] = drawn(2) ? drifts[drawn(6)] : (int32_t)drawn(1400) - 700;
        }
    }
}

static struct record small(void)
{
    struct record r = record_new(drawn(3) == 0 ? 1 + drawn(40) : 1 + drawn(3000), 1 + drawn(3));
    switch (drawn(6)) {
    case 0: fill_dense_gaps(&r, drawn(17)); break;
    case 1:
    case 2: fill_borders(&r); break;
    default: fill_realistic(&r, 1 + drawn(4)); break;
    }
    if (drawn(4) == 0)
        fill_any_checks(&r);
    return r;
}

static int same_quantify(unsigned number)
{
    struct record r = small();
    const struct record sound = r;
    const size_t entries = (size_t)r.intervals * r.devices;
    struct answer a = answer_new(entries), b = answer_new(entries);
    size_t length[SLICES];
    int same;
    right_lengths(&r, length);
    damage(&r, length);
    if (r.intervals == sound.intervals && r.devices == sound.devices)
        damage(&r, length);
    ask_quantify(LIBRARY, &r, length, &a);
    ask_quantify(HAND, &r, length, &b);
    same = same_answer(&a, &b, entries);
    met[a.number]++;
    for (size_t i = 0; a.number == 0 && i < entries; i++)
        outcomes[a.outcome[i]]++;
    if (!same)
        fprintf(stderr, "record %u: library %u, hand-written %u, or other rows or figures\n", number, (unsigned)a.number,
                (unsigned)b.number);
    answer_free(&a);
    answer_free(&b);
    r = sound;
    record_free(&r);
    return same;
}

/* A stream's reading on either side of a border, or missing. */
static void border_reading(struct stream *s, size_t i)
{
    static const uint16_t flow[] = {0, 1, 29999, 30000, 30001, 32768, 65534, 65535};
    static const uint16_t ppm[] = {0, 1, 19999, 20000, 20001, 32768, 65534, 65535};
    static const int16_t temp[] = {-32768, -32767, -4001, -4000, 10000, 10001, 32767};
    static const uint32_t press[] = {0, 1, 49999, 50000, 300000, 300001, 65536, UINT32_MAX};
    switch (drawn(4)) {
    case 0: s->flow[i] = flow[drawn(8)]; break;
    case 1: s->ppm[i] = ppm[drawn(8)]; break;
    case 2: s->temp[i] = temp[drawn(7)]; break;
    default: s->press[i] = press[drawn(8)]; break;
    }
}

/* Up to three readings or statuses of one device-interval or of the one behind it, so that rivals meet. */
static void damage_air_readings(struct air *r)
{
    static const uint8_t status[] = {0, 1, 2, 3, 4, 7, 255};
    const size_t all = (size_t)r->intervals * r->devices, at = drawn(4) == 0 ? all - 1 : drawn((uint32_t)all);
    for (uint32_t times = 1 + drawn(3); times > 0; times--) {
        const size_t i = at + 1 < all ? at + drawn(2) : at;
        switch (drawn(5)) {
        case 0:
        case 1: border_reading(&r->inlet, i); break;
        case 2:
        case 3: border_reading(&r->exhaust, i); break;
        default: r->status[i] = status[drawn(7)]; break;
        }
    }
}

/* Nothing here makes an array seem longer than it is. */
static void damage_air(struct air *r, size_t length[AIR_SLICES])
{
    switch (drawn(16)) {
    case 0: r->intervals = drawn(2) ? 0 : 35137; break;
    case 1: r->devices = drawn(2) ? 0 : 17; break;
    case 2: length[drawn(AIR_SLICES)] /= 2; break;
    case 3: length[drawn(AIR_QUANTITY)]--; break;
    case 4:
    case 5:
    case 6:
    case 7: damage_air_readings(r); break;
    case 8:
        r->fuels = any_fuel(r->quantity, r->factor);
        length[AIR_QUANTITY] = length[AIR_FACTOR] = r->fuels;
        break;
    default: break;
    }
}

/* Litres that come out whole, small and at 20 degrees and 101,325 Pa, and in the exhaust the same, one step more or one
 * step less of one reading: as much out as in, and a litre more. */
static void fill_equal(struct air *r)
{
    for (size_t i = 0; i < (size_t)r->intervals * r->devices; i++) {
        r->inlet.flow[i] = r->exhaust.flow[i] = (uint16_t)(1 + drawn(drawn(2) ? 200 : 29999));
        r->inlet.ppm[i] = r->exhaust.ppm[i] = (uint16_t)(100 * (1 + drawn(199)));
        r->inlet.temp[i] = r->exhaust.temp[i] = 2000;
        r->inlet.press[i] = r->exhaust.press[i] = 101325;
        r->status[i] = (uint8_t)(1 + drawn(2));
        switch (drawn(10)) {
        case 0: r->exhaust.flow[i]++; break;
        case 1: r->exhaust.flow[i]--; break;
        case 2: r->exhaust.ppm[i]++; break;
        case 3: r->exhaust.ppm[i]--; break;
        case 4: r->exhaust.temp[i]++; break;
        case 5: r->exhaust.temp[i]--; break;
        case 6: r->exhaust.press[i]++; break;
        case 7: r->exhaust.press[i]--; break;
        default: break;
        }
    }
}

static void any_stream(struct stream *s, size_t i)
{
    s->flow[i] = (uint16_t)(drawn(4) == 0 ? 30000 * drawn(2) : drawn(30001));
    s->ppm[i] = (uint16_t)(drawn(4) == 0 ? 20000 * drawn(2) : drawn(20001));
    s->temp[i] = (int16_t)((drawn(4) == 0 ? 14000 * drawn(2) : drawn(14001)) - 4000);
    s->press[i] = 50000 + (drawn(4) == 0 ? 250000 * drawn(2) : drawn(250001));
}

/* Any readings in their ranges, the ranges' ends more often than others. */
static void fill_any_air(struct air *r)
{
    for (size_t i = 0; i < (size_t)r->intervals * r->devices; i++) {
        any_stream(&r->inlet, i);
        any_stream(&r->exhaust, i);
        r->status[i] = (uint8_t)drawn(4);
    }
}

struct point {
    uint16_t flow, ppm;
    int16_t temp;
    uint32_t press;
};

static void set_stream(struct stream *s, size_t i, struct point p)
{
    s->flow[i] = p.flow;
    s->ppm[i] = p.ppm;
    s->temp[i] = p.temp;
    s->press[i] = p.press;
}

/* Some intervals at the very borders of rounding: an inlet whose methane is a millionth of a litre short of a whole one
 * more, or whose volume is one short of dividing, where that decides a litre; an exhaust that is as much above. The
 * other stream lets the interval count. */
static void set_borders(struct air *r)
{
    static const struct point below[] = {{13074, 4327, 2428, 154351}, {605, 9233, -3395, 54022},
                                         {28669, 16165, -2748, 264931}, {8923, 12117, 5722, 136573}};
    static const struct point above[] = {{8562, 3649, 1919, 213371}, {7137, 16003, 8414, 76901},
                                         {65, 4805, -2138, 56227}, {27859, 5291, 5002, 177962}};
    static const struct point most = {30000, 20000, -4000, 300000}, none = {0, 0, 0, 100000};
    for (uint32_t times = 8; times > 0; times--) {
        const size_t i = drawn(r->intervals * r->devices);
        const int inlet = drawn(2) == 0;
        set_stream(&r->inlet, i, inlet ? below[drawn(4)] : most);
        set_stream(&r->exhaust, i, inlet ? none : above[drawn(4)]);
        r->status[i] = 1;
    }
}

static int same_ventilation(unsigned number)
{
    struct air r = air_new(drawn(3) == 0 ? 1 + drawn(40) : 1 + drawn(3000), 1 + drawn(3));
    const struct air sound = r;
    const size_t entries = (size_t)r.intervals * r.devices;
    struct answer a = answer_new(entries), b = answer_new(entries);
    size_t length[AIR_SLICES];
    int same;
    switch (drawn(4)) {
    case 0: fill_equal(&r); break;
    case 1: fill_any_air(&r); break;
    default: fill_air(&r, 1 + drawn(20)); break;
    }
    if (drawn(3) == 0)
        set_borders(&r);
    right_air_lengths(&r, length);
    damage_air(&r, length);
    if (r.intervals == sound.intervals && r.devices == sound.devices)
        damage_air(&r, length);
    ask_ventilation(LIBRARY, &r, length, &a);
    ask_ventilation(HAND, &r, length, &b);
    same = same_answer(&a, &b, entries);
    met[a.number]++;
    for (size_t i = 0; a.number == 0 && i < entries; i++)
        air_outcomes[a.outcome[i]]++;
    if (!same)
        fprintf(stderr, "ventilation record %u: library %u, hand-written %u, or another row or figures\n", number,
                (unsigned)a.number, (unsigned)b.number);
    answer_free(&a);
    answer_free(&b);
    r = sound;
    air_free(&r);
    return same;
}

enum { GROWTH = 100 }; /* bytes by which damage makes a text longer at most */

/* Puts another value into the line after the place `at`. */
static size_t other_value(uint8_t *t, size_t length, size_t at)
{
    static const char *const values[] = {
        "", "0", "-0", "00", "-1", "-01", "+1", "1", "3", "32", "33", "64", "65", "255", "256", "32767", "32768", "-32767", "-32768",
        "-32769", "65534", "65535", "65536", "2147483647", "2147483648", "-2147483648", "-2147483649", "4294967295", "4294967296",
        "10000000000", "18446744073709551615", "18446744073709551617", "36893488147419103233"};
    const char *value = values[drawn(sizeof values / sizeof *values)];
    const size_t size = strlen(value);
    size_t end;
    while (at < length && t[at] != '=')
        at++;
    for (end = at; end < length && t[end] != '\n';)
        end++;
    if (end == length)
        return length;
    memmove(t + at + 1 + size, t + end, length - end);
    memcpy(t + at + 1, value, size);
    return length - end + at + 1 + size;
}

/* Up to three bytes changed, put in, taken out or cut off, or values changed, at times near the head where each line has a rule
 * of its own. */
static size_t damage_text(uint8_t *t, size_t length)
{
    static const uint8_t bytes[] = "0123456789-\n=+ fstx\377";
    size_t times = drawn(4);
    for (; times > 0 && length > 0; times--) {
        const size_t at = drawn((uint32_t)(drawn(2) || length < 300 ? length : 300));
        switch (drawn(9)) {
        case 0: t[at] = bytes[drawn(sizeof bytes)]; break;
        case 1: t[at] = (uint8_t)('0' + drawn(10)); break;
        case 2: memmove(t + at + 1, t + at, length++ - at); t[at] = bytes[drawn(sizeof bytes)]; break;
        case 3: memmove(t + at, t + at + 1, --length - at); break;
        case 4: t[length++] = bytes[drawn(sizeof bytes)]; break;
        case 5: length -= drawn(4) ? drawn(2) : drawn((uint32_t)length); break;
        default: length = other_value(t, length, at); break;
        }
    }
    return length;
}

static int same_read(unsigned number)
{
    struct record r = record_new(1 + drawn(drawn(2) ? 6 : 120), 1 + drawn(3));
    const size_t entries = (size_t)r.intervals * r.devices, rows = drawn(6) == 0 ? entries - drawn(2) : entries + drawn(3);
    struct reading a = reading_new(rows), b = reading_new(rows);
    uint8_t *t = malloc(CMM_RECORD_BYTES(entries) + GROWTH);
    size_t length, sizes[SLICES];
    int same;
    if (t == NULL)
        exit(2);
    fill_realistic(&r, 40);
    right_lengths(&r, sizes);
    fill_any_checks(&r);
    damage_reading(&r);
    if (drawn(4) == 0)
        damage_fuel(&r, sizes);
    length = damage_text(t, record_text(&r, t));
    ask_read(LIBRARY, t, length, &a);
    ask_read(HAND, t, length, &b);
    same = same_reading(&a, &b);
    met[a.number]++;
    if (!same)
        fprintf(stderr, "record file %u: library %u at line %u, hand-written %u at line %u, or other rows\n", number,
                (unsigned)a.number, (unsigned)a.line[0], (unsigned)b.number, (unsigned)b.line[0]);
    free(t);
    reading_free(&a);
    reading_free(&b);
    record_free(&r);
    return same;
}

/* Patterns on both sides of every border of a reading, and any other. */
static uint32_t pattern(void)
{
    static const uint32_t borders[] = {0, 1, 0x007fffff, 0x00800000, 0x3dcccccc, 0x3dcccccd, 0x3f333333, 0x3f7fffff, 0x3f800000,
                                       0x453b7fff, 0x453b8000, 0x80000000};
    static const uint32_t wrong[] = {0x453b8001, 0x7f7fffff, 0x7f800000, 0x7f800001, 0x7fc00000, 0x80000001, 0xbf800000, 0xff800000,
                                     0xffffffff};
    if (drawn(200) == 0)
        return wrong[drawn(sizeof wrong / sizeof *wrong)];
    return drawn(2) ? borders[drawn(sizeof borders / sizeof *borders)] : drawn(0x453b8001);
}

static int same_flow(unsigned number)
{
    const size_t n = drawn(40), length = CMM_SAMPLE * n + (drawn(8) == 0 ? drawn(2 * CMM_SAMPLE) : 0);
    struct filling a = filling_new(n), b = filling_new(n);
    uint8_t *t = malloc(length + 1);
    int same;
    if (t == NULL)
        exit(2);
    for (size_t i = 0; i < length; i++)
        t[i] = (uint8_t)drawn(256);
    for (size_t k = 0; k < n; k++) {
        const uint32_t w = pattern();
        t[CMM_SAMPLE * k] = (uint8_t)(drawn(100) == 0 ? 3 + drawn(253) : drawn(4) == 0 ? 1 + drawn(2) : 0);
        memcpy(t + CMM_SAMPLE * k + 1, &w, 4);
    }
    ask_flow(LIBRARY, t, length, 1, &a);
    ask_flow(HAND, t, length, 1, &b);
    same = same_filling(&a, &b);
    met[a.number]++;
    if (!same)
        fprintf(stderr, "export %u: library %u at %u, hand-written %u at %u, or another row\n", number, (unsigned)a.number,
                (unsigned)a.place[0], (unsigned)b.number, (unsigned)b.place[0]);
    free(t);
    filling_free(&a);
    filling_free(&b);
    return same;
}

static void print_outcomes(const char *of, const unsigned count[10])
{
    printf("# outcomes met%s:", of);
    for (size_t k = 0; k < 10; k++)
        if (count[k] > 0)
            printf(" %u (%u times)", (unsigned)k, count[k]);
    printf("\n");
}

unsigned disagreements(unsigned records)
{
    unsigned found = 0;
    for (unsigned k = 0; k < records; k++)
        found += (unsigned)!same_quantify(k) + (unsigned)!same_ventilation(k) + (unsigned)!same_read(k)
                 + (unsigned)!same_flow(k);
    printf("# %u small records, ventilation records, record files and exports each, ", records);
    printf("answered differently: %u\n", found);
    printf("# refusals met:");
    for (size_t k = 1; k < sizeof met / sizeof *met; k++)
        if (met[k] > 0)
            printf(" %u (%u times)", (unsigned)k, met[k]);
    printf("; accepted: %u\n", met[0]);
    print_outcomes("", outcomes);
    print_outcomes(" in ventilation records", air_outcomes);
    return found;
}
