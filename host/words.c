#include "words.h"

#include <stdio.h>
#include <string.h>

#include "../include/cmm.h"
#include "lines.h"
#include "say.h"

/* What is wrong, by the refusal's number: the one table of these words (tests/check_said holds it to crates/refusals). */
static const struct {
    unsigned number;
    const char *wrong;
} refusals[] = {
    { 1, "the number of intervals is out of range" },
    { 2, "the number of devices is out of range" },
    { 3, "an array has the wrong length" },
    { 4, "there is no such mine" },
    { 5, "there is no such kind of device" },
    { 6, "pipeline injection is not for an underground mine" },
    { 7, "a check is wrong" },
    { 9, "a fuel line is out of range" },
    { 10, "the text is no sheet" },
    { 11, "the buffer is too short for the sheet" },
    { 12, "the line is wrong" },
    { 13, "the record has more entries than there is room for" },
    { 14, "the export has the wrong length" },
    { 15, "a sample's quality is unknown" },
    { 16, "a good sample's reading is out of range" },
    { 17, "the flow is out of range" },
    { 18, "the CH4 content is out of range" },
    { 19, "the temperature is out of range" },
    { 20, "the pressure is out of range" },
    { 21, "the status is out of range" },
    { 22, "an inlet reading is out of range" },
    { 23, "an exhaust reading is out of range" },
};

/* A wrong line is shown so far; one that is longer than any may be (12.5) is not said to lack its end. */
enum { SHOWN = 40, LONGEST = 32 };

static const char *wrong(unsigned long number)
{
    size_t i;

    for (i = 0; i < sizeof refusals / sizeof *refusals; ++i)
        if (refusals[i].number == number)
            return refusals[i].wrong;
    return "it is refused";
}

/* Whether this is the line that the refusal speaks of. */
static int is_meant(const struct walk *w, const struct refusal *r)
{
    int own = w->device == r->device, offends = own && w->entry == r->place;

    switch (r->number) {
    case 1: return w->due == INTERVALS;
    case 2: return w->due == DEVICES;
    case 4: return w->due == MINE;
    case 5:
    case 6: return w->due == KIND && own;
    case 7: return (w->due == AT || w->due == DRIFT) && offends && !line_in_range(w);
    case 9: return (w->due == QUANTITY || w->due == FACTOR) && w->entry == r->place && !line_in_range(w);
    case 17: return w->due == FLOW && offends;
    case 18: return w->due == CH4 && offends;
    case 19: return w->due == TEMP && offends;
    case 20: return w->due == PRESS && offends;
    case 21: return w->due == STATUS && offends;
    default: return w->number == r->place;
    }
}

/* The line that the refusal speaks of. Gives 0 where it speaks of none. */
static int find(const struct text *record, const struct refusal *r, struct walk *w)
{
    if (r->number == 3 || r->number == 10 || r->number == 11 || (r->number > 12 && r->number < 17))
        return 0;
    for (walk_start(w, record->bytes, record->length); !is_meant(w, r); walk_on(w))
        if (w->due == KEYS || w->bytes == w->end)
            return 0;
    return 1;
}

/* A byte that would not show as it is, as its number. */
static void say_byte(uint8_t b)
{
    if (b < 32 || b > 126 || b == '\\')
        fprintf(stderr, "\\x%02x", b);
    else
        fputc(b, stderr);
}

static void say_line(const struct walk *w, int quoted)
{
    size_t i, length = line_length(w);

    if (w->bytes == w->end) {
        fputs("the text ends", stderr);
        return;
    }
    if (quoted)
        fputc('"', stderr);
    for (i = 0; i < length && i < SHOWN; ++i)
        say_byte(w->bytes[i]);
    if (length > SHOWN)
        fputs("..", stderr);
    if (quoted)
        fputc('"', stderr);
    if (w->due != KEYS && length <= LONGEST && !line_ended(w))
        fputs(" without its line end", stderr);
}

static void say_time(const struct moment *start, unsigned long interval)
{
    char text[MOMENT_TEXT];

    if (!start)
        return;
    moment_write(start, interval, text);
    fprintf(stderr, ", %s", text);
}

static void say_where(const struct walk *w, const struct moment *start)
{
    switch (w->due) {
    case QUANTITY:
    case FACTOR: fprintf(stderr, " (fuel line %lu", w->entry); break;
    case KIND:
    case FLOW_CHECKS:
    case CH4_CHECKS: fprintf(stderr, " (device %lu", w->device); break;
    case AT:
    case DRIFT:
        fprintf(stderr, " (device %lu, %s check %lu", w->device, w->content ? "CH4" : "flow", w->entry);
        if (w->due == DRIFT && w->position <= (long long)w->intervals)
            say_time(start, (unsigned long)w->position);
        break;
    case FLOW:
    case CH4:
    case TEMP:
    case PRESS:
    case STATUS:
        fprintf(stderr, " (device %lu, interval %lu", w->device, w->entry);
        say_time(start, w->entry);
        break;
    default: return; /* the file's head, and its end */
    }
    fputc(')', stderr);
}

static void say_range(const struct walk *w, long long least)
{
    const struct field *f = &fields[w->due];

    fprintf(stderr, "%lld to %lld is right", least, line_most(w));
    if (f->note)
        fprintf(stderr, ", %s", f->note);
    if (f->optional)
        fputs(", or nothing where it is missing", stderr);
}

static void say_right(const struct walk *w, const struct refusal *r)
{
    if (w->due == KEYS)
        fputs("the record ends with the line before it", stderr);
    else if (r->number == 12) {
        fprintf(stderr, "%s= and ", fields[w->due].key);
        say_range(w, fields[w->due].least);
    } else if (r->number == 6)
        fprintf(stderr, "1 to %lld is right where mine=0", line_most(w) - 1);
    else if (line_least(w) > line_most(w))
        fputs("no position is left after the check before it", stderr);
    else
        say_range(w, line_least(w));
}

void say_refusal(const struct text *record, const struct refusal *r, const struct moment *start)
{
    struct walk w;

    if (!find(record, r, &w)) {
        fprintf(stderr, "cmm: %s: %s\n", record->name, wrong(r->number));
        return;
    }
    fprintf(stderr, "cmm: %s:%zu: %s: ", record->name, w.number, wrong(r->number));
    say_line(&w, r->number == 12);
    say_where(&w, start);
    fputs("; ", stderr);
    say_right(&w, r);
    fputc('\n', stderr);
}

int put_refusal(const struct refusal *r)
{
    char text[128];

    snprintf(text, sizeof text, "refusal=%lu\ndevice=%lu\nplace=%lu\n", r->number, r->device, r->place);
    return put_text(text) == YES ? NO : TROUBLE;
}

/* The binary32 of a sample, low byte first. */
static float reading(const uint8_t *sample)
{
    uint32_t bits = sample[1] | (uint32_t)sample[2] << 8 | (uint32_t)sample[3] << 16 | (uint32_t)sample[4] << 24;
    float x;

    memcpy(&x, &bits, sizeof x);
    return x;
}

/* Nine digits tell every binary32 from any other. */
static void say_sample(const uint8_t *sample, unsigned long number)
{
    float x = reading(sample);

    if (number == 15)
        fprintf(stderr, "%u", sample[0]);
    else if (x != x)
        fputs("nan", stderr);
    else
        fprintf(stderr, "%.9g", x);
}

void say_export(const struct text *export, const struct refusal *r, unsigned long device, size_t intervals, const struct moment *start)
{
    size_t right = CMM_SAMPLE * intervals;

    fprintf(stderr, "cmm: %s: %s: ", export->name, wrong(r->number));
    if (r->number == 14) {
        fprintf(stderr, export->length > right ? "more than %zu bytes" : "%zu bytes", export->length > right ? right : export->length);
        fprintf(stderr, " (device %lu); %zu bytes are right, %d for each of %zu intervals\n", device, right, CMM_SAMPLE, intervals);
        return;
    }
    say_sample(export->bytes + CMM_SAMPLE * r->place, r->number);
    fprintf(stderr, " (device %lu, interval %lu", device, r->place);
    say_time(start, r->place);
    fprintf(stderr, ", byte %lu); ", CMM_SAMPLE * r->place);
    if (r->number == 15)
        fprintf(stderr, "0 to %d is right, for good, uncertain, bad\n", CMM_QUALITY_MOST);
    else
        fprintf(stderr, "0 to %d is right, in m3\n", CMM_READING_MOST);
}

void say_flow_twice(const struct text *record, unsigned long device, const char *export, const struct moment *start)
{
    struct walk w;

    walk_start(&w, record->bytes, record->length);
    while (w.due != FLOW || w.device != device || line_empty(&w))
        walk_on(&w);
    fprintf(stderr, "cmm: %s:%zu: the flow is given twice: ", record->name, w.number);
    say_line(&w, 0);
    say_where(&w, start);
    fprintf(stderr, "; flow= is right where %s has the device's flow\n", export);
}
