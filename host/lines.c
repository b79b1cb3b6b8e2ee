#include "lines.h"

#include <string.h>

#include "../include/cmm.h"

const struct field fields[KEYS] = {
    [INTERVALS] = { "intervals", 1, CMM_INTERVALS_MOST, NULL, 0 },
    [DEVICES] = { "devices", 1, CMM_DEVICES_MOST, NULL, 0 },
    [MINE] = { "mine", 0, CMM_MINE_MOST, "for underground, surface", 0 },
    [FUELS] = { "fuels", 0, CMM_FUELS_MOST, NULL, 0 },
    [QUANTITY] = { "quantity", 0, CMM_QUANTITY_MOST, "in thousandths of a unit", 0 },
    [FACTOR] = { "factor", 0, CMM_FACTOR_MOST, "in g of CO2 a unit", 0 },
    [KIND] = { "kind", 1, CMM_KIND_MOST, "for open flare, enclosed flare, engine, boiler, turbine, pipeline injection", 0 },
    [FLOW_CHECKS] = { "flow_checks", 0, CMM_CHECKS_MOST, NULL, 0 },
    [CH4_CHECKS] = { "ch4_checks", 0, CMM_CHECKS_MOST, NULL, 0 },
    [AT] = { "at", 0, 0, NULL, 0 },
    [DRIFT] = { "drift", CMM_DRIFT_LEAST, CMM_DRIFT_MOST, "in 0.01 %", 0 },
    [FLOW] = { "flow", 0, CMM_FLOW_MOST, "in 0.1 m3", 1 },
    [CH4] = { "ch4", 0, CMM_CONTENT_MOST, "in 0.01 %", 1 },
    [TEMP] = { "temp", CMM_TEMP_LEAST, CMM_TEMP_MOST, "in 0.01 degrees Celsius", 1 },
    [PRESS] = { "press", CMM_PRESS_LEAST, CMM_PRESS_MOST, "in Pa", 1 },
    [STATUS] = { "status", 0, CMM_STATUS_MOST, "for stopped, running, running and attested, no thermocouple record", 0 },
};

void walk_start(struct walk *w, const uint8_t *text, size_t length)
{
    memset(w, 0, sizeof *w);
    w->due = INTERVALS;
    w->number = 1;
    w->bytes = text;
    w->end = text + length;
    w->before = -1;
}

size_t line_length(const struct walk *w)
{
    size_t left = (size_t)(w->end - w->bytes);
    const uint8_t *feed = left > 0 ? memchr(w->bytes, '\n', left) : NULL;

    return feed ? (size_t)(feed - w->bytes) : left;
}

int line_ended(const struct walk *w)
{
    return w->bytes + line_length(w) < w->end;
}

/* A right line's value begins behind its key and the sign =. */
static const uint8_t *value_at(const struct walk *w)
{
    return w->bytes + strlen(fields[w->due].key) + 1;
}

int line_empty(const struct walk *w)
{
    return *value_at(w) == '\n';
}

long long line_value(const struct walk *w)
{
    const uint8_t *at = value_at(w);
    int negative = *at == '-';
    long long n = 0;

    for (at += negative; *at != '\n'; ++at)
        n = 10 * n + (*at - '0');
    return negative ? -n : n;
}

long long line_least(const struct walk *w)
{
    return w->due == AT ? w->before + 1 : fields[w->due].least;
}

long long line_most(const struct walk *w)
{
    return w->due == AT ? (long long)w->intervals : fields[w->due].most;
}

int line_in_range(const struct walk *w)
{
    if (line_empty(w))
        return fields[w->due].optional;
    return line_value(w) >= line_least(w) && line_value(w) <= line_most(w);
}

/* Keeps what the line says about the lines to come. */
static void note(struct walk *w)
{
    switch (w->due) {
    case INTERVALS: w->intervals = (unsigned long)line_value(w); break;
    case DEVICES: w->devices = (unsigned long)line_value(w); break;
    case FUELS: w->fuels = (unsigned long)line_value(w); break;
    case FLOW_CHECKS:
    case CH4_CHECKS:
        w->checks = (unsigned long)line_value(w);
        w->content = w->due == CH4_CHECKS;
        w->before = -1;
        break;
    case AT: w->position = line_value(w); break;
    case DRIFT: w->before = w->position; break;
    default: break;
    }
}

/* The first line of the part that comes after the checks of an instrument. */
static enum key after_checks(struct walk *w)
{
    w->entry = 0;
    return w->content ? FLOW : CH4_CHECKS;
}

static enum key after_device(struct walk *w)
{
    w->entry = 0;
    return ++w->device < w->devices ? KIND : KEYS;
}

/* What is due after this line. */
static enum key next_due(struct walk *w)
{
    switch (w->due) {
    case FUELS: return w->fuels > 0 ? QUANTITY : KIND;
    case FACTOR:
        if (++w->entry < w->fuels)
            return QUANTITY;
        w->entry = 0;
        return KIND;
    case KIND: return FLOW_CHECKS;
    case FLOW_CHECKS:
    case CH4_CHECKS: return w->checks > 0 ? AT : after_checks(w);
    case DRIFT: return ++w->entry < w->checks ? AT : after_checks(w);
    case STATUS: return ++w->entry < w->intervals ? FLOW : after_device(w);
    default: return w->due + 1; /* INTERVALS to MINE, QUANTITY, AT, FLOW to PRESS: the keys stand in the lines' order */
    }
}

void walk_on(struct walk *w)
{
    note(w);
    w->bytes += line_length(w) + 1;
    ++w->number;
    w->due = next_due(w);
}
