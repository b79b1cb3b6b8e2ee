/* Holds cmm_quantify_ventilation to section 19 of the rules: its worked example and numbers, each outcome at its border, each refusal
 * with its device and place, arrays of wrong lengths, a whole year. Every expectation is the rules' or worked out from them by hand. */
#define _DEFAULT_SOURCE
#include "expect.h"

enum { SLICES = 12, N = 3, D = 2, CELLS = N * D };

/* One stream's four readings. */
struct gas {
    uint16_t flow, ppm;
    int16_t temp;
    uint32_t press;
};

struct stream {
    uint16_t *flow, *ppm;
    int16_t *temp;
    uint32_t *press;
};

/* A call: each array with its length, as it is lent. */
struct call {
    uint32_t intervals, devices;
    struct stream in, out;
    uint8_t *status, *outcome;
    uint32_t *quantity, *factor;
    size_t length[SLICES], entries;
    uint64_t *accounts, *amounts, *at;
    int64_t *balances;
};

/* Where each stands in `length`, in the order of the parameters. */
enum { QUANTITY = 9, FACTOR, OUTCOME };

static struct stream lend_stream(size_t entries)
{
    struct stream s;
    s.flow = fenced(entries * sizeof *s.flow);
    s.ppm = fenced(entries * sizeof *s.ppm);
    s.temp = fenced(entries * sizeof *s.temp);
    s.press = fenced(entries * sizeof *s.press);
    return s;
}

static void put(struct stream *s, size_t at, struct gas g)
{
    s->flow[at] = g.flow;
    s->ppm[at] = g.ppm;
    s->temp[at] = g.temp;
    s->press[at] = g.press;
}

/* Rule 19.13's interval for every interval of every device, with as many of its fuel lines. */
static const struct gas worked_in = {30000, 10000, 2000, 101325}, worked_out = {30000, 100, 2000, 101325};

static struct call worked(uint32_t n, uint32_t d, uint32_t fuels)
{
    struct call c;
    size_t i;
    c.intervals = n;
    c.devices = d;
    c.entries = (size_t)n * d;
    for (i = 0; i < SLICES; i++)
        c.length[i] = i == QUANTITY || i == FACTOR ? fuels : c.entries;
    c.in = lend_stream(c.entries);
    c.out = lend_stream(c.entries);
    c.status = fenced(c.entries);
    c.outcome = fenced(c.entries);
    c.quantity = fenced(fuels * sizeof *c.quantity);
    c.factor = fenced(fuels * sizeof *c.factor);
    c.accounts = fenced(CMM_ACCOUNTS * sizeof *c.accounts);
    c.amounts = fenced(CMM_AMOUNTS * sizeof *c.amounts);
    c.balances = fenced(CMM_BALANCES * sizeof *c.balances);
    c.at = fenced(2 * sizeof *c.at);
    for (i = 0; i < c.entries; i++) {
        put(&c.in, i, worked_in);
        put(&c.out, i, worked_out);
        c.status[i] = 1;
    }
    for (i = 0; i < fuels; i++) {
        c.quantity[i] = 1000;
        c.factor[i] = 700000;
    }
    return c;
}

static uint64_t ask(struct call *c)
{
    const size_t *l = c->length;
    return cmm_quantify_ventilation(
        c->intervals, c->devices, c->in.flow, l[0], c->in.ppm, l[1], c->in.temp, l[2], c->in.press, l[3], c->out.flow,
        l[4], c->out.ppm, l[5], c->out.temp, l[6], c->out.press, l[7], c->status, l[8], c->quantity, l[QUANTITY],
        c->factor, l[FACTOR], c->outcome, l[OUTCOME], c->accounts, c->amounts, c->balances, c->at);
}

/* Refused with this number, device and place, and nothing but `at` written. */
static void refused(struct call *c, const char *name, uint64_t number, uint64_t device, uint64_t place)
{
    expect(ask(c) == number, name, "number");
    expect(c->at[0] == device && c->at[1] == place, name, "device and place");
    expect(untouched(c->outcome, c->entries), name, "the row is changed");
    expect(untouched(c->accounts, CMM_ACCOUNTS * sizeof *c->accounts), name, "the accounts are changed");
    expect(untouched(c->amounts, CMM_AMOUNTS * sizeof *c->amounts), name, "the amounts are changed");
    expect(untouched(c->balances, CMM_BALANCES * sizeof *c->balances), name, "the balances are changed");
}

/* One interval of one device: its outcome, and the litres that it counts for. */
static void settled(const char *name, struct gas in, struct gas out, uint8_t status, uint8_t outcome, uint64_t supplied,
                    uint64_t left)
{
    struct call c = worked(1, 1, 0);
    put(&c.in, 0, in);
    put(&c.out, 0, out);
    c.status[0] = status;
    expect(ask(&c) == 0 && c.at[0] == 0 && c.at[1] == 0, name, "it is refused");
    expect(c.outcome[0] == outcome && c.accounts[outcome] == 1, name, "outcome");
    expect(c.amounts[CMM_COUNTED] == (outcome == 0) && c.amounts[CMM_EXCLUDED] == (outcome != 0), name, "counts");
    expect(c.amounts[CMM_METHANE_L] == supplied && c.accounts[CMM_ACCOUNT_METHANE_L] == supplied, name, "inlet");
    expect(c.amounts[CMM_UNCOMBUSTED_L] == left && c.accounts[CMM_ACCOUNT_UNCOMBUSTED_L] == left, name, "exhaust");
    expect(c.amounts[CMM_DESTROYED_L] == supplied - left && c.accounts[CMM_ACCOUNT_DESTROYED_L] == supplied - left,
           name, "destroyed");
}

static void check_worked(void)
{
    static const uint64_t amounts[CMM_AMOUNTS] = {1,       1,     1,           0,          0,         3000000,   2970000,
                                                  30000,   42021000000, 5447722500, 420210000, 700000000, 35};
    static const uint64_t account[CMM_ACCOUNT] = {1, 0, 0, 0, 0, 0, 0, 0, 0, 0, 3000000, 2970000, 30000};
    struct call c = worked(1, 1, 1);
    expect(ask(&c) == 0, "the worked example", "it is refused");
    expect(memcmp(c.amounts, amounts, sizeof amounts) == 0, "the worked example", "amounts");
    expect(c.balances[CMM_REDUCTION_MG] == 35453067500 && c.balances[CMM_TONNES] == 35, "the worked example", "balances");
    expect(memcmp(c.accounts, account, sizeof account) == 0, "the worked example", "the account");
    expect(untouched(c.accounts + CMM_ACCOUNT, (CMM_ACCOUNTS - CMM_ACCOUNT) * sizeof *c.accounts), "the worked example",
           "accounts past the last device are changed");
}

static void check_outcomes(void)
{
    const struct gas half = {1000, 5000, 2000, 101325}, dense = {30000, 20000, -4000, 300000};
    const struct gas none = {0, 20000, 2000, 101325}, clean = {30000, 0, 2000, 101325};
    settled("as much out as in", half, half, 1, 0, 50000, 50000);
    settled("one litre more out", half, (struct gas){16667, 300, 2000, 101325}, 1, 6, 0, 0);
    settled("five litres less out", half, (struct gas){3333, 1500, 2000, 101325}, 1, 0, 50000, 49995);
    settled("no flow", none, none, 1, 0, 0, 0);
    settled("no methane", clean, clean, 2, 0, 0, 0);
    settled("the coldest and densest", dense, (struct gas){0, 0, 0, 101325}, 1, 0, 22336255, 0);
    settled("the same readings", dense, dense, 1, 6, 0, 0);
    settled("0.0107 l out, 0 in", none, (struct gas){1, 1, 0, 101325}, 1, 6, 0, 0);
    settled("each stream's own readings", half, (struct gas){2000, 100, 0, 50000}, 1, 0, 50000, 1060);
    settled("stopped", dense, dense, 0, 3, 0, 0);
    settled("unrecorded", dense, dense, 3, 4, 0, 0);
    settled("stopped, nothing read", (struct gas){65535, 65535, INT16_MIN, 0}, (struct gas){65535, 65535, INT16_MIN, 0}, 0, 3, 0, 0);
}

static void check_missing(void)
{
    int k;
    for (k = 0; k < 8; k++) {
        struct gas g[2] = {{1000, 5000, 2000, 101325}, {1000, 100, 2000, 101325}};
        struct gas *one = &g[k / 4];
        if (k % 4 == 0) one->flow = CMM_FLOW_MISSING;
        if (k % 4 == 1) one->ppm = CMM_PPM_MISSING;
        if (k % 4 == 2) one->temp = CMM_TEMP_MISSING;
        if (k % 4 == 3) one->press = CMM_PRESS_MISSING;
        settled("a reading missing", g[0], g[1], 1 + k % 2, 5, 0, 0);
    }
}

/* The last device's last interval gets a reading out of range, each of the nine in turn. */
static void check_readings(void)
{
    const size_t last = CELLS - 1;
    int k;
    for (k = 0; k < 9; k++) {
        struct call c = worked(N, D, 0);
        struct stream *s = k < 4 ? &c.in : &c.out;
        if (k == 8) c.status[last] = 4;
        else if (k % 4 == 0) s->flow[last] = 30001;
        else if (k % 4 == 1) s->ppm[last] = 20001;
        else if (k % 4 == 2) s->temp[last] = -4001;
        else s->press[last] = 300001;
        refused(&c, "a reading out of range", k == 8 ? 21 : k < 4 ? 22 : 23, 1, 2);
    }
}

static void check_order(void)
{
    struct call c = worked(N, D, 1);
    c.status[0] = 4, c.in.flow[1] = 65534;
    refused(&c, "a status in an earlier interval", 21, 0, 0);
    c = worked(N, D, 1);
    c.status[4] = 255, c.out.press[4] = 49999, c.in.temp[4] = 10001;
    refused(&c, "three in one interval", 22, 1, 1);
    c = worked(N, D, 1);
    c.status[4] = 255, c.out.press[4] = 49999;
    refused(&c, "two in one interval", 23, 1, 1);
    c = worked(N, D, 1);
    memset(c.status, 0, c.entries), c.in.ppm[2] = 20001, c.factor[0] = 4000001;
    refused(&c, "stopped, with a wrong reading and a wrong fuel line", 22, 0, 2);
    c = worked(N, D, 2);
    c.factor[1] = 4000001;
    refused(&c, "a fuel line", 9, 0, 1);
    c = worked(N, D, 65);
    refused(&c, "too many fuel lines", 9, 0, 64);
}

static void check_shape(void)
{
    struct call c;
    int k;
    for (k = 0; k < SLICES; k++) {
        c = worked(N, D, 2);
        c.length[k]--, c.in.flow[0] = 30001;
        refused(&c, "an array one too short", 3, 0, 0);
        c = worked(N, D, 2);
        c.length[k] = (size_t)-1;
        refused(&c, "an array told to be as long as can be", 3, 0, 0);
    }
    c = worked(N, D, 0), c.intervals = 0, c.devices = 17;
    refused(&c, "no interval", 1, 0, 0);
    c = worked(N, D, 0), c.intervals = 35137;
    refused(&c, "an interval too many", 1, 0, 0);
    c = worked(N, D, 0), c.devices = 0;
    refused(&c, "no device", 2, 0, 0);
    c = worked(N, D, 0), c.devices = UINT32_MAX;
    refused(&c, "devices beyond counting", 2, 0, 0);
}

/* A year of 16 oxidisers, the most of everything: each interval 22,336,255 l in and none out. CO2 is rounded up for each device. */
static void check_year(void)
{
    struct call c = worked(35136, 16, 64);
    const uint64_t device = UINT64_C(784806655680);
    size_t i;
    for (i = 0; i < c.entries; i++) {
        put(&c.in, i, (struct gas){30000, 20000, -4000, 300000});
        c.out.ppm[i] = 0;
    }
    for (i = 0; i < 64; i++)
        c.quantity[i] = 1000000000, c.factor[i] = 4000000;
    expect(ask(&c) == 0, "a year", "it is refused");
    expect(c.amounts[CMM_METHANE_L] == 16 * device && c.amounts[CMM_DESTROYED_L] == 16 * device, "a year", "litres");
    expect(c.amounts[CMM_BASELINE_MG] == 14007 * 16 * device, "a year", "baseline");
    expect(c.amounts[CMM_CO2_MG] == 16 * (7337 * device / 4), "a year", "CO2: 7,337 times the litres is a multiple of 4");
    expect(c.amounts[CMM_FUEL_MG] == UINT64_C(256000000000000000), "a year", "fuel");
    expect(c.amounts[CMM_COUNTED] == 562176 && c.amounts[CMM_EXCLUDED] == 0, "a year", "counts");
    expect(c.accounts[CMM_ACCOUNT * 15] == 35136 && c.accounts[CMM_ACCOUNTS - 3] == device, "a year", "the last account");
}

int main(void)
{
    check_worked();
    check_outcomes();
    check_missing();
    check_readings();
    check_order();
    check_shape();
    check_year();
    return conclude("check_ventilation");
}
