/* Holds cmm_quantify to document 01: its worked example and numbers, each refusal with its device and place, arrays of wrong
 * lengths, a whole year. Every expectation is the document's or worked out from it by hand. */
#define _DEFAULT_SOURCE
#include "expect.h"

enum { SLICES = 14 };

/* A call: each array with its length, as it is lent. */
struct call {
    uint32_t intervals, devices, mine;
    uint32_t *kinds, *counts, *positions, *press, *quantity, *factor;
    int32_t *drifts;
    uint16_t *flow, *content, *flow_used, *content_used;
    int16_t *temp;
    uint8_t *status, *outcome;
    size_t length[SLICES], entries;
    uint64_t *accounts, *amounts, *at;
    int64_t *balances;
};

/* Where each stands in `length`, in the order of the parameters. */
enum { KINDS, COUNTS, POSITIONS, DRIFTS, FLOW, CONTENT, TEMP, PRESS, STATUS, QUANTITY, FACTOR, OUTCOME, FLOW_USED, CONTENT_USED };

static void lend(struct call *c, size_t n, size_t d, size_t fuels)
{
    const size_t wanted[SLICES] = {d,     2 * d, 64 * d, 64 * d, n * d, n * d, n * d,
                                   n * d, n * d, fuels,  fuels,  n * d, n * d, n * d};
    memcpy(c->length, wanted, sizeof wanted);
    c->entries = n * d;
    c->kinds = fenced(d * sizeof *c->kinds);
    c->counts = fenced(2 * d * sizeof *c->counts);
    c->positions = fenced(64 * d * sizeof *c->positions);
    c->drifts = fenced(64 * d * sizeof *c->drifts);
    c->flow = fenced(n * d * sizeof *c->flow);
    c->content = fenced(n * d * sizeof *c->content);
    c->temp = fenced(n * d * sizeof *c->temp);
    c->press = fenced(n * d * sizeof *c->press);
    c->status = fenced(n * d * sizeof *c->status);
    c->quantity = fenced(fuels * sizeof *c->quantity);
    c->factor = fenced(fuels * sizeof *c->factor);
    c->outcome = fenced(n * d * sizeof *c->outcome);
    c->flow_used = fenced(n * d * sizeof *c->flow_used);
    c->content_used = fenced(n * d * sizeof *c->content_used);
    c->accounts = fenced(CMM_ACCOUNTS * sizeof *c->accounts);
    c->amounts = fenced(CMM_AMOUNTS * sizeof *c->amounts);
    c->balances = fenced(CMM_BALANCES * sizeof *c->balances);
    c->at = fenced(2 * sizeof *c->at);
}

/* Document 01's worked interval for every interval of every device, with as many of its fuel lines. Entries past the checks'
 * counts, of which there are none, stay what no check could be. */
static struct call worked(uint32_t n, uint32_t d, uint32_t fuels)
{
    struct call c;
    size_t i;
    lend(&c, n, d, fuels);
    c.intervals = n;
    c.devices = d;
    c.mine = 0;
    for (i = 0; i < d; i++) {
        c.kinds[i] = 2;
        c.counts[2 * i] = c.counts[2 * i + 1] = 0;
    }
    for (i = 0; i < (size_t)n * d; i++) {
        c.flow[i] = 30000;
        c.content[i] = 10000;
        c.temp[i] = 2000;
        c.press[i] = 101325;
        c.status[i] = 1;
    }
    for (i = 0; i < fuels; i++) {
        c.quantity[i] = 1000;
        c.factor[i] = 700000;
    }
    return c;
}

static uint64_t ask(struct call *c)
{
    const size_t *l = c->length;
    return cmm_quantify(c->intervals, c->devices, c->mine, c->kinds, l[KINDS], c->counts, l[COUNTS], c->positions, l[POSITIONS],
                        c->drifts, l[DRIFTS], c->flow, l[FLOW], c->content, l[CONTENT], c->temp, l[TEMP], c->press, l[PRESS],
                        c->status, l[STATUS], c->quantity, l[QUANTITY], c->factor, l[FACTOR], c->outcome, l[OUTCOME],
                        c->flow_used, l[FLOW_USED], c->content_used, l[CONTENT_USED], c->accounts, c->amounts, c->balances, c->at);
}

/* The call is refused so, and nothing but `at` is written. */
static void refused(const char *name, struct call c, uint64_t number, uint64_t device, uint64_t place)
{
    const size_t n = c.entries;
    expect(ask(&c) == number, name, "number");
    expect(c.at[0] == device && c.at[1] == place, name, "device and place");
    expect(untouched(c.outcome, n * sizeof *c.outcome) && untouched(c.flow_used, n * sizeof *c.flow_used)
               && untouched(c.content_used, n * sizeof *c.content_used),
           name, "rows as they were");
    expect(untouched(c.accounts, CMM_ACCOUNTS * sizeof *c.accounts), name, "accounts as they were");
    expect(untouched(c.amounts, CMM_AMOUNTS * sizeof *c.amounts) && untouched(c.balances, CMM_BALANCES * sizeof *c.balances), name,
           "figures as they were");
}

/* Each device's counts are those of its outcomes, its litres are destroyed or uncombusted, the sheet's litres are the sums, and
 * what stands past the last device's account is as it was. */
static void accounted(const char *name, const struct call *c)
{
    static const int lines[3] = {CMM_METHANE_L, CMM_DESTROYED_L, CMM_UNCOMBUSTED_L};
    uint64_t sums[3] = {0, 0, 0};
    for (size_t d = 0; d < c->devices; d++) {
        const uint64_t *account = c->accounts + CMM_ACCOUNT * d, *litres = account + CMM_OUTCOMES;
        uint64_t counts[CMM_OUTCOMES] = {0};
        for (size_t i = 0; i < c->intervals; i++)
            counts[c->outcome[d * c->intervals + i]]++;
        expect(memcmp(account, counts, sizeof counts) == 0, name, "a count for each outcome");
        expect(litres[1] + litres[2] == litres[0], name, "each litre once");
        for (int k = 0; k < 3; k++)
            sums[k] += litres[k];
    }
    for (int k = 0; k < 3; k++)
        expect(sums[k] == c->amounts[lines[k]], name, "the sums of the accounts");
    expect(untouched(c->accounts + CMM_ACCOUNT * c->devices, (CMM_ACCOUNTS - CMM_ACCOUNT * c->devices) * sizeof *c->accounts), name,
           "the accounts of no device");
}

static void accepted(const char *name, struct call *c)
{
    expect(ask(c) == 0, name, "accepted");
    expect(c->at[0] == 0 && c->at[1] == 0, name, "no device, no place");
    expect(c->amounts[CMM_COUNTED] + c->amounts[CMM_EXCLUDED] == (uint64_t)c->intervals * c->devices, name, "every interval once");
    accounted(name, c);
}

static void check_worked(void)
{
    struct call c = worked(1, 1, 1);
    accepted("worked example", &c);
    expect(memcmp(c.amounts, worked_amounts, sizeof worked_amounts) == 0, "worked example", "amounts");
    expect(memcmp(c.balances, worked_balances, sizeof worked_balances) == 0, "worked example", "balances");
    expect(c.outcome[0] == 0 && c.flow_used[0] == 30000 && c.content_used[0] == 10000, "worked example", "rows");
    expect(c.accounts[0] == 1 && c.accounts[CMM_ACCOUNT_METHANE_L] == 3000000 && c.accounts[CMM_ACCOUNT_DESTROYED_L] == 2985000
               && c.accounts[CMM_ACCOUNT_UNCOMBUSTED_L] == 15000,
           "worked example", "account");
}

static void check_limits(void)
{
    struct call c = worked(1, 1, 1);
    c.intervals = 0;
    refused("no interval", c, 1, 0, 0);
    c.intervals = 35137;
    refused("35,137 intervals", c, 1, 0, 0);
    c.devices = 0;
    refused("1 before 2", c, 1, 0, 0);
    c.intervals = 1;
    refused("no device", c, 2, 0, 0);
    c.devices = 17;
    refused("17 devices", c, 2, 0, 0);
    c.devices = UINT32_MAX;
    c.mine = 9;
    refused("2 before 3 and 4", c, 2, 0, 0);
}

static void check_lengths(void)
{
    char name[32];
    int i;
    for (i = 0; i < SLICES; i++) {
        struct call c = worked(2, 2, 1);
        const size_t right = c.length[i];
        sprintf(name, "array %d of a wrong length", i);
        c.mine = 2;
        c.length[i] = right - 1;
        refused(name, c, 3, 0, 0);
        c.length[i] = right + 1;
        refused(name, c, 3, 0, 0);
        c.length[i] = 0;
        refused(name, c, 3, 0, 0);
        c.length[i] = (size_t)1 << 40;
        refused(name, c, 3, 0, 0);
    }
}

static void check_devices(void)
{
    struct call c = worked(2, 3, 0);
    c.mine = 2;
    c.kinds[0] = 0;
    refused("4 before 5", c, 4, 0, 0);
    c.mine = 0;
    refused("kind 0", c, 5, 0, 0);
    c.kinds[0] = 2;
    c.kinds[2] = 7;
    refused("kind 7 of the last device", c, 5, 2, 0);
    c.kinds[2] = 258;
    refused("kind 258 does not wrap", c, 5, 2, 0);
    c.kinds[2] = 6;
    c.counts[0] = 33;
    refused("6 before 7", c, 6, 2, 0);
    c.mine = 1;
    c.counts[0] = 0;
    accepted("kind 6 at a surface mine", &c);
}

static void check_checks(void)
{
    struct call c = worked(5, 2, 0);
    c.counts[0] = c.counts[1] = c.counts[2] = c.counts[3] = 2;
    c.positions[0] = c.positions[32] = c.positions[64] = c.positions[96] = 0;
    c.positions[1] = c.positions[33] = c.positions[65] = c.positions[97] = 5;
    c.drifts[0] = c.drifts[32] = c.drifts[64] = c.drifts[96] = -9000;
    c.drifts[1] = c.drifts[33] = c.drifts[65] = c.drifts[97] = 20000;
    accepted("checks at both ends, with the least and the greatest drift", &c);
    c = worked(5, 2, 0);
    c.counts[3] = 33;
    refused("a count of 33", c, 7, 1, 32);
    c.counts[2] = 1;
    c.positions[64] = 6;
    c.drifts[64] = 0;
    refused("flow before CH4, past the end", c, 7, 1, 0);
    c.positions[64] = 5;
    c.drifts[64] = 20001;
    refused("drift 20,001", c, 7, 1, 0);
    c.drifts[64] = -9001;
    refused("drift -9,001", c, 7, 1, 0);
    c.drifts[64] = 0;
    c.counts[3] = 2;
    c.positions[96] = c.positions[97] = 3;
    c.drifts[96] = c.drifts[97] = 0;
    c.flow[0] = 40000;
    refused("of two at one place the later; 7 before 17", c, 7, 1, 1);
}

static void check_readings(void)
{
    struct call c = worked(3, 2, 1);
    c.quantity[0] = 1000000001;
    c.status[5] = 4;
    refused("status 4; 21 before 9", c, 21, 1, 2);
    c.press[5] = 49999;
    refused("pressure 49,999 before the status", c, 20, 1, 2);
    c.temp[5] = 10001;
    refused("temperature 100.01 before both", c, 19, 1, 2);
    c.content[5] = 10001;
    refused("CH4 10,001 before the three", c, 18, 1, 2);
    c.flow[5] = 30001;
    refused("flow 30,001 before the four", c, 17, 1, 2);
    c.press[4] = 300001;
    refused("pressure 300,001 of an earlier interval", c, 20, 1, 1);
    c.temp[4] = -4001;
    refused("temperature -40.01", c, 19, 1, 1);
    c.content[2] = 10001;
    refused("CH4 of the first device, flow of the second", c, 18, 0, 2);
    c.flow[1] = 30001;
    refused("flow 30,001", c, 17, 0, 1);
    c.status[0] = 255;
    refused("status 255 before all, though its number is the highest", c, 21, 0, 0);
}

static void check_fuels(void)
{
    struct call c = worked(1, 1, 65);
    refused("65 fuel lines", c, 9, 0, 64);
    c.length[QUANTITY] = c.length[FACTOR] = 64;
    accepted("64 fuel lines", &c);
    expect(c.amounts[CMM_FUEL_MG] == 44800000000, "64 fuel lines", "fuel_mg");
    c = worked(1, 1, 3);
    c.quantity[1] = 1000000001;
    refused("quantity", c, 9, 0, 1);
    c.factor[0] = 4000001;
    refused("factor, and the first offender", c, 9, 0, 0);
}

/* "Numbers on both sides of a limit": one interval with these readings. */
static struct call one(uint16_t flow, uint16_t content, int16_t temp, uint32_t press, uint32_t fuels)
{
    struct call c = worked(1, 1, fuels);
    c.flow[0] = flow;
    c.content[0] = content;
    c.temp[0] = temp;
    c.press[0] = press;
    accepted("one interval", &c);
    return c;
}

static void check_numbers(void)
{
    struct call c;
    /* 10,000,000, 10,732,198 and 3,876 hundredths of a litre, all methane. */
    expect(one(1000, 10000, 2000, 101325, 0).amounts[CMM_METHANE_L] == 100000, "20.00 degrees", "litres");
    expect(one(1000, 10000, 0, 101325, 0).amounts[CMM_METHANE_L] == 107321, "0.00 degrees", "litres");
    expect(one(1, 10000, 10000, 50000, 0).amounts[CMM_METHANE_L] == 38, "100.00 degrees, 50,000 Pa", "litres");
    /* 3,876 hundredths at 99 %: 37 by whole litres of gas. 325,684 hundredths at 95 %: 3,094 by one rounding at the end. */
    expect(one(1, 9900, 10000, 50000, 0).amounts[CMM_METHANE_L] == 38, "99 % methane", "litres");
    expect(one(11, 9500, 2000, 300000, 0).amounts[CMM_METHANE_L] == 3093, "95 % methane", "litres");
    c = one(500, 10000, 2000, 101325, 1);
    expect(c.amounts[CMM_DESTROYED_L] == 49750 && c.amounts[CMM_UNCOMBUSTED_L] == 250, "Q 50,000", "litres");
    expect(c.amounts[CMM_CO2_MG] == 91253938, "Q 50,000", "CO2");
    expect(c.balances[CMM_REDUCTION_MG] == -94405688 && c.balances[CMM_TONNES] == -1, "a negative reduction", "balances");
    expect(c.amounts[CMM_CREDITS] == 0, "a negative reduction", "credits");
}

/* Flow 1,000 with one failed or passed check at the start: what is used. */
static uint16_t drifted(int32_t drift)
{
    struct call c = worked(1, 1, 0);
    c.flow[0] = 1000;
    c.counts[0] = 1;
    c.positions[0] = 0;
    c.drifts[0] = drift;
    accepted("a check", &c);
    return c.flow_used[0];
}

/* A gap of so many intervals between w entries of one value and w of another. */
static struct call gap(uint32_t gap, uint32_t w, uint16_t before, uint16_t after)
{
    struct call c = worked(gap + 2 * w, 1, 0);
    uint32_t i;
    for (i = 0; i < gap + 2 * w; i++) {
        c.status[i] = 2;
        c.flow[i] = i < w ? before : i < w + gap ? CMM_FLOW_MISSING : after;
    }
    return c;
}

static void check_rows(void)
{
    struct call c;
    expect(drifted(499) == 1000 && drifted(500) == 952 && drifted(-600) == 1000, "drift", "flow used");
    c = gap(1, 16, 100, 101);
    accepted("a gap of 1", &c);
    expect(c.outcome[16] == 1 && c.flow_used[16] == 100 && c.amounts[CMM_REPLACED] == 1, "a gap of 1", "the mean");
    c = gap(24, 96, 0, 2000);
    accepted("a gap of 24", &c);
    expect(c.outcome[96] == 1 && c.flow_used[96] == 880 && c.flow_used[119] == 880, "a gap of 24", "the 90 % limit");
    c = gap(96, 288, 0, 2200);
    accepted("a gap of 96", &c);
    expect(c.outcome[288] == 1 && c.flow_used[288] == 1009 && c.flow_used[383] == 1009, "a gap of 96", "the 95 % limit");
    c = gap(24, 96, 0, 0);
    c.flow[0] = 192;
    accepted("191 of 0, one 192", &c);
    expect(c.outcome[96] == 1 && c.flow_used[96] == 0, "191 of 0, one 192", "the 90 % limit");
    c = gap(1, 15, 100, 100);
    accepted("a window of 15", &c);
    expect(c.outcome[15] == 9 && c.flow_used[15] == 0 && c.content_used[15] == 0, "a window of 15", "excluded");
}

/* 35,136 worked intervals of each of 16 open flares, no fuel. */
static void check_year(void)
{
    static const uint64_t amounts[CMM_AMOUNTS] = {35136,          16,          562176,            0,
                                                  0,              1686528000000, 1619066880000,   67461120000,
                                                  23623197696000000, 2969773424640000, 944927907840000, 0,
                                                  19708496};
    struct call c = worked(35136, 16, 0);
    size_t i;
    for (i = 0; i < 16; i++)
        c.kinds[i] = 1;
    accepted("a year of 16 devices", &c);
    expect(memcmp(c.amounts, amounts, sizeof amounts) == 0, "a year of 16 devices", "amounts");
    expect(c.balances[0] == 19708496363520000 && c.balances[1] == 19708496, "a year of 16 devices", "balances");
    expect(c.flow_used[562175] == 30000 && c.content_used[562175] == 10000, "a year of 16 devices", "the last entry");
    c.status[562175] = 4;
    expect(ask(&c) == 21 && c.at[0] == 15 && c.at[1] == 35135, "a year of 16 devices", "its last reading refused");
}

int main(void)
{
    check_worked();
    check_limits();
    check_lengths();
    check_devices();
    check_checks();
    check_readings();
    check_fuels();
    check_numbers();
    check_rows();
    check_year();
    return conclude("cmm_quantify");
}
