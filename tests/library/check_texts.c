/* Holds cmm_write_sheet, cmm_read_sheet, cmm_read_record and cmm_report to document 01: the worked example, each refusal with its
 * offset, length or line, buffers and rows of exact lengths. Every expectation is the document's or worked out from it by hand. */
#define _DEFAULT_SOURCE
#include "expect.h"

/* A copy of a text that ends at a page nobody may touch. */
static uint8_t *lent(const char *text)
{
    uint8_t *at = fenced(strlen(text));
    memcpy(at, text, strlen(text));
    return at;
}

/* ---- the sheet written */

static void check_write(void)
{
    const size_t n = strlen(worked_sheet);
    uint64_t *size = fenced(sizeof *size);
    uint8_t *buf = fenced(n);
    expect(cmm_write_sheet(worked_amounts, worked_balances, buf, n - 1, size) == 11, "one byte too few", "number");
    expect(*size == n && untouched(buf, n), "one byte too few", "length needed, nothing written");
    expect(cmm_write_sheet(worked_amounts, worked_balances, buf, 0, size) == 11, "no room", "number");
    expect(*size == n && untouched(buf, n), "no room", "length needed, nothing written");
    expect(cmm_write_sheet(worked_amounts, worked_balances, buf, n, size) == 0, "worked sheet", "number");
    expect(*size == n && memcmp(buf, worked_sheet, n) == 0, "worked sheet", "text");
    buf = fenced(1000);
    expect(cmm_write_sheet(worked_amounts, worked_balances, buf, 1000, size) == 0, "room to spare", "number");
    expect(*size == n && memcmp(buf, worked_sheet, n) == 0 && untouched(buf + n, 1000 - n), "room to spare", "text and no more");
}

static void check_longest(void)
{
    uint64_t amounts[CMM_AMOUNTS], back[CMM_AMOUNTS], size[1], offset[1];
    int64_t balances[CMM_BALANCES] = {INT64_MIN, INT64_MIN}, balances_back[CMM_BALANCES];
    uint8_t *buf = fenced(CMM_TEXT_MOST);
    int i;
    for (i = 0; i < CMM_AMOUNTS; i++)
        amounts[i] = UINT64_MAX;
    expect(cmm_write_sheet(amounts, balances, buf, CMM_TEXT_MOST - 1, size) == 11 && size[0] == 465, "longest sheet", "465 bytes");
    expect(cmm_write_sheet(amounts, balances, buf, CMM_TEXT_MOST, size) == 0 && size[0] == 465, "longest sheet", "written");
    expect(cmm_read_sheet(buf, CMM_TEXT_MOST, back, balances_back, offset) == 0 && offset[0] == 0, "longest sheet", "read");
    expect(memcmp(back, amounts, sizeof back) == 0 && memcmp(balances_back, balances, sizeof balances) == 0, "longest sheet", "back");
}

/* ---- the sheet read */

static void no_sheet(const char *name, const uint8_t *text, size_t length, uint64_t wanted)
{
    uint64_t *amounts = fenced(CMM_AMOUNTS * sizeof *amounts), *offset = fenced(sizeof *offset);
    int64_t *balances = fenced(CMM_BALANCES * sizeof *balances);
    expect(cmm_read_sheet(text, length, amounts, balances, offset) == 10, name, "number");
    expect(*offset == wanted, name, "offset");
    expect(untouched(amounts, CMM_AMOUNTS * sizeof *amounts) && untouched(balances, CMM_BALANCES * sizeof *balances), name,
           "figures as they were");
}

/* The worked sheet with `old`, which it has once, made `new`: wrong at this byte of `new`. */
static void changed(const char *old, const char *new, size_t wrong)
{
    const size_t before = (size_t)(strstr(worked_sheet, old) - worked_sheet);
    char text[600];
    sprintf(text, "%.*s%s%s", (int)before, worked_sheet, new, worked_sheet + before + strlen(old));
    no_sheet(new, lent(text), strlen(text), before + wrong);
}

static void check_read(void)
{
    const size_t n = strlen(worked_sheet);
    const uint8_t *text = lent(worked_sheet);
    uint64_t amounts[CMM_AMOUNTS], offset[1];
    int64_t balances[CMM_BALANCES];
    size_t i;
    expect(cmm_read_sheet(text, n, amounts, balances, offset) == 0 && offset[0] == 0, "worked sheet", "read");
    expect(memcmp(amounts, worked_amounts, sizeof amounts) == 0 && memcmp(balances, worked_balances, sizeof balances) == 0,
           "worked sheet", "figures");
    for (i = 0; i < n; i++)
        no_sheet("a sheet that stops short", text, i, i);
}

static void check_damaged(void)
{
    char longer[600];
    changed("devices=1", "devices=01", 9);
    changed("devices=1", "devices=", 8);
    changed("devices=1", "devices=-1", 8);
    changed("devices=1", "devices=+1", 8);
    changed("devices=1", "devices=1 ", 9);
    changed("devices=1", "Devices=1", 0);
    changed("devices=1\n", "devices=1\r\n", 9);
    changed("devices=1", "devices=18446744073709551616", 27);
    changed("tonnes=35", "tonnes=-0", 8);
    changed("tonnes=35", "tonnes=9223372036854775808", 25);
    changed("tonnes=35", "tonnes=-9223372036854775809", 26);
    changed("tonnes=35\ncredits=35\n", "credits=35\ntonnes=35\n", 0);
    sprintf(longer, "%s\n", worked_sheet);
    no_sheet("a byte after the last line", lent(longer), strlen(longer), strlen(worked_sheet));
}

/* ---- the record file */

#define HEAD "intervals=1\ndevices=1\nmine=0\nfuels=1\nquantity=1000\nfactor=700000\nkind=2\nflow_checks=0\nch4_checks=0\n"
static const char worked_record[] = HEAD "flow=30000\nch4=10000\ntemp=2000\npress=101325\nstatus=1\n";

/* Everything that a reading may write, each array of exactly its length. */
struct rows {
    uint32_t *quantity, *factor, *kinds, *counts, *positions, *press, *head;
    int32_t *drifts;
    uint16_t *flow, *content;
    int16_t *temp;
    uint8_t *status;
    uint64_t *line;
    size_t entries;
};

static struct rows room(size_t entries)
{
    struct rows r;
    r.entries = entries;
    r.quantity = fenced(64 * sizeof *r.quantity);
    r.factor = fenced(64 * sizeof *r.factor);
    r.kinds = fenced(16 * sizeof *r.kinds);
    r.counts = fenced(32 * sizeof *r.counts);
    r.positions = fenced(1024 * sizeof *r.positions);
    r.drifts = fenced(1024 * sizeof *r.drifts);
    r.flow = fenced(entries * sizeof *r.flow);
    r.content = fenced(entries * sizeof *r.content);
    r.temp = fenced(entries * sizeof *r.temp);
    r.press = fenced(entries * sizeof *r.press);
    r.status = fenced(entries * sizeof *r.status);
    r.head = fenced(4 * sizeof *r.head);
    r.line = fenced(sizeof *r.line);
    return r;
}

static uint64_t ask(const char *text, struct rows *r, size_t status_length)
{
    return cmm_read_record(lent(text), strlen(text), r->quantity, r->factor, r->kinds, r->counts, r->positions, r->drifts, r->flow,
                           r->entries, r->content, r->entries, r->temp, r->entries, r->press, r->entries, r->status, status_length,
                           r->head, r->line);
}

/* No entry from these on is written. */
static int kept(const struct rows *r, size_t fuels, size_t devices, size_t counts, size_t checks, size_t entries)
{
    const size_t left = r->entries - entries;
    return untouched(r->quantity + fuels, (64 - fuels) * sizeof *r->quantity)
        && untouched(r->factor + fuels, (64 - fuels) * sizeof *r->factor)
        && untouched(r->kinds + devices, (16 - devices) * sizeof *r->kinds)
        && untouched(r->counts + counts, (32 - counts) * sizeof *r->counts)
        && untouched(r->positions + checks, (1024 - checks) * sizeof *r->positions)
        && untouched(r->drifts + checks, (1024 - checks) * sizeof *r->drifts)
        && untouched(r->flow + entries, left * sizeof *r->flow) && untouched(r->content + entries, left * sizeof *r->content)
        && untouched(r->temp + entries, left * sizeof *r->temp) && untouched(r->press + entries, left * sizeof *r->press)
        && untouched(r->status + entries, left * sizeof *r->status);
}

static void check_record(size_t entries)
{
    struct rows r = room(entries);
    expect(ask(worked_record, &r, entries) == 0 && *r.line == 0, "worked record", "read");
    expect(r.head[0] == 1 && r.head[1] == 1 && r.head[2] == 0 && r.head[3] == 1, "worked record", "head");
    expect(r.quantity[0] == 1000 && r.factor[0] == 700000 && r.kinds[0] == 2, "worked record", "fuel and kind");
    expect(r.counts[0] == 0 && r.counts[1] == 0, "worked record", "counts");
    expect(r.flow[0] == 30000 && r.content[0] == 10000 && r.temp[0] == 2000 && r.press[0] == 101325 && r.status[0] == 1,
           "worked record", "readings");
    expect(kept(&r, 1, 1, 2, 0, 1), "worked record", "other entries as they were");
}

static void check_layout(void)
{
    static const char text[] = "intervals=1\ndevices=2\nmine=7\nfuels=0\nkind=9\nflow_checks=1\nat=1\ndrift=-9000\nch4_checks=1\n"
                               "at=4\ndrift=5\nflow=\nch4=\ntemp=\npress=\nstatus=3\n"
                               "kind=4294967295\nflow_checks=0\nch4_checks=1\nat=0\ndrift=-2147483648\n"
                               "flow=65534\nch4=0\ntemp=-32767\npress=4294967295\nstatus=255\n";
    struct rows r = room(2);
    expect(ask(text, &r, 2) == 0 && r.head[1] == 2 && r.head[2] == 7, "two devices", "read, ranges unseen");
    expect(r.kinds[0] == 9 && r.kinds[1] == 4294967295, "two devices", "kinds");
    expect(r.counts[0] == 1 && r.counts[1] == 1 && r.counts[2] == 0 && r.counts[3] == 1, "two devices", "counts");
    expect(r.positions[0] == 1 && r.drifts[0] == -9000 && r.positions[32] == 4 && r.drifts[32] == 5, "first device", "checks");
    expect(r.positions[96] == 0 && r.drifts[96] == INT32_MIN && untouched(r.positions + 64, 32 * 4), "second device", "checks");
    expect(r.flow[0] == CMM_FLOW_MISSING && r.content[0] == CMM_CONTENT_MISSING && r.temp[0] == CMM_TEMP_MISSING
               && r.press[0] == CMM_PRESS_MISSING && r.status[0] == 3,
           "two devices", "missing marks");
    expect(r.flow[1] == 65534 && r.content[1] == 0 && r.temp[1] == -32767 && r.press[1] == 4294967295 && r.status[1] == 255,
           "two devices", "each width's last number");
}

static void check_refused(const char *text, size_t entries, size_t status_length, uint64_t number, uint64_t line)
{
    struct rows r = room(entries);
    expect(ask(text, &r, status_length) == number, text, "number");
    expect(*r.line == line, text, "line");
    expect(untouched(r.head, 4 * sizeof *r.head), text, "head as it was");
    if (number != 12)
        expect(kept(&r, 0, 0, 0, 0, 0), text, "rows as they were");
}

static void check_record_refusals(void)
{
    check_refused("intervals=0\ndevices=1\nrubbish", 1, 1, 1, 0);
    check_refused("intervals=35137\ndevices=17\n", 1, 1, 1, 0);
    check_refused("intervals=1\ndevices=0\n", 1, 1, 2, 0);
    check_refused("intervals=1\ndevices=17\n", 1, 1, 2, 0);
    check_refused("intervals=2\ndevices=3\n", 5, 5, 13, 0);
    check_refused(worked_record, 1, 0, 13, 0);
    check_refused(worked_record, 0, 0, 13, 0);
    check_refused("", 1, 1, 12, 1);
    check_refused("", 0, 0, 12, 1);
    check_refused("intervals=0\ndevices=\n", 1, 1, 12, 2);
    check_refused("intervals=1\ndevices=1\n", 1, 1, 12, 3);
    check_refused("intervals=1\ndevices=1\nmine=0\nfuels=65\n", 1, 1, 12, 4);
    check_refused("intervals=1\ndevices=1\nmine=0\nfuels=0\nkind=2\nflow_checks=33\n", 1, 1, 12, 6);
    check_refused(HEAD "flow=65535\nch4=1\ntemp=1\npress=1\nstatus=1\n", 1, 1, 12, 10);
    check_refused(HEAD "flow=1\nch4=1\ntemp=1\npress=1\nstatus=256\n", 1, 1, 12, 14);
    check_refused(HEAD "flow=1\nch4=1\ntemp=1\npress=1\nstatus=1", 1, 1, 12, 14);
    check_refused(HEAD "flow=1\nch4=1\ntemp=1\npress=1\nstatus=1\n\n", 1, 1, 12, 15);
}

/* "rows that reading fills then hold the entries read before it and are otherwise unchanged" */
static void check_half(void)
{
    struct rows r = room(1);
    expect(ask("intervals=1\ndevices=1\nmine=0\nfuels=1\nquantity=5\nfactor=x\n", &r, 1) == 12 && *r.line == 6, "half a pair", "12");
    expect(r.quantity[0] == 5 && untouched(r.factor, 4) && kept(&r, 1, 0, 0, 0, 0), "half a pair", "the quantity stands");
    r = room(1);
    expect(ask(HEAD "flow=7\nch4=8\ntemp=-0\n", &r, 1) == 12 && *r.line == 12, "half an interval", "12");
    expect(r.flow[0] == 7 && r.content[0] == 8 && untouched(r.temp, 2) && untouched(r.press, 4) && untouched(r.status, 1),
           "half an interval", "the first two stand");
    expect(kept(&r, 1, 1, 2, 0, 1), "half an interval", "other entries as they were");
}

/* ---- the whole job */

static void check_report(const char *text, size_t series, size_t results, const char *wanted)
{
    struct rows r = room(series);
    uint8_t *outcome = fenced(results), *out = fenced(CMM_TEXT_MOST);
    uint16_t *flow_used = fenced(results * sizeof *flow_used), *content_used = fenced(results * sizeof *content_used);
    const size_t n = cmm_report(lent(text), strlen(text), r.flow, series, r.content, series, r.temp, series, r.press, series,
                                r.status, series, outcome, results, flow_used, results, content_used, results, out);
    expect(n == strlen(wanted) && memcmp(out, wanted, n) == 0, text, wanted);
    expect(n <= CMM_TEXT_MOST && untouched(out + n, CMM_TEXT_MOST - n), text, "no byte after the end");
    if (wanted == worked_sheet) {
        expect(outcome[0] == 0 && flow_used[0] == 30000 && content_used[0] == 10000, text, "result rows");
        expect(untouched(outcome + 1, results - 1) && untouched(flow_used + 1, 2 * results - 2)
                   && untouched(content_used + 1, 2 * results - 2),
               text, "result rows past the record");
    } else {
        expect(untouched(outcome, results) && untouched(flow_used, 2 * results) && untouched(content_used, 2 * results), text,
               "result rows as they were");
    }
}

static void check_reports(void)
{
    check_report(worked_record, 1, 1, worked_sheet);
    check_report(worked_record, 9, 7, worked_sheet);
    check_report(worked_record, 1, 0, "refusal=3\ndevice=0\nplace=0\n");
    check_report(worked_record, 0, 1, "refusal=13\ndevice=0\nplace=0\n");
    check_report("", 0, 0, "refusal=12\ndevice=0\nplace=1\n");
    check_report("intervals=0\ndevices=1\n", 1, 1, "refusal=1\ndevice=0\nplace=0\n");
    check_report("intervals=1\ndevices=99\n", 1, 1, "refusal=2\ndevice=0\nplace=0\n");
    check_report(HEAD "flow=30001\nch4=1\ntemp=1\npress=1\nstatus=1\n", 1, 1, "refusal=17\ndevice=0\nplace=0\n");
    check_report(HEAD "flow=1\nch4=1\ntemp=1\npress=1\nstatus=\n", 1, 1, "refusal=12\ndevice=0\nplace=14\n");
}

int main(void)
{
    check_write();
    check_longest();
    check_read();
    check_damaged();
    check_record(1);
    check_record(5);
    check_layout();
    check_record_refusals();
    check_half();
    check_reports();
    return conclude("texts");
}
