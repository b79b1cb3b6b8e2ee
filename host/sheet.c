/* cmm sheet: a record file quantified. */
#define _GNU_SOURCE
#include <getopt.h>
#include <stdio.h>
#include <string.h>

#include "../include/cmm.h"
#include "commands.h"
#include "flow.h"
#include "input.h"
#include "rows.h"
#include "say.h"
#include "when.h"
#include "words.h"

const char sheet_help[] =
    "Usage: cmm sheet [--start TIME] [--flow DEVICE=FILE].. [RECORD]\n"
    "\n"
    "Quantifies the drainage gas of a record file, up to a year of 16 devices, by Quebec\n"
    "Protocol 4, and prints its sheet; or, if the record is refused, three lines with the\n"
    "refusal's number, device and place, and on standard error what is wrong where.\n"
    "RECORD - , or none, is standard input.\n"
    "\n"
    "  --start TIME   when interval 0 begins, as 2026-01-01T00:00: a refusal then says when\n"
    "                 the interval that it speaks of begins (interval k, 15 k minutes later)\n"
    "  --flow DEVICE=FILE   that device's flow, counted from 0, from a historian's export: five\n"
    "                 bytes for each interval, a quality (0 good, 1 uncertain, 2 bad) and an\n"
    "                 IEEE 754 binary32 in m3, low byte first. The record leaves the device's\n"
    "                 flow empty throughout. FILE - is standard input.\n"
    "  --help         this text\n"
    "\n"
    "A record file has one key=value line each, in this order:\n"
    "  intervals devices mine fuels, then quantity and factor for each fuel line;\n"
    "  for each device kind, flow_checks, at and drift for each of these checks,\n"
    "  ch4_checks, at and drift for each of those, then for each interval\n"
    "  flow (0.1 m3) ch4 (0.01 %) temp (0.01 degrees Celsius) press (Pa, absolute) status\n"
    "An empty flow, ch4, temp or press means missing. README.md has an example, in and out.\n"
    "\n"
    "Exit status: 0 a sheet, 1 a refusal, 2 trouble.\n";

/* A file that is longer than any record is decided by its first bytes (include/cmm.h); some more are read, so that a wrong line at
 * their end is seen whole. */
static const size_t most = CMM_RECORD_BYTES(CMM_ENTRIES_MOST) + 64;

/* The refusal that stands in the library's three lines. Gives 0 for a sheet. */
static int is_refusal(const char *answer, struct refusal *r)
{
    return sscanf(answer, "refusal=%lu device=%lu place=%lu", &r->number, &r->device, &r->place) == 3;
}

static int answer(const struct text *record, struct rows *w, const struct moment *start)
{
    char out[CMM_TEXT_MOST + 1];
    struct refusal r;
    size_t n = w->entries;
    size_t length = cmm_report(record->bytes, record->length, w->flow, n, w->content, n, w->temp, n, w->press, n, w->status, n,
                               w->outcome, n, w->flow_used, n, w->content_used, n, (uint8_t *)out);

    if (put(out, length) != YES)
        return TROUBLE;
    out[length] = '\0';
    if (!is_refusal(out, &r))
        return YES;
    say_refusal(record, &r, start);
    return NO;
}

static int refuse(const struct text *record, const struct refusal *r, const struct moment *start)
{
    int status = put_refusal(r);

    if (status == NO)
        say_refusal(record, r, start);
    return status;
}

static uint64_t quantify_rows(const struct record *r, struct rows *w, uint64_t amounts[CMM_AMOUNTS], int64_t balances[CMM_BALANCES],
                              uint64_t at[2])
{
    uint64_t accounts[CMM_ACCOUNTS];
    size_t n = w->entries, devices = r->head[1], fuels = r->head[3], checks = 2 * devices * CMM_CHECKS_MOST;

    return cmm_quantify(r->head[0], r->head[1], r->head[2], r->kinds, devices, r->counts, 2 * devices, r->positions, checks, r->drifts,
                        checks, w->flow, n, w->content, n, w->temp, n, w->press, n, w->status, n, r->quantity, fuels, r->factor, fuels,
                        w->outcome, n, w->flow_used, n, w->content_used, n, accounts, amounts, balances, at);
}

/* The same with flow from exports: the record is read, then the exports, and then the rows are quantified. */
static int answer_with(const struct flows *flows, const struct text *text, struct rows *w, const struct moment *start)
{
    struct record record;
    struct refusal r = { 0, 0, 0 };
    uint64_t at[2], amounts[CMM_AMOUNTS], size[1];
    int64_t balances[CMM_BALANCES];
    uint8_t out[CMM_TEXT_MOST];
    int status;

    r.number = record_read(text, &record, w, at);
    r.place = at[0];
    if (r.number != 0)
        return refuse(text, &r, start);
    status = flow_read(flows, text, &record, w, start);
    if (status != YES)
        return status;
    r.number = quantify_rows(&record, w, amounts, balances, at);
    r.device = at[0];
    r.place = at[1];
    if (r.number != 0)
        return refuse(text, &r, start);
    cmm_write_sheet(amounts, balances, out, sizeof out, size);
    return put(out, size[0]);
}

static int quantify(const char *name, const struct flows *flows, const struct moment *start)
{
    struct text record;
    struct rows rows;
    int status = input_read(name, most, &record);

    if (status != YES)
        return status;
    status = rows_lend(&record, &rows);
    if (status == YES) {
        status = flow_files(flows) > 0 ? answer_with(flows, &record, &rows, start) : answer(&record, &rows, start);
        rows_free(&rows);
    }
    input_free(&record);
    return status;
}

/* What an option says, of the moment at which the record begins and of the flows. Gives YES or TROUBLE. */
static int take(int option, const char *command, struct moment *start, struct flows *flows)
{
    if (option == 'f')
        return flow_take(flows, command, optarg);
    if (option == 's' && moment_read(optarg, start))
        return YES;
    if (option == 's')
        fprintf(stderr, "%s: there is no time '%s': a date and a time of day are wanted, as 2026-01-01T00:00\n", command, optarg);
    return TROUBLE;
}

int sheet_command(int argc, char **argv)
{
    static const struct option options[] = {
        { "start", required_argument, NULL, 's' },
        { "flow", required_argument, NULL, 'f' },
        { "help", no_argument, NULL, 'h' },
        { NULL, 0, NULL, 0 },
    };
    struct moment start;
    struct flows flows = { { NULL } };
    const char *record;
    int given, started = 0;

    while ((given = getopt_long(argc, argv, "h", options, NULL)) != -1) {
        if (given == 'h')
            return put_text(sheet_help);
        if (take(given, argv[0], &start, &flows) != YES)
            return misused(argv[0]);
        started |= given == 's';
    }
    if (argc - optind > 1) {
        fprintf(stderr, "%s: one record is wanted, and '%s' is one more\n", argv[0], argv[optind + 1]);
        return misused(argv[0]);
    }
    record = optind < argc ? argv[optind] : "-";
    if (flow_inputs(&flows) + (strcmp(record, "-") == 0) > 1) {
        fprintf(stderr, "%s: standard input is wanted twice\n", argv[0]);
        return misused(argv[0]);
    }
    return quantify(record, &flows, started ? &start : NULL);
}
