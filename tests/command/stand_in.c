/* stand_in: the library's functions that the command calls, by the hand-written code of bench/, which nothing is proved of. With it
 * the command is built for any processor and with the compiler's sanitizers (tests/check_command). The sheet is written plainly. */
#include <stdio.h>
#include <string.h>

#include "../../bench/hand.h"

uint32_t cmm_version(void)
{
    return CMM_VERSION;
}

uint64_t cmm_read_record(
    const uint8_t *t, size_t t_length, uint32_t quantity[64], uint32_t factor[64], uint32_t kinds[16], uint32_t counts[32],
    uint32_t positions[1024], int32_t drifts[1024], uint16_t *flow, size_t flow_length, uint16_t *content, size_t content_length,
    int16_t *temp, size_t temp_length, uint32_t *press, size_t press_length, uint8_t *status, size_t status_length, uint32_t head[4],
    uint64_t line[1])
{
    return hand_read_record(t, t_length, quantity, factor, kinds, counts, positions, drifts, flow, flow_length, content,
                            content_length, temp, temp_length, press, press_length, status, status_length, head, line);
}

static size_t write_refusal(uint64_t number, uint64_t device, uint64_t place, char *text)
{
    return (size_t)sprintf(text, "refusal=%llu\ndevice=%llu\nplace=%llu\n", (unsigned long long)number, (unsigned long long)device,
                           (unsigned long long)place);
}

static size_t write_sheet(const uint64_t *amounts, const int64_t *balances, char *text)
{
    static const char *const keys[] = { "intervals", "devices", "counted", "replaced", "excluded", "methane_l", "destroyed_l",
                                        "uncombusted_l", "baseline_mg", "co2_mg", "uncombusted_mg", "fuel_mg", "credits" };
    char *at = text;
    int k;

    for (k = 0; k < CMM_CREDITS; ++k)
        at += sprintf(at, "%s=%llu\n", keys[k], (unsigned long long)amounts[k]);
    at += sprintf(at, "reduction_mg=%lld\ntonnes=%lld\n", (long long)balances[CMM_REDUCTION_MG], (long long)balances[CMM_TONNES]);
    at += sprintf(at, "credits=%llu\n", (unsigned long long)amounts[CMM_CREDITS]);
    return (size_t)(at - text);
}

size_t cmm_report(
    const uint8_t *t, size_t t_length, uint16_t *flow, size_t flow_length, uint16_t *content, size_t content_length, int16_t *temp,
    size_t temp_length, uint32_t *press, size_t press_length, uint8_t *status, size_t status_length, uint8_t *outcome,
    size_t outcome_length, uint16_t *flow_used, size_t flow_used_length, uint16_t *content_used, size_t content_used_length,
    uint8_t out[CMM_TEXT_MOST])
{
    uint32_t quantity[64], factor[64], kinds[16], counts[32], positions[1024], head[4];
    int32_t drifts[1024];
    uint64_t accounts[CMM_ACCOUNTS], amounts[CMM_AMOUNTS], at[2], line[1], number;
    int64_t balances[CMM_BALANCES];
    char text[CMM_TEXT_MOST + 1];
    size_t n, d, length;

    number = hand_read_record(t, t_length, quantity, factor, kinds, counts, positions, drifts, flow, flow_length, content,
                              content_length, temp, temp_length, press, press_length, status, status_length, head, line);
    if (number != 0)
        length = write_refusal(number, 0, line[0], text);
    else {
        d = head[1];
        n = (size_t)head[0] * d;
        number = hand_quantify(head[0], head[1], head[2], kinds, d, counts, 2 * d, positions, 64 * d, drifts, 64 * d, flow, n,
                               content, n, temp, n, press, n, status, n, quantity, head[3], factor, head[3], outcome,
                               outcome_length < n ? outcome_length : n, flow_used, flow_used_length < n ? flow_used_length : n,
                               content_used, content_used_length < n ? content_used_length : n, accounts, amounts, balances, at);
        length = number != 0 ? write_refusal(number, at[0], at[1], text) : write_sheet(amounts, balances, text);
    }
    memcpy(out, text, length);
    return length;
}

uint64_t cmm_read_flow(const uint8_t *t, size_t t_length, uint16_t *flow, size_t flow_length, uint64_t place[1])
{
    return hand_read_flow(t, t_length, flow, flow_length, place);
}

uint64_t cmm_quantify(
    uint32_t intervals, uint32_t devices, uint32_t mine, const uint32_t *kinds, size_t kinds_length, const uint32_t *counts,
    size_t counts_length, const uint32_t *positions, size_t positions_length, const int32_t *drifts, size_t drifts_length,
    const uint16_t *flow, size_t flow_length, const uint16_t *content, size_t content_length, const int16_t *temp, size_t temp_length,
    const uint32_t *press, size_t press_length, const uint8_t *status, size_t status_length, const uint32_t *quantity,
    size_t quantity_length, const uint32_t *factor, size_t factor_length, uint8_t *outcome, size_t outcome_length,
    uint16_t *flow_used, size_t flow_used_length, uint16_t *content_used, size_t content_used_length,
    uint64_t accounts[CMM_ACCOUNTS], uint64_t amounts[CMM_AMOUNTS], int64_t balances[CMM_BALANCES], uint64_t at[2])
{
    return hand_quantify(intervals, devices, mine, kinds, kinds_length, counts, counts_length, positions, positions_length, drifts,
                         drifts_length, flow, flow_length, content, content_length, temp, temp_length, press, press_length, status,
                         status_length, quantity, quantity_length, factor, factor_length, outcome, outcome_length, flow_used,
                         flow_used_length, content_used, content_used_length, accounts, amounts, balances, at);
}

/* For the command, whose buffer is never too short. */
uint64_t cmm_write_sheet(const uint64_t amounts[CMM_AMOUNTS], const int64_t balances[CMM_BALANCES], uint8_t *buf, size_t buf_length,
                         uint64_t size[1])
{
    char text[CMM_TEXT_MOST + 1];

    size[0] = write_sheet(amounts, balances, text);
    if (size[0] > buf_length)
        return 11;
    memcpy(buf, text, size[0]);
    return 0;
}
