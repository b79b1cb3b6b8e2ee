/* hand.h: the work of cmm_quantify, cmm_quantify_ventilation, cmm_read_record and cmm_read_flow once more, written by
 * hand in C from the rules and proved by nothing. bench/run measures the proved library against it. Arguments, answers
 * and what is written are those of include/cmm.h. */
#ifndef HAND_H
#define HAND_H

#include "../include/cmm.h"

uint64_t hand_quantify(
    uint32_t intervals, uint32_t devices, uint32_t mine,
    const uint32_t *kinds, size_t kinds_length,
    const uint32_t *counts, size_t counts_length,
    const uint32_t *places, size_t places_length,
    const int32_t *drifts, size_t drifts_length,
    const uint16_t *flow, size_t flow_length,
    const uint16_t *content, size_t content_length,
    const int16_t *temp, size_t temp_length,
    const uint32_t *press, size_t press_length,
    const uint8_t *status, size_t status_length,
    const uint32_t *quantity, size_t quantity_length,
    const uint32_t *factor, size_t factor_length,
    uint8_t *outcome, size_t outcome_length,
    uint16_t *flow_used, size_t flow_used_length,
    uint16_t *content_used, size_t content_used_length,
    uint64_t accounts[CMM_ACCOUNTS], uint64_t amounts[CMM_AMOUNTS], int64_t balances[CMM_BALANCES], uint64_t at[2]);

uint64_t hand_quantify_ventilation(
    uint32_t intervals, uint32_t devices,
    const uint16_t *inlet_flow, size_t inlet_flow_length,
    const uint16_t *inlet_ppm, size_t inlet_ppm_length,
    const int16_t *inlet_temp, size_t inlet_temp_length,
    const uint32_t *inlet_press, size_t inlet_press_length,
    const uint16_t *exhaust_flow, size_t exhaust_flow_length,
    const uint16_t *exhaust_ppm, size_t exhaust_ppm_length,
    const int16_t *exhaust_temp, size_t exhaust_temp_length,
    const uint32_t *exhaust_press, size_t exhaust_press_length,
    const uint8_t *status, size_t status_length,
    const uint32_t *quantity, size_t quantity_length,
    const uint32_t *factor, size_t factor_length,
    uint8_t *outcome, size_t outcome_length,
    uint64_t accounts[CMM_ACCOUNTS], uint64_t amounts[CMM_AMOUNTS], int64_t balances[CMM_BALANCES], uint64_t at[2]);

uint64_t hand_read_record(
    const uint8_t *t, size_t t_length,
    uint32_t quantity[64], uint32_t factor[64],
    uint32_t kinds[16], uint32_t counts[32], uint32_t places[1024], int32_t drifts[1024],
    uint16_t *flow, size_t flow_length,
    uint16_t *content, size_t content_length,
    int16_t *temp, size_t temp_length,
    uint32_t *press, size_t press_length,
    uint8_t *status, size_t status_length,
    uint32_t head[4], uint64_t line[1]);

uint64_t hand_read_flow(const uint8_t *t, size_t t_length, uint16_t *flow, size_t flow_length, uint64_t place[1]);

#endif
