/* hand_rules.h: what both kinds of quantification by hand share: ranges, fuel lines, and what is left at the end. */
#ifndef HAND_RULES_H
#define HAND_RULES_H

#include "hand.h"

static inline uint64_t refuse(uint64_t at[2], uint64_t number, uint64_t device, uint64_t place)
{
    at[0] = device;
    at[1] = place;
    return number;
}

/* The mark of flow and CH4 plus one wraps to 0, so that one comparison decides. */
static inline int flow_wrong(uint16_t v) { return (uint16_t)(v + 1) > 30001; }
static inline int temp_wrong(int16_t v) { return (v < -4000 || v > 10000) && v != CMM_TEMP_MISSING; }
static inline int press_wrong(uint32_t v) { return v - 50000 > 250000 && v != CMM_PRESS_MISSING; }

/* Refusal 9; 0 if there is none. */
static inline uint64_t wrong_fuel(size_t fuels, const uint32_t *quantity, const uint32_t *factor, uint64_t at[2])
{
    if (fuels > CMM_FUELS_MOST)
        return refuse(at, 9, 0, CMM_FUELS_MOST);
    for (size_t k = 0; k < fuels; k++)
        if (quantity[k] > 1000000000 || factor[k] > 4000000)
            return refuse(at, 9, 0, k);
    return 0;
}

static inline void balance(uint64_t *amounts, int64_t *balances)
{
    const int64_t reduction = (int64_t)(amounts[CMM_BASELINE_MG] - amounts[CMM_CO2_MG] - amounts[CMM_UNCOMBUSTED_MG]
                                        - amounts[CMM_FUEL_MG]);
    const int64_t towards_zero = reduction / 1000000000, tonnes = towards_zero - (reduction % 1000000000 < 0);
    balances[CMM_REDUCTION_MG] = reduction;
    balances[CMM_TONNES] = tonnes;
    amounts[CMM_CREDITS] = tonnes < 0 ? 0 : (uint64_t)tonnes;
}

#endif
