/* Quantifies one quarter-hour of one oxidiser and prints its sheet: 300,000 m3 of ventilation air with 10,000 ppm of CH4 in and
 * 100 ppm out, at 20.00 degrees Celsius and 101,325 Pa, and 700 kg of CO2 from fuel. Build and run: host/build --run FILE */
#include <inttypes.h>
#include <stdio.h>

#include "../include/cmm.h"

static const uint16_t inlet_flow[] = {30000}, inlet_ppm[] = {10000}, exhaust_flow[] = {30000}, exhaust_ppm[] = {100};
static const int16_t inlet_temp[] = {2000}, exhaust_temp[] = {2000};
static const uint32_t inlet_press[] = {101325}, exhaust_press[] = {101325};
static const uint8_t status[] = {1};
static const uint32_t quantity[] = {1000}, factor[] = {700000};

int main(void)
{
    uint8_t outcome[1], sheet[CMM_TEXT_MOST];
    uint64_t accounts[CMM_ACCOUNTS], amounts[CMM_AMOUNTS], at[2], size[1], refusal;
    int64_t balances[CMM_BALANCES];
    if (cmm_version() != CMM_VERSION)
        return 2;
    refusal = cmm_quantify_ventilation(
        1, 1, inlet_flow, 1, inlet_ppm, 1, inlet_temp, 1, inlet_press, 1, exhaust_flow, 1, exhaust_ppm, 1, exhaust_temp, 1,
        exhaust_press, 1, status, 1, quantity, 1, factor, 1, outcome, 1, accounts, amounts, balances, at);
    if (refusal != 0) {
        printf("refusal=%" PRIu64 "\ndevice=%" PRIu64 "\nplace=%" PRIu64 "\n", refusal, at[0], at[1]);
        return 1;
    }
    cmm_write_sheet(amounts, balances, sheet, sizeof sheet, size);
    return fwrite(sheet, 1, size[0], stdout) == size[0] ? 0 : 2;
}
