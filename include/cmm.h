/* cmm.h: destroyed coal-mine methane quantified by Quebec Protocol 4, as C functions. C99, x86-64 Linux, no C library needed but memset.
 *
 * Link target/staticlib/libcmm.a, which `rt lib` makes of crates/cmm (host/build does it, and builds a program with it).
 * What each function does is proved for every call that keeps to what is asked of the host: crates/cmm/src/lib.rt has the
 * contracts, crates/cmm/specs/ their words. This header is not part of any proof.
 *
 * What is asked of the host
 * - A pointer is not null, not even for an array of length 0, is aligned for its type, and stays valid for its whole array as
 *   long as the call takes. A length counts entries, not bytes.
 * - An array that a call may write (a pointer without const) overlaps no other array of that call, and no other thread uses it
 *   meanwhile. Arrays that are only read may overlap each other, and no other thread may write them meanwhile.
 * That is all. Any numbers, any bytes and any lengths have an answer; a wrong length is refused, never read or written past.
 *
 * What the host gets
 * - No function allocates, does input or output, keeps anything between two calls, or calls anything outside the archive but memset.
 *   Two threads may call at the same time, with arrays of their own. Every call ends.
 * - Each writes what is said of it below and no other byte. By its frames cmm_report takes 11.7 KB of stack,
 *   whatever the lengths.
 *
 * Refusals. Each function but cmm_version and cmm_report gives the number, 0 where nothing is refused; cmm_report writes it as
 * text.
 *
 *   no.  when                                                            given by
 *    1   intervals not in 1 .. 35,136                                    both quantifications, cmm_read_record
 *    2   devices not in 1 .. 16                                          both quantifications, cmm_read_record
 *    3   an array is not exactly as long as intervals and devices ask,
 *        or quantity and factor differ in length                         both quantifications
 *    4   mine not 0 or 1                                                 cmm_quantify
 *    5   a kind not in 1 .. 6                                            cmm_quantify
 *    6   kind 6 underground                                              cmm_quantify
 *    7   a check's count, position or drift is wrong                     cmm_quantify
 *    9   more than 64 fuel lines, or a fuel number above its range       both quantifications
 *   10   the text is no sheet                                            cmm_read_sheet
 *   11   the buffer is too short for the sheet                           cmm_write_sheet
 *   12   a line of the record file is wrong                              cmm_read_record
 *   13   the record has more entries than the shortest row lent for it   cmm_read_record
 *   14   the export is not five times as long as the row                 cmm_read_flow
 *   15   a sample's quality is not 0, 1 or 2                             cmm_read_flow
 *   16   a good sample's reading is no number, below 0 or above 3,000    cmm_read_flow
 *   17   a flow is neither in its range nor its missing mark             cmm_quantify
 *   18   a CH4 content is neither in its range nor its missing mark      cmm_quantify
 *   19   a temperature is neither in its range nor its missing mark      cmm_quantify
 *   20   a pressure is neither in its range nor its missing mark         cmm_quantify
 *   21   a status is not in its range                                    both quantifications
 *   22   an inlet reading is neither in its range nor its missing mark    cmm_quantify_ventilation
 *   23   an exhaust reading is neither in its range nor its missing mark  cmm_quantify_ventilation
 *
 * Both quantifications are cmm_quantify and cmm_quantify_ventilation. The first tests 1 to 7, then 17 to 21, then 9, and gives the first
 * that applies; the second 1 to 3, then 22, 23 and 21, then 9. 17 to 21 are one test: of the first device and
 * interval that has a wrong reading the first wrong one, in the order of these numbers, is given. 8 was any wrong reading's up to
 * version 3 and is never given again. cmm_read_flow tests 14 and then sample after sample.
 */
#ifndef CMM_H
#define CMM_H

#include <stddef.h>
#include <stdint.h>

/* The version of this header: the number of the latest note in docs/landings. cmm_version() gives the library's own, and a host that
 * finds the two different must not call it: arrays may have other lengths. README.md lists the versions that changed figures. */
#define CMM_VERSION 8

#ifdef __cplusplus
extern "C" {
#endif

enum {
    CMM_INTERVALS_MOST = 35136, /* quarter-hours of a leap year */
    CMM_DEVICES_MOST = 16,
    CMM_ENTRIES_MOST = 35136 * 16, /* a row that has room for every record */
    CMM_FUELS_MOST = 64,
    CMM_CHECKS_MOST = 32, /* of one instrument */
    CMM_TEXT_MOST = 465,  /* bytes of a sheet, or of a refusal's three lines */
    CMM_SAMPLE = 5        /* bytes of a historian's sample */
};

/* The ranges of what a record says (a reading that is missing has its mark instead, below). Check positions go to the number of
 * intervals, kinds from 1. */
enum {
    CMM_MINE_MOST = 1,
    CMM_KIND_MOST = 6,
    CMM_FLOW_MOST = 30000,
    CMM_CONTENT_MOST = 10000,
    CMM_PPM_MOST = 20000, /* of ventilation air */
    CMM_TEMP_LEAST = -4000,
    CMM_TEMP_MOST = 10000,
    CMM_PRESS_LEAST = 50000,
    CMM_PRESS_MOST = 300000,
    CMM_STATUS_MOST = 3,
    CMM_DRIFT_LEAST = -9000,
    CMM_DRIFT_MOST = 20000,
    CMM_QUANTITY_MOST = 1000000000,
    CMM_FACTOR_MOST = 4000000,
    CMM_QUALITY_MOST = 2,   /* of a historian's sample */
    CMM_READING_MOST = 3000 /* m3, of a good one */
};

/* No record file for rows of n entries is longer than this, in bytes. A longer text is refused whatever follows, and so are its
 * first CMM_RECORD_BYTES(n) + 1 bytes, with the same answer: a host need not read more. */
#define CMM_RECORD_BYTES(n) ((size_t)61 * (n) + 35972)

/* Missing marks of the series. A status has none: 3 says that there is no thermocouple record. */
#define CMM_FLOW_MISSING UINT16_C(65535)
#define CMM_CONTENT_MISSING UINT16_C(65535)
#define CMM_PPM_MISSING UINT16_C(65535)
#define CMM_TEMP_MISSING INT16_MIN
#define CMM_PRESS_MISSING UINT32_C(0)

/* The figures of a sheet stand in two arrays, `amounts` those that are never negative, `balances` the others. */
enum {
    CMM_INTERVALS,
    CMM_DEVICES,
    CMM_COUNTED,
    CMM_REPLACED,
    CMM_EXCLUDED,
    CMM_METHANE_L,
    CMM_DESTROYED_L,
    CMM_UNCOMBUSTED_L,
    CMM_BASELINE_MG,
    CMM_CO2_MG,
    CMM_UNCOMBUSTED_MG,
    CMM_FUEL_MG,
    CMM_CREDITS,
    CMM_AMOUNTS
};
enum { CMM_REDUCTION_MG, CMM_TONNES, CMM_BALANCES };

/* A device's account: how many of its intervals have each outcome, 0 to 9, then its litres. Device d's number k stands in
 * `accounts` at CMM_ACCOUNT * d + k. */
enum {
    CMM_OUTCOMES = 10,
    CMM_ACCOUNT_METHANE_L = CMM_OUTCOMES,
    CMM_ACCOUNT_DESTROYED_L,
    CMM_ACCOUNT_UNCOMBUSTED_L,
    CMM_ACCOUNT,                                /* 13 */
    CMM_ACCOUNTS = CMM_DEVICES_MOST * CMM_ACCOUNT /* 208 */
};

/* The library's version. */
uint32_t cmm_version(void);

/* Quantifies the records of a reporting period. With N intervals and D devices:
 *
 *   mine          0 underground, 1 surface
 *   kinds         D: 1 open flare, 2 enclosed flare, 3 engine, 4 boiler, 5 turbine, 6 upgrade and injection
 *   counts        2 D: checks of device 0's flow instrument, of its CH4 instrument, of device 1's flow instrument, ..; 0 .. 32
 *   positions     64 D: 32 for each instrument in that order; where a check stands, 0 .. N, before that interval; increasing
 *   drifts        64 D: the drift found there, 0.01 %, -9,000 .. 20,000, positive where the instrument reads high
 *                 Entries of positions and drifts past an instrument's count are not looked at.
 *   flow          D N, device 0's intervals first: 0.1 m3, 0 .. 30,000, or CMM_FLOW_MISSING
 *   content       D N: CH4, 0.01 % by volume, 0 .. 10,000, or CMM_CONTENT_MISSING
 *   temp          D N: 0.01 degrees Celsius, -4,000 .. 10,000, or CMM_TEMP_MISSING
 *   press         D N: absolute, Pa, 50,000 .. 300,000, or CMM_PRESS_MISSING
 *   status        D N: 0 stopped, 1 running, 2 running and normal operation attested, 3 no thermocouple record
 *   quantity      0 .. 64 fuel lines: thousandths of a unit, 0 .. 1,000,000,000
 *   factor        as many: grams CO2 per unit, 0 .. 4,000,000
 *   outcome       D N, written: 0 both measured, 1 flow replaced, 2 CH4 replaced, 3 .. 9 why the interval is excluded
 *   flow_used     D N, written: the flow that counts, 0 where the interval is excluded
 *   content_used  D N, written: the CH4 content that counts, 0 where the interval is excluded
 *   accounts      written: each device's account, CMM_ACCOUNT numbers for each of the D devices, device 0 first. The ten counts add
 *                 to N, destroyed and uncombusted litres to the methane's. The entries past D accounts stay as they are.
 *   amounts, balances   written: the sheet's figures
 *   at            written, always: the device and the place of what is refused, 0 and 0 where nothing is. The place is the interval
 *                 for 17 to 21, the entry for 7 and 9 (32 or 64 for a wrong count), else 0. The device is 0 for 1 to 4 and for 9.
 *
 * Gives the refusal's number, 1 to 7, 9 or 17 to 21, or 0. A refused call writes `at` and nothing else. */
uint64_t cmm_quantify(
    uint32_t intervals, uint32_t devices, uint32_t mine,
    const uint32_t *kinds, size_t kinds_length,
    const uint32_t *counts, size_t counts_length,
    const uint32_t *positions, size_t positions_length,
    const int32_t *drifts, size_t drifts_length,
    const uint16_t *flow, size_t flow_length,
    const uint16_t *content, size_t content_length,
    const int16_t *temp, size_t temp_length,
    const uint32_t *press, size_t press_length,
    const uint8_t *status, size_t status_length,
    const uint32_t *quantity, size_t quantity_length,
    const uint32_t *factor, size_t factor_length,
    uint8_t *outcome, size_t outcome_length,
    uint16_t *flow_used, size_t flow_used_length,
    uint16_t *content_used, size_t content_used_length,
    uint64_t accounts[CMM_ACCOUNTS], uint64_t amounts[CMM_AMOUNTS], int64_t balances[CMM_BALANCES], uint64_t at[2]);

/* Quantifies the records of oxidisers for ventilation air. With N intervals and D devices, of each device two streams, what enters it
 * and what leaves it:
 *
 *   inlet_flow, exhaust_flow     D N, device 0's intervals first: 10 m3, 0 .. 30,000, or CMM_FLOW_MISSING
 *   inlet_ppm, exhaust_ppm       D N: CH4, ppm by volume, 0 .. 20,000, or CMM_PPM_MISSING
 *   inlet_temp, exhaust_temp     D N: 0.01 degrees Celsius, -4,000 .. 10,000, or CMM_TEMP_MISSING
 *   inlet_press, exhaust_press   D N: absolute, Pa, 50,000 .. 300,000, or CMM_PRESS_MISSING
 *   status        D N: 0 stopped, 1 or 2 running, 3 no record
 *   quantity, factor             fuel lines, as for cmm_quantify
 *   outcome       D N, written: 0 counted, 3 stopped, 4 no record of status, 5 a reading missing, 6 more methane out than in; the first
 *                 of 3 to 6 that applies. Nothing is replaced.
 *   accounts      written: each device's account, as for cmm_quantify; its litres are the inlet's methane, what is destroyed, and the
 *                 exhaust's methane (in the place of the uncombusted). Inlet is destroyed and exhaust.
 *   amounts, balances   written: the sheet's figures. CMM_METHANE_L is the inlet's, CMM_UNCOMBUSTED_L the exhaust's, CMM_REPLACED 0.
 *   at            written, always: the device and the place of what is refused, 0 and 0 where nothing is. The place is the interval
 *                 for 21 to 23, the entry for 9 (64 for too many lines), else 0. The device is 0 for 1 to 3 and for 9.
 *
 * An interval's litres round down for the inlet and up for the exhaust, so the same readings in both streams are outcome 6 in nearly
 * every case. Gives the refusal's number, 1 to 3, 9 or 21 to 23, or 0. A refused call writes `at` and nothing else. */
uint64_t cmm_quantify_ventilation(
    uint32_t intervals, uint32_t devices,
    const uint16_t *inlet_flow, size_t inlet_flow_length,
    const uint16_t *inlet_ppm, size_t inlet_ppm_length,
    const int16_t *inlet_temp, size_t inlet_temp_length,
    const uint32_t *inlet_press, size_t inlet_press_length,
    const uint16_t *exhaust_flow, size_t exhaust_flow_length,
    const uint16_t *exhaust_ppm, size_t exhaust_ppm_length,
    const int16_t *exhaust_temp, size_t exhaust_temp_length,
    const uint32_t *exhaust_press, size_t exhaust_press_length,
    const uint8_t *status, size_t status_length,
    const uint32_t *quantity, size_t quantity_length,
    const uint32_t *factor, size_t factor_length,
    uint8_t *outcome, size_t outcome_length,
    uint64_t accounts[CMM_ACCOUNTS], uint64_t amounts[CMM_AMOUNTS], int64_t balances[CMM_BALANCES], uint64_t at[2]);

/* Writes a sheet's text, fifteen key=value lines, of any figures, at the start of `buf`, and changes no byte after its end.
 * `size` gets the length written. A buffer of CMM_TEXT_MOST bytes is never too short; if it is, nothing is written, `size` gets
 * the length needed and the answer is 11. Gives 11 or 0. */
uint64_t cmm_write_sheet(
    const uint64_t amounts[CMM_AMOUNTS], const int64_t balances[CMM_BALANCES],
    uint8_t *buf, size_t buf_length, uint64_t size[1]);

/* Reads a sheet. Form and 64-bit range are checked, the sums are not. `offset` gets 0, or for a text that is no sheet the offset of
 * its first byte that no sheet could have there (its length, if it stops short); then the figures are left as they are.
 * Gives 10 or 0. */
uint64_t cmm_read_sheet(
    const uint8_t *t, size_t t_length,
    uint64_t amounts[CMM_AMOUNTS], int64_t balances[CMM_BALANCES], uint64_t offset[1]);

/* Reads a record file into arrays laid out as cmm_quantify wants them: kinds, counts, positions and drifts of device d at d, 2 d,
 * 64 d and 64 d, its readings at d N. A missing reading becomes its mark. `head` gets intervals, devices, mine and the number of
 * fuel lines. `line` gets 0, or for 12 the number, from 1, of the first wrong line (one past the last if lines are lacking).
 *
 * Gives 0, 1, 2, 12 or 13; what cmm_quantify refuses is not looked at here. Refused with 1, 2 or 13, the call writes `line` only.
 * Refused with 12, it leaves the entries of the lines before the wrong one in the arrays, and `head` as it was. In no case is an
 * entry changed that no line of the file is for. */
uint64_t cmm_read_record(
    const uint8_t *t, size_t t_length,
    uint32_t quantity[64], uint32_t factor[64],
    uint32_t kinds[16], uint32_t counts[32], uint32_t positions[1024], int32_t drifts[1024],
    uint16_t *flow, size_t flow_length,
    uint16_t *content, size_t content_length,
    int16_t *temp, size_t temp_length,
    uint32_t *press, size_t press_length,
    uint8_t *status, size_t status_length,
    uint32_t head[4], uint64_t line[1]);

/* Reads a historian's export of one device's flow into a row that cmm_quantify takes: five bytes a sample, a byte of quality
 * (0 good, 1 uncertain, 2 bad) and then an IEEE 754 binary32 in m3, low byte first. With a row of n entries the export has 5 n bytes,
 * and sample k is entry k's. A good sample becomes ten times its reading's exact value, rounded down, so 0.1 m3 as ever; minus zero
 * is 0. An uncertain or a bad one becomes CMM_FLOW_MISSING, whatever its four bytes are. n may be 0.
 *
 * `place` gets 0, or for 15 and 16 the number, from 0, of the first sample that is refused. Refused, the call leaves the row as it
 * was; otherwise it writes every entry, each in 0 .. CMM_FLOW_MOST or CMM_FLOW_MISSING. Gives 0, 14, 15 or 16. */
uint64_t cmm_read_flow(const uint8_t *t, size_t t_length, uint16_t *flow, size_t flow_length, uint64_t place[1]);

/* The whole job: reads a record file, quantifies it and writes its sheet, or the refusal as three lines
 * (refusal=NUMBER, device=NUMBER, place=NUMBER), at the start of `out`; no byte after its end is changed. Gives the length written.
 * A text that begins with `refusal=` is a refusal.
 *
 * The rows are room to work in, and what stood in them does not matter. They may have any lengths: the shortest of the first five
 * says how many entries, N times D, a record may have (13), and a result row shorter than the record's own N times D is refused
 * with 3. Afterwards the first N times D entries hold what cmm_read_record and cmm_quantify leave; entries past them are unchanged. */
size_t cmm_report(
    const uint8_t *t, size_t t_length,
    uint16_t *flow, size_t flow_length,
    uint16_t *content, size_t content_length,
    int16_t *temp, size_t temp_length,
    uint32_t *press, size_t press_length,
    uint8_t *status, size_t status_length,
    uint8_t *outcome, size_t outcome_length,
    uint16_t *flow_used, size_t flow_used_length,
    uint16_t *content_used, size_t content_used_length,
    uint8_t out[CMM_TEXT_MOST]);

#ifdef __cplusplus
}
#endif

#endif
