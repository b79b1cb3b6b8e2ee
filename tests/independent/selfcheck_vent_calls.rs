//! The part of the self-check about calls of ventilation air: lengths, both sides of each range with its number, which
//! of several decides, a second time by definition; and that a run of the least length meets all that is wanted.

use crate::compare::ENOUGH;
use crate::compare_ventilation::{kinds, wanted};
use crate::refusal::Refusal;
use crate::rng::Rng;
use crate::selfcheck::Checks;
use crate::selfcheck_calls::FUEL;
use crate::selfcheck_vent::worked;
use crate::vent_borders::{solved, BORDERS};
use crate::vent_call::{VentCall, FACTOR, QUANTITY, SERIES, SLICES, STATUS};
use crate::vent_quantify::quantify_ventilation;
use crate::vent_reading_kinds::{number_of, pairs, wrong_series};
use crate::vent_refusals::{before_readings, fuels};
use crate::vent_wrong_readings::{blocks, few, FEW, IN_BLOCKS};
use crate::{vent_calls, vent_lost, vent_methane, vent_missing, vent_told, vent_wrong_calls};
use std::collections::BTreeSet;

pub fn run(checks: &mut Checks) {
    lengths(checks);
    ranges(checks);
    one_interval(checks);
    several_intervals(checks);
    order(checks);
    decided(checks);
    accepted(checks);
    borders(checks);
    for seed in 0..4 {
        least_run(checks, seed);
    }
}

/// Number, device and place; three times 0 where nothing is refused.
fn answer(call: &VentCall) -> (u32, u64, u64) {
    quantify_ventilation(call).err().map_or((0, 0, 0), |refusal| (refusal.number, refusal.device, refusal.place))
}

fn lengths(checks: &mut Checks) {
    let right = worked(3, 2, &[FUEL]);
    checks.same("right lengths", right.lengths(), [6, 6, 6, 6, 6, 6, 6, 6, 6, 1, 1, 6]);
    checks.same("right lengths", answer(&right), (0, 0, 0));
    for slice in 0..SLICES.len() {
        for length in [0, right.lengths()[slice] - 1, right.lengths()[slice] + 1, 3, 1 << 32, usize::MAX] {
            let mut call = right.clone();
            call.told.push((slice, length));
            checks.same(SLICES[slice], answer(&call), (3, 0, 0));
        }
    }
    let mut call = right.clone();
    call.told = vec![(QUANTITY, 65), (FACTOR, 65)];
    checks.same("65 fuel lines", answer(&call), (9, 0, 64));
    call.told = vec![(QUANTITY, 65), (FACTOR, 64)];
    checks.same("65 quantities, 64 factors", answer(&call), (3, 0, 0));
    checks.same("64 fuel lines", answer(&worked(1, 1, &[FUEL; 64])), (0, 0, 0));
    checks.same("no fuel lines", answer(&worked(1, 1, &[])), (0, 0, 0));
    checks.same("16 devices", answer(&worked(1, 16, &[])), (0, 0, 0));
    checks.same("17 devices", answer(&worked(1, 17, &[])), (2, 0, 0));
    checks.same("a year", answer(&worked(35_136, 1, &[])), (0, 0, 0));
    checks.same("a year and a quarter of an hour", answer(&worked(35_137, 1, &[])), (1, 0, 0));
    checks.same("nothing", answer(&VentCall::default()), (1, 0, 0));
    let other = VentCall { intervals: 2, devices: 3, ..right };
    checks.same("as many entries otherwise", answer(&other), (0, 0, 0));
}

/// Right and wrong values of flow, ppm, temperature, pressure and status.
const VALUES: [(&[i64], &[i64]); 5] = [
    (&[0, 30_000, 65_535], &[30_001, 32_768, 65_534]),
    (&[0, 10_001, 20_000, 65_535], &[20_001, 30_000, 32_768, 65_534]),
    (&[-4_000, 10_000, -32_768], &[-4_001, 10_001, -32_767, 32_767]),
    (&[50_000, 300_000, 0], &[49_999, 300_001, 1, 65_535, 4_294_967_295]),
    (&[0, 1, 2, 3], &[4, 5, 127, 128, 255]),
];

fn values_of(series: usize) -> (&'static [i64], &'static [i64]) {
    if series == STATUS {
        VALUES[4]
    } else {
        VALUES[series % 4]
    }
}

/// The ends of each range and the missing mark are right, what lies beside them is not; of 65,535 Pa it is.
fn ranges(checks: &mut Checks) {
    for series in 0..SERIES {
        let (right, wrong) = values_of(series);
        for (device, interval) in [(0, 0), (0, 2), (1, 0), (1, 1), (1, 2)] {
            let with = |value: i64, status: i64| {
                let mut call = worked(3, 2, &[FUEL]);
                call.put_value(3 * device + interval, STATUS, status);
                call.put_value(3 * device + interval, series, value);
                answer(&call)
            };
            for &value in right {
                checks.same(&format!("{value} is right in {}", SLICES[series]), with(value, 1), (0, 0, 0));
            }
            for (&value, status) in wrong.iter().flat_map(|value| (0..4).map(move |status| (value, status))) {
                if series % 4 == 3 && value == 65_535 {
                    checks.same("65,535 Pa", with(value, status), (0, 0, 0));
                    continue;
                }
                let wanted = (number_of(series), device as u64, interval as u64);
                checks.same(&format!("{value} is wrong in {}", SLICES[series]), with(value, status), wanted);
            }
        }
    }
}

/// A value that is wrong in the series, just outside its range.
fn wrong(series: usize) -> i64 {
    values_of(series).1[0]
}

/// The answer to three intervals of two devices, with such readings wrong: series, device, interval.
fn with_wrong(readings: &[(usize, usize, usize)]) -> (u32, u64, u64) {
    let mut call = worked(3, 2, &[FUEL]);
    for &(series, device, interval) in readings {
        call.put_value(3 * device + interval, series, wrong(series));
    }
    answer(&call)
}

/// Every set of the nine series: the inlet decides, then the exhaust, then the status.
fn one_interval(checks: &mut Checks) {
    for set in 1..512_u32 {
        let wrong: Vec<(usize, usize, usize)> =
            (0..SERIES).filter(|series| set >> series & 1 == 1).map(|series| (series, 1, 1)).collect();
        let number = match set {
            _ if set & 0x00F > 0 => 22,
            _ if set & 0x0F0 > 0 => 23,
            _ => 21,
        };
        checks.same("several in one interval", with_wrong(&wrong), (number, 1, 1));
    }
}

/// The first device-interval decides, not the lowest number and not the order of the series.
fn several_intervals(checks: &mut Checks) {
    checks.same("status, then inlet", with_wrong(&[(STATUS, 0, 0), (0, 0, 1)]), (21, 0, 0));
    checks.same("inlet, then status", with_wrong(&[(STATUS, 0, 1), (0, 0, 0)]), (22, 0, 0));
    checks.same("exhaust, then inlet and status", with_wrong(&[(7, 0, 1), (0, 0, 2), (STATUS, 0, 2)]), (23, 0, 1));
    checks.same("status, then a later device's inlet", with_wrong(&[(STATUS, 0, 2), (0, 1, 0)]), (21, 0, 2));
    let both_ways = pairs().into_iter().flat_map(|(one, other)| [(one, other), (other, one)]);
    for (first, other) in both_ways.chain((0..SERIES).map(|series| (series, series))) {
        let number = number_of(first);
        checks.same("the earlier interval", with_wrong(&[(first, 1, 0), (other, 1, 2)]), (number, 1, 0));
        checks.same("the earlier device", with_wrong(&[(first, 0, 2), (other, 1, 2)]), (number, 0, 2));
        checks.same("the device, not the interval", with_wrong(&[(first, 0, 2), (other, 1, 0)]), (number, 0, 2));
    }
}

/// Everything is wrong; what is mended makes way for the next number.
fn order(checks: &mut Checks) {
    let mut call = worked(3, 2, &[FUEL, FUEL]);
    call.factor[1] = 4_000_001;
    checks.same("fuel", answer(&call), (9, 0, 1));
    call.quantity[0] = 1_000_000_001;
    checks.same("an earlier line", answer(&call), (9, 0, 0));
    call.put_value(5, 3, 1);
    checks.same("22 before 9", answer(&call), (22, 1, 2));
    call.put_value(5, STATUS, 0);
    checks.same("22 though stopped", answer(&call), (22, 1, 2));
    call.put_value(4, STATUS, 4);
    checks.same("21 of an earlier interval before 22", answer(&call), (21, 1, 1));
    call.put_value(4, 5, 20_001);
    checks.same("23 before 21", answer(&call), (23, 1, 1));
    call.row += 1;
    checks.same("3 before 23", answer(&call), (3, 0, 0));
    call.devices = 17;
    checks.same("2 before 3", answer(&call), (2, 0, 0));
    call.intervals = 0;
    checks.same("1 before 2", answer(&call), (1, 0, 0));
}

/// Of all wrong readings the least one by device, interval and series; then fuel.
fn by_definition(call: &VentCall) -> Option<Refusal> {
    let n = call.intervals as usize;
    let wrong = (0..call.entries()).flat_map(|entry| {
        let own = wrong_series(call.interval(entry)).collect::<Vec<usize>>();
        own.into_iter().map(move |series| (entry / n, entry % n, series))
    });
    let first = wrong.min().map(|(device, interval, series)| Refusal::new(number_of(series), device, interval));
    first.or_else(|| fuels(call))
}

/// Every class of calls that are refused answers as by definition.
fn decided(checks: &mut Checks) {
    let makers: [(fn(&Rng, usize) -> VentCall, usize); 6] = [
        (few, FEW),
        (blocks, IN_BLOCKS),
        (vent_wrong_calls::one, 200),
        (vent_wrong_calls::pairs, 42),
        (vent_wrong_calls::rival_readings, 200),
        (vent_wrong_calls::rival_fuels, 100),
    ];
    for (make, cases) in makers {
        for case in 0..cases {
            let call = make(&Rng::new(30, case as u64), case);
            if before_readings(&call).is_none() {
                checks.same("by definition", quantify_ventilation(&call).err(), by_definition(&call));
            }
        }
    }
}

/// What is made to be accepted is.
fn accepted(checks: &mut Checks) {
    let makers: [fn(&Rng, usize) -> VentCall; 4] = [
        vent_methane::methane_borders,
        vent_missing::missing_readings,
        vent_lost::lost_by_rounding,
        vent_told::wrong_programs,
    ];
    for (k, make) in makers.into_iter().enumerate() {
        for case in 0..120 {
            let call = make(&Rng::new(31 + k as u64, case as u64), case);
            checks.same("accepted", answer(&call), (0, 0, 0));
        }
    }
}

/// Where each border is solved for, and that a litre there changes what it should.
fn borders(checks: &mut Checks) {
    let rng = Rng::new(35, 0);
    for border in &BORDERS {
        for change in 0..2 {
            for _ in 0..4 {
                let one = solved(&rng, border, change);
                checks.same(&border.name(change), border.shown(one), Some(change));
                checks.same("in range", answer(&VentCall::of(1, &[one], &[])), (0, 0, 0));
            }
        }
    }
}

/// As many calls as must have met every kind do meet it.
fn least_run(checks: &mut Checks, seed: u64) {
    let mut met = BTreeSet::new();
    for number in 0..ENOUGH {
        let generated = vent_calls::generate(seed, number);
        met.extend(kinds(&generated, &quantify_ventilation(&generated.call)));
    }
    let lacking: Vec<String> = wanted().into_iter().filter(|kind| !met.contains(kind)).collect();
    checks.same("kinds that a run lacks", lacking, vec![]);
}
