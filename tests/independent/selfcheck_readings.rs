//! The part of the self-check about wrong readings: both sides of each range with its number, and which of several
//! decides (rules 4.17 to 4.21 and 5.8 of docs/RULES.md), a second time by definition; and that every kind of case that
//! a long run must meet has its turn.

use crate::call::Call;
use crate::quantify::quantify;
use crate::reading_kinds::{of_call, wanted, wanted_of_blocks};
use crate::record::Record;
use crate::refusal::is_given;
use crate::refusals::READINGS;
use crate::rng::Rng;
use crate::selfcheck::Checks;
use crate::selfcheck_calls::{answer, worked, FUEL};
use crate::wrong_readings::{blocks, few, BLOCKS, FEW};
use std::collections::BTreeSet;

pub fn run(checks: &mut Checks) {
    numbers(checks);
    ranges(checks);
    one_interval(checks);
    several_intervals(checks);
    other_steps(checks);
    for seed in 0..20 {
        in_turn(checks, seed, FEW, few, &wanted());
    }
    for seed in 0..3 {
        in_turn(checks, seed, BLOCKS, blocks, &wanted_of_blocks());
    }
}

/// 8 is given up.
fn numbers(checks: &mut Checks) {
    let given: Vec<u64> = (0..30).filter(|&number| is_given(number)).collect();
    let wanted = [1, 2, 3, 4, 5, 6, 7, 9, 10, 11, 12, 13, 14, 15, 16, 17, 18, 19, 20, 21, 22, 23];
    checks.same("the numbers that are given", given, wanted.to_vec());
}

/// Puts a value into an entry of the series that has this number.
fn put(call: &mut Call, number: u32, entry: usize, value: i64) {
    match number {
        17 => call.flow[entry] = value as u16,
        18 => call.content[entry] = value as u16,
        19 => call.temp[entry] = value as i16,
        20 => call.press[entry] = value as u32,
        _ => call.status[entry] = value as u8,
    }
}

/// A value that is wrong in the series with this number, just outside its range.
fn wrong(number: u32) -> i64 {
    match number {
        17 => 30_001,
        18 | 19 => 10_001,
        20 => 49_999,
        _ => 4,
    }
}

/// The answer to three intervals of two devices, with such readings wrong: number of the series, device, interval.
fn with_wrong(readings: &[(u32, usize, usize)]) -> (u32, u64, u64) {
    let mut call = worked(3, 2, &[FUEL]);
    for &(number, device, interval) in readings {
        put(&mut call, number, 3 * device + interval, wrong(number));
    }
    answer(&call)
}

/// The ends of each range and the missing mark are right, what lies beside them is not.
fn ranges(checks: &mut Checks) {
    let of_series: [(u32, &[i64], &[i64]); 5] = [
        (17, &[0, 30_000, 65_535], &[30_001, 65_534]),
        (18, &[0, 10_000, 65_535], &[10_001, 65_534]),
        (19, &[-4_000, 10_000, -32_768], &[-4_001, 10_001, -32_767, 32_767]),
        (20, &[50_000, 300_000, 0], &[49_999, 300_001, 1, 4_294_967_295]),
        (21, &[0, 1, 2, 3], &[4, 5, 127, 128, 255]),
    ];
    for (number, right, wrong) in of_series {
        for (device, interval) in [(0, 0), (0, 2), (1, 0), (1, 1), (1, 2)] {
            let with = |value: i64| {
                let mut call = worked(3, 2, &[FUEL]);
                put(&mut call, number, 3 * device + interval, value);
                answer(&call)
            };
            for &value in right {
                checks.same(&format!("{value} is no {number}"), with(value), (0, 0, 0));
            }
            for &value in wrong {
                let wanted = (number, device as u64, interval as u64);
                checks.same(&format!("{value} is {number}"), with(value), wanted);
            }
        }
    }
    let mut call = worked(1, 1, &[]);
    for (number, value) in READINGS.into_iter().zip([65_535, 65_535, -32_768, 0, 3]) {
        put(&mut call, number, 0, value);
    }
    checks.same("nothing but missing marks", answer(&call), (0, 0, 0));
}

/// Of an interval's readings the first wrong one, in the order flow, CH4, temperature, pressure, status.
fn one_interval(checks: &mut Checks) {
    checks.same("temperature and pressure", with_wrong(&[(19, 0, 1), (20, 0, 1)]), (19, 0, 1));
    for set in 1..32_u32 {
        let wrong: Vec<(u32, usize, usize)> =
            (0..5).filter(|bit| set >> bit & 1 == 1).map(|bit| (17 + bit, 1, 1)).collect();
        checks.same("several in one interval", with_wrong(&wrong), (17 + set.trailing_zeros(), 1, 1));
    }
    let mut call = worked(3, 2, &[FUEL]);
    READINGS.into_iter().for_each(|number| put(&mut call, number, 4, wrong(number)));
    for (number, right) in READINGS.into_iter().zip([65_535, 0, -4_000, 300_000, 3]) {
        checks.same("the first of those left", answer(&call), (number, 1, 1));
        put(&mut call, number, 4, right);
    }
    checks.same("none left", answer(&call), (0, 0, 0));
}

/// The first device-interval decides, not the lowest number.
fn several_intervals(checks: &mut Checks) {
    checks.same("status, then flow", with_wrong(&[(21, 0, 1), (17, 0, 2)]), (21, 0, 1));
    checks.same("flow, then status", with_wrong(&[(21, 0, 2), (17, 0, 1)]), (17, 0, 1));
    checks.same("status, then a later device's flow", with_wrong(&[(21, 0, 2), (17, 1, 0)]), (21, 0, 2));
    checks.same("two, then a flow", with_wrong(&[(20, 1, 0), (21, 1, 0), (17, 1, 1)]), (20, 1, 0));
    for first in READINGS {
        for other in READINGS {
            checks.same("the earlier interval", with_wrong(&[(first, 1, 0), (other, 1, 2)]), (first, 1, 0));
            checks.same("the earlier device", with_wrong(&[(first, 0, 2), (other, 1, 2)]), (first, 0, 2));
            // The later device's interval is the earlier one: devices come first.
            checks.same("the device, not the interval", with_wrong(&[(first, 0, 2), (other, 1, 0)]), (first, 0, 2));
        }
    }
}

/// A check is told before a reading, and a reading before a fuel line.
fn other_steps(checks: &mut Checks) {
    for number in READINGS {
        let mut call = worked(3, 2, &[FUEL, FUEL]);
        call.quantity[0] = 1_000_000_001;
        checks.same("fuel alone", answer(&call), (9, 0, 0));
        put(&mut call, number, 5, wrong(number));
        checks.same("a reading and fuel", answer(&call), (number, 1, 2));
        call.quantity[0] = 1;
        checks.same("a reading alone", answer(&call), (number, 1, 2));
        (call.counts[2], call.positions[64]) = (1, 4);
        checks.same("a check and a reading", answer(&call), (7, 1, 0));
    }
}

/// Least, most and missing mark of each series; no status is outside its range and right.
const RANGES: [(i64, i64, Option<i64>); 5] = [
    (0, 30_000, Some(65_535)),
    (0, 10_000, Some(65_535)),
    (-4_000, 10_000, Some(-32_768)),
    (50_000, 300_000, Some(0)),
    (0, 3, None),
];

/// Of all wrong readings the least one by device, interval and series: its number, device and interval.
fn by_definition(call: &Call) -> Option<(u32, u64, u64)> {
    let n = call.intervals as usize;
    let mut wrong = vec![];
    for entry in 0..call.flow.len() {
        let (flow, content, temp) = (call.flow[entry] as i64, call.content[entry] as i64, call.temp[entry] as i64);
        let values = [flow, content, temp, call.press[entry] as i64, call.status[entry] as i64];
        for (number, (value, (least, most, mark))) in READINGS.into_iter().zip(values.into_iter().zip(RANGES)) {
            if !(least..=most).contains(&value) && Some(value) != mark {
                wrong.push((entry / n, entry % n, number));
            }
        }
    }
    wrong.into_iter().min().map(|(device, interval, number)| (number, device as u64, interval as u64))
}

/// One turn of a class: answers as by definition, but where a check is wrong, and every kind that is wanted of it.
fn in_turn(checks: &mut Checks, seed: u64, cases: usize, make: fn(&Rng, usize) -> Record, wanted: &[String]) {
    let mut met = BTreeSet::new();
    for case in 0..cases {
        let call = Call::of(&make(&Rng::new(seed, case as u64), case));
        let told = answer(&call);
        let decided = if told.0 == 7 { Some(told) } else { by_definition(&call) };
        checks.same("by definition", decided, Some(told));
        met.extend(quantify(&call).err().map_or(vec![], |refusal| of_call(&call, &refusal)));
    }
    let lacking: Vec<&String> = wanted.iter().filter(|kind| !met.contains(*kind)).collect();
    checks.same("kinds that a turn lacks", lacking, vec![]);
}
