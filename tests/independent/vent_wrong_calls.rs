//! Classes of calls about ventilation air that are refused, or come just up to a limit: sizes, lengths, one offence,
//! several at once.

use crate::call::Call;
use crate::draw;
use crate::record::Fuel;
use crate::rng::Rng;
use crate::vent_call::{VentCall, FACTOR, QUANTITY, SERIES, SLICES};
use crate::vent_draw;
use crate::vent_wrong_readings::{series_of, spoil, value, WAYS};
use crate::wrong_calls::{self, other_length, resize, some, LENGTH_WAYS, LONGEST_LENT};
use std::mem::take;

/// A small call that is accepted.
fn base(rng: &Rng, devices: usize) -> VentCall {
    base_of(rng, rng.size(2, 8), devices)
}

fn base_of(rng: &Rng, n: usize, devices: usize) -> VentCall {
    let mut call = vent_draw::call(rng, n, devices);
    vent_draw::spoil(rng, &mut call, 8);
    call
}

/// N and D on both sides of their limits, and where they wrap in 8 and 16 bits: with the slices of another call, and
/// with slices just as long as N and D ask. Also another N and D that have the same number of entries.
pub fn sizes(rng: &Rng, case: usize) -> VentCall {
    let mut call = base(rng, rng.pick(&[1, 2, 3]));
    let (n, d) = (call.intervals, call.devices);
    match case % 14 {
        0 => call = base_of(rng, 35_137, 1),
        1 => call = base_of(rng, rng.size(1, 4), 17),
        2 => call = base_of(rng, rng.size(1, 4), 16),
        3 => (call.intervals, call.devices) = (n * d, 1),
        4 => (call.intervals, call.devices) = (0, rng.pick(&[0, 17])),
        5 => call = VentCall::default(),
        6 => call.devices = 0,
        7 => call.intervals = 0,
        8 => (call.intervals, call.devices) = (d, n),
        9 | 10 => call.devices = rng.pick(&[d + 1, d - 1, 15, 16, 17, 256, 256 + d, 65_536 + d, 1 << 31, u32::MAX]),
        _ => {
            let wrapped = [65_536, 65_536 + n, n + (1 << 31), u32::MAX];
            call.intervals = rng.pick(&[n + 1, n - 1, 35_135, 35_136, 35_137, rng.pick(&wrapped)]);
        }
    }
    call
}

/// Every slice in turn, too long or too short in every way; at times another one too, or another offence beside it.
pub fn lengths(rng: &Rng, case: usize) -> VentCall {
    let (slice, way) = (case % SLICES.len(), case / SLICES.len() % LENGTH_WAYS);
    let mut call = base(rng, some(rng));
    match rng.below(6) {
        0 => offend(rng, &mut call, rng.pick(&[22, 23, 21, 9])),
        1 => wrong_length(rng, &mut call, rng.below(SLICES.len()), rng.below(LENGTH_WAYS)),
        _ => {}
    }
    wrong_length(rng, &mut call, slice, way);
    if rng.chance(20) {
        offend(rng, &mut call, rng.pick(&[1, 2]));
    }
    call
}

/// The slice whose length is wrong in this case of `lengths`.
pub fn wrong_slice(case: usize) -> &'static str {
    SLICES[case % SLICES.len()]
}

fn wrong_length(rng: &Rng, call: &mut VentCall, slice: usize, way: usize) {
    let (n, d) = (call.intervals as usize, call.devices as usize);
    let length = other_length(rng, call.lengths()[slice], n, d, way);
    if length > LONGEST_LENT {
        call.told.push((slice, length));
        return;
    }
    let stream = if slice < 4 { &mut call.inlet } else { &mut call.exhaust };
    match (slice, slice % 4) {
        (8, _) => resize(&mut call.status, length, 2),
        (QUANTITY, _) => resize(&mut call.quantity, length, 1),
        (FACTOR, _) => resize(&mut call.factor, length, 1),
        (11, _) => call.row = length,
        (_, 0) => resize(&mut stream.flow, length, 1_000),
        (_, 1) => resize(&mut stream.ppm, length, 5_000),
        (_, 2) => resize(&mut stream.temp, length, 2_000),
        _ => resize(&mut stream.press, length, 101_325),
    }
}

/// Ways of 1 and of 2; of 9, and how many more come just up to its limits.
const SIZE_WAYS: usize = 6;
const FUEL_WAYS: (usize, usize) = (14, 5);

/// All numbers in order of test, but the readings are one step.
const ORDER: [u32; 7] = [1, 2, 3, 22, 23, 21, 9];

/// One rule broken in every way, or its limit just met: N, D, each series, fuel.
pub fn one(rng: &Rng, case: usize) -> VentCall {
    let total = WAYS.iter().map(|(wrong, right)| wrong + right).sum::<usize>();
    let mut way = case % (2 * SIZE_WAYS + total + FUEL_WAYS.0 + FUEL_WAYS.1);
    let mut call = base(rng, some(rng));
    if way < 2 * SIZE_WAYS {
        wrong_size(&mut call, 1 + (way % 2) as u32, way / 2);
        return call;
    }
    way -= 2 * SIZE_WAYS;
    for (series, (wrong, right)) in WAYS.into_iter().enumerate() {
        if way < wrong + right {
            let entry = some_entry(rng, &call);
            call.put_value(entry, series, value(rng, series, way));
            return call;
        }
        way -= wrong + right;
    }
    offend_fuels(rng, &mut call, way);
    call
}

fn some_entry(rng: &Rng, call: &VentCall) -> usize {
    let all = call.entries();
    rng.pick(&[0, all - 1, rng.below(all)])
}

fn wrong_size(call: &mut VentCall, number: u32, way: usize) {
    if number == 1 {
        call.intervals = [0, 35_137, 65_536, 65_536 + call.intervals, 1 << 31, u32::MAX][way];
    } else {
        call.devices = [0, 17, 256, 256 + call.devices, 1 << 31, u32::MAX][way];
    }
}

/// Fuel is lent as for drainage, in slices of the same numbers. Ways past the first keep the rule.
fn offend_fuels(rng: &Rng, call: &mut VentCall, way: usize) {
    as_drainage(call, |fuels| wrong_calls::offend_fuels(rng, fuels, way));
}

fn as_drainage(call: &mut VentCall, change: impl Fn(&mut Call)) {
    let (quantity, factor, told) = (take(&mut call.quantity), take(&mut call.factor), take(&mut call.told));
    let mut fuels = Call { quantity, factor, told, ..Call::default() };
    change(&mut fuels);
    (call.quantity, call.factor, call.told) = (fuels.quantity, fuels.factor, fuels.told);
}

/// Breaks the rule of this number in some way. No length but of fuel is wrong yet.
pub fn offend(rng: &Rng, call: &mut VentCall, number: u32) {
    match number {
        1 | 2 => wrong_size(call, number, rng.below(SIZE_WAYS)),
        3 => wrong_length(rng, call, rng.below(SLICES.len()), rng.below(LENGTH_WAYS)),
        21..=23 => {
            let entry = some_entry(rng, call);
            spoil(rng, call, entry, series_of(rng, number));
        }
        _ => offend_fuels(rng, call, rng.below(FUEL_WAYS.0)),
    }
}

/// Two rules broken, for every pair of them.
pub fn pairs(rng: &Rng, case: usize) -> VentCall {
    let all: Vec<(u32, u32)> =
        (0..ORDER.len()).flat_map(|at| ORDER[at + 1..].iter().map(move |&later| (ORDER[at], later))).collect();
    let (earlier, later) = all[case % all.len()];
    let mut call = base(rng, rng.size(2, 3));
    offend(rng, &mut call, later);
    offend(rng, &mut call, earlier);
    call
}

/// Every rule from some number on broken, in order of test.
pub fn from_one_on(rng: &Rng, case: usize) -> VentCall {
    let mut call = base(rng, rng.size(2, 3));
    for &number in ORDER[case % ORDER.len()..].iter().rev() {
        offend(rng, &mut call, number);
    }
    call
}

/// Several readings wrong, near each other or far.
pub fn rival_readings(rng: &Rng, _case: usize) -> VentCall {
    let n = rng.size(1, 40);
    let mut call = base_of(rng, n, rng.pick(&[1, 2, 3]));
    let all = call.entries();
    let first = rng.below(all);
    for _ in 0..rng.size(1, 4) {
        let near = (first + rng.below(5)).saturating_sub(2);
        let entry = rng.pick(&[first, near, rng.below(all), all - 1, n - 1, n % all]).min(all - 1);
        spoil(rng, &mut call, entry, rng.below(SERIES));
    }
    call
}

pub fn rival_fuels(rng: &Rng, _case: usize) -> VentCall {
    let mut call = base(rng, 1);
    call.set_fuels(&(0..rng.pick(&[2, 3, 6, 64, 65])).map(|_| draw::fuel(rng)).collect::<Vec<Fuel>>());
    for _ in 0..rng.size(1, 3) {
        let place = rng.below(call.quantity.len());
        as_drainage(&mut call, |fuels| wrong_calls::wrong_fuel(rng, fuels, place, rng.below(5)));
    }
    call
}
