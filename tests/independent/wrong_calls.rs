//! Classes of calls that are refused, or come just up to a limit: sizes, lengths, one offence, several at once. A call
//! can carry what no record file can: slices of any length, counts above 32, more than 64 fuel lines.

use crate::call::{Call, FACTOR, QUANTITY, SLICES};
use crate::protocol::MOST_CHECKS;
use crate::record::{Check, Fuel};
use crate::refusals::READINGS;
use crate::rng::Rng;
use crate::{draw, plain_files, wrong_readings};

/// A small call that is accepted, with checks and gaps.
fn base(rng: &Rng, devices: usize) -> Call {
    base_of(rng, rng.size(2, 8), devices)
}

fn base_of(rng: &Rng, n: usize, devices: usize) -> Call {
    let mut record = draw::record(rng, n, devices);
    for device in &mut record.devices {
        for which in 0..2 {
            *device.checks(which) = draw::checks(rng, n, rng.size(0, 4));
        }
        plain_files::spoil(rng, device, 8);
    }
    Call::of(&record)
}

pub fn some(rng: &Rng) -> usize {
    rng.pick(&[1, 2, 3, 3, 4, 16])
}

/// N and D on both sides of their limits, and where they wrap in 8 and 16 bits: with the slices of another call, and
/// with slices just as long as N and D ask. Also another N and D that have the same number of entries.
pub fn sizes(rng: &Rng, case: usize) -> Call {
    let mut call = base(rng, rng.pick(&[1, 2, 3]));
    let (n, d) = (call.intervals, call.devices);
    match case % 14 {
        0 => call = base_of(rng, 35_137, 1),
        1 => call = base_of(rng, rng.size(1, 4), 17),
        2 => call = base_of(rng, rng.size(1, 4), 16),
        3 => (call.intervals, call.devices) = (n * d, 1),
        4 => (call.intervals, call.devices) = (0, rng.pick(&[0, 17])),
        5 => call = Call { mine: call.mine, ..Call::default() },
        6 => call.devices = 0,
        7 => call.intervals = 0,
        8 => (call.intervals, call.devices) = (d, n),
        9 | 10 => call.devices = rng.pick(&[d + 1, d - 1, 15, 16, 17, 256, 256 + d, 65_536 + d, 1 << 31, u32::MAX]),
        _ => {
            let wrapped = [65_536, 65_536 + n, n + (1 << 31), u32::MAX];
            call.intervals = rng.pick(&[n + 1, n - 1, 35_135, 35_136, 35_137, rng.pick(&wrapped)]);
        }
    }
    call
}

/// Every slice in turn, too long or too short in every way; at times another one too, or another offence beside it.
pub fn lengths(rng: &Rng, case: usize) -> Call {
    let slice = case % SLICES.len();
    let way = case / SLICES.len() % LENGTH_WAYS;
    let mut call = base(rng, some(rng));
    match rng.below(6) {
        0 => offend(rng, &mut call, rng.pick(&ORDER[3..])),
        1 => {
            let other = rng.below(SLICES.len());
            wrong_length(rng, &mut call, other, rng.below(LENGTH_WAYS));
        }
        _ => {}
    }
    wrong_length(rng, &mut call, slice, way);
    if rng.chance(20) {
        offend(rng, &mut call, rng.pick(&[1, 2]));
    }
    call
}

pub const LENGTH_WAYS: usize = 12;

fn wrong_length(rng: &Rng, call: &mut Call, slice: usize, way: usize) {
    let right = call.lengths()[slice];
    let length = other_length(rng, right, call.intervals as usize, call.devices as usize, way);
    set_length(call, slice, length);
}

/// How long a slice is instead of what it should be. A very long one is only told: nothing of it may be read.
pub fn other_length(rng: &Rng, right: usize, n: usize, d: usize, way: usize) -> usize {
    let many = rng.pick(&[2, 16, 32, 64, 255, 256, 1_000, 65_536]);
    let length = match way {
        0 => right.saturating_sub(1),
        1 => right + 1,
        2 => 0,
        3 => right + many,
        4 => right.saturating_sub(many),
        5 => right / 2,
        6 => 2 * right,
        // as it would be for an interval or a device more or less
        7 => {
            if rng.chance(2) {
                right + d
            } else {
                right.saturating_sub(d)
            }
        }
        8 => {
            if rng.chance(2) {
                right + right / d
            } else {
                right - right / d
            }
        }
        9 => {
            if rng.chance(2) {
                n
            } else {
                d
            }
        }
        10 => right + (1 << 32),
        _ => rng.pick(&[1 << 63, usize::MAX, right + (1 << 40), right.wrapping_neg()]),
    };
    // Of the fuel slices no length is wrong by itself.
    if length == right {
        right + 1
    } else {
        length
    }
}

/// From here on a length is only told.
pub const LONGEST_LENT: usize = 1 << 20;

fn set_length(call: &mut Call, slice: usize, length: usize) {
    if length > LONGEST_LENT {
        call.told.push((slice, length));
        return;
    }
    match slice {
        0 => resize(&mut call.kinds, length, 2),
        1 => resize(&mut call.counts, length, 0),
        2 => resize(&mut call.positions, length, 0),
        3 => resize(&mut call.drifts, length, 0),
        4 => resize(&mut call.flow, length, 1_000),
        5 => resize(&mut call.content, length, 5_000),
        6 => resize(&mut call.temp, length, 2_000),
        7 => resize(&mut call.press, length, 101_325),
        8 => resize(&mut call.status, length, 2),
        QUANTITY => resize(&mut call.quantity, length, 1),
        FACTOR => resize(&mut call.factor, length, 1),
        _ => call.rows[slice - FACTOR - 1] = length,
    }
}

/// New entries repeat the last one.
pub fn resize<T: Copy>(entries: &mut Vec<T>, length: usize, default: T) {
    let last = entries.last().copied().unwrap_or(default);
    entries.resize(length, last);
}

/// For each number but 3: how many ways there are to break its rule, and how many more come just up to its limits.
const WAYS: [(u32, usize, usize); 12] = [
    (1, 6, 0),
    (2, 6, 0),
    (4, 7, 2),
    (5, 9, 2),
    (6, 1, 1),
    (7, 17, 4),
    (17, 3, 2),
    (18, 3, 2),
    (19, 5, 3),
    (20, 5, 3),
    (21, 3, 1),
    (9, 14, 5),
];

/// All numbers, in order of test but for the readings, which are one step.
const ORDER: [u32; 13] = [1, 2, 3, 4, 5, 6, 7, 17, 18, 19, 20, 21, 9];

/// One rule broken in every way, or its limit just met.
pub fn one(rng: &Rng, case: usize) -> Call {
    let total: usize = WAYS.iter().map(|(_, ways, inside)| ways + inside).sum();
    let mut way = case % total;
    for (number, ways, inside) in WAYS {
        if way < ways + inside {
            let mut call = base(rng, some(rng));
            offend_so(rng, &mut call, number, way);
            return call;
        }
        way -= ways + inside;
    }
    unreachable!()
}

/// Two rules broken, for every pair of them.
pub fn pairs(rng: &Rng, case: usize) -> Call {
    let all: Vec<(u32, u32)> =
        (0..ORDER.len()).flat_map(|at| ORDER[at + 1..].iter().map(move |&later| (ORDER[at], later))).collect();
    let (earlier, later) = all[case % all.len()];
    let mut call = base(rng, rng.size(2, 3));
    offend(rng, &mut call, later);
    offend(rng, &mut call, earlier);
    call
}

/// Every rule from some number on broken, in order of test.
pub fn from_one_on(rng: &Rng, case: usize) -> Call {
    let mut call = base(rng, rng.size(2, 3));
    for &number in ORDER[case % ORDER.len()..].iter().rev() {
        offend(rng, &mut call, number);
    }
    call
}

/// Several checks wrong, of any instruments: counts, positions, drifts.
pub fn rival_checks(rng: &Rng, _case: usize) -> Call {
    let mut call = base(rng, rng.pick(&[1, 2, 3]));
    for _ in 0..rng.size(2, 4) {
        offend(rng, &mut call, 7);
    }
    call
}

/// Several readings wrong, near each other or far.
pub fn rival_readings(rng: &Rng, _case: usize) -> Call {
    let n = rng.size(1, 40);
    let mut call = base_of(rng, n, rng.pick(&[1, 2, 3]));
    let all = call.flow.len();
    let first = rng.below(all);
    for _ in 0..rng.size(1, 4) {
        let near = (first + rng.below(5)).saturating_sub(2);
        let entry = rng.pick(&[first, near, rng.below(all), all - 1, n - 1, n % all]).min(all - 1);
        let number = rng.pick(&READINGS);
        wrong_reading(rng, &mut call, entry, number, rng.below(ways(number).unwrap()));
    }
    call
}

/// Each kind of wrong reading, and of several, in turn.
pub fn wrong_readings(rng: &Rng, case: usize) -> Call {
    Call::of(&wrong_readings::few(rng, case))
}

/// The same in long rows.
pub fn readings_in_blocks(rng: &Rng, case: usize) -> Call {
    Call::of(&wrong_readings::blocks(rng, case))
}

pub fn rival_fuels(rng: &Rng, _case: usize) -> Call {
    let mut call = base(rng, 1);
    set_fuels(&mut call, &(0..rng.pick(&[2, 3, 6, 64, 65])).map(|_| draw::fuel(rng)).collect::<Vec<Fuel>>());
    for _ in 0..rng.size(1, 3) {
        let place = rng.below(call.quantity.len());
        wrong_fuel(rng, &mut call, place, rng.below(5));
    }
    call
}

/// Kinds of several devices wrong, or not allowed underground.
pub fn rival_kinds(rng: &Rng, _case: usize) -> Call {
    let mut call = base(rng, rng.pick(&[2, 3, 16]));
    call.mine = rng.below(2) as u32;
    for _ in 0..rng.size(2, 4) {
        let device = rng.below(call.kinds.len());
        call.kinds[device] = rng.pick(&[6, 6, 6, 0, 7, 262]);
    }
    call
}

/// How many ways there are to break the rule of this number; nothing of 3.
fn ways(number: u32) -> Option<usize> {
    WAYS.iter().find(|(other, ..)| *other == number).map(|(_, ways, _)| *ways)
}

/// Breaks the rule of this number in some way.
fn offend(rng: &Rng, call: &mut Call, number: u32) {
    match ways(number) {
        Some(ways) => offend_so(rng, call, number, rng.below(ways)),
        None => wrong_length(rng, call, rng.below(SLICES.len()), rng.below(LENGTH_WAYS)),
    }
}

/// Breaks one rule somewhere; ways past the number that `WAYS` gives keep it. No length but of fuel is wrong yet.
fn offend_so(rng: &Rng, call: &mut Call, number: u32, way: usize) {
    let device = || rng.below(call.kinds.len());
    match number {
        1 => call.intervals = [0, 35_137, 65_536, 65_536 + call.intervals, 1 << 31, u32::MAX][way],
        2 => call.devices = [0, 17, 256, 256 + call.devices, 1 << 31, u32::MAX][way],
        4 => call.mine = [2, 3, 256, 257, 65_536, 1 << 31, u32::MAX, 0, 1][way],
        5 => {
            let own = device();
            call.kinds[own] = [0, 7, 8, 256, 258, 262, 65_538, 1 << 31, u32::MAX, 1, 5][way];
        }
        6 => {
            let own = device();
            call.mine = way as u32;
            call.kinds[own] = 6;
        }
        7 => offend_checks(rng, call, way),
        17..=21 => {
            let all = call.flow.len();
            let entry = rng.pick(&[0, all - 1, rng.below(all)]);
            wrong_reading(rng, call, entry, number, way);
        }
        _ => offend_fuels(rng, call, way),
    }
}

fn offend_checks(rng: &Rng, call: &mut Call, way: usize) {
    let n = call.intervals;
    let instrument = rng.below(call.counts.len());
    if way < 8 {
        call.counts[instrument] = [33, 34, 64, 255, 256, 258, 65_537, u32::MAX][way];
        return;
    }
    if !(2..=32).contains(&call.counts[instrument]) {
        let sound = [Check { at: 0, drift: 0 }, Check { at: n / 2, drift: 600 }, Check { at: n, drift: 0 }];
        set_checks(call, instrument, &sound);
    }
    let mut checks = call.checks(instrument);
    let place = rng.below(checks.len());
    let (later, last) = (place.max(1), checks.len() - 1);
    match way {
        8 => checks[last].at = n + 1,
        9 => checks[place].at = n + 1,
        10 => checks[place].at = rng.pick(&[u32::MAX, 1 << 31, n + 65_536]),
        11 => checks[place].drift = -9_001,
        12 => checks[place].drift = 20_001,
        13 => checks[place].drift = rng.pick(&[i32::MIN, i32::MAX, -65_536, 65_536, -32_769, 32_768]),
        14 => checks[later].at = checks[later - 1].at,
        15 => checks.swap(later, later - 1),
        16 => checks[later].at = 0,
        17 => checks[place].drift = -9_000,
        18 => checks[place].drift = 20_000,
        19 => checks[last].at = n,
        _ => checks[0].at = 0,
    }
    set_checks(call, instrument, &checks);
}

fn set_checks(call: &mut Call, instrument: usize, checks: &[Check]) {
    call.counts[instrument] = checks.len() as u32;
    for (k, check) in checks.iter().enumerate() {
        call.positions[MOST_CHECKS * instrument + k] = check.at;
        call.drifts[MOST_CHECKS * instrument + k] = check.drift;
    }
}

/// The last ways of each series are right: the ends of its range and its missing mark.
fn wrong_reading(rng: &Rng, call: &mut Call, i: usize, number: u32, way: usize) {
    let cold = rng.between(-32_767, -4_001) as i16;
    let high = 65_536 * rng.size(5, 65_535) as u32;
    match number {
        17 => call.flow[i] = [30_001, 65_534, rng.size(30_001, 65_534) as u16, 30_000, 65_535][way],
        18 => call.content[i] = [10_001, 65_534, rng.size(10_001, 65_534) as u16, 10_000, 65_535][way],
        19 => call.temp[i] = [-4_001, 10_001, -32_767, 32_767, cold, -4_000, 10_000, -32_768][way],
        20 => call.press[i] = [1, 49_999, 300_001, u32::MAX, high, 50_000, 300_000, 0][way],
        _ => call.status[i] = [4, 255, rng.pick(&[rng.size(4, 255), 128 + rng.below(4)]) as u8, 3][way],
    }
}

/// Ways past those that `WAYS` gives keep the rule.
pub fn offend_fuels(rng: &Rng, call: &mut Call, way: usize) {
    let counts = [65, 66, 128, 256, 257, 1_000, 65_537, 64, 63, 0];
    let told = call.quantity.len() + (1 << 32);
    match way {
        0..=6 => set_fuels(call, &vec![Fuel { quantity: rng.pick(&[0, u32::MAX]), factor: 7 }; counts[way]]),
        7..=11 => {
            if call.quantity.is_empty() {
                set_fuels(call, &vec![Fuel { quantity: 1, factor: 1 }; rng.pick(&[1, 2, 64])]);
            }
            let last = call.quantity.len() - 1;
            let place = rng.pick(&[0, last, rng.size(0, last)]);
            wrong_fuel(rng, call, place, way - 7);
        }
        12 => call.told.extend([(QUANTITY, told), (FACTOR, told)]),
        13 => call.told.extend([(QUANTITY, 1 << 40), (FACTOR, 1 << 40)]),
        14..=16 => set_fuels(call, &(0..counts[way - 7]).map(|_| draw::fuel(rng)).collect::<Vec<Fuel>>()),
        17 => set_fuels(call, &[Fuel { quantity: 1_000_000_000, factor: 4_000_000 }]),
        _ => set_fuels(call, &vec![Fuel { quantity: 1_000_000_000, factor: 4_000_000 }; 64]),
    }
}

fn set_fuels(call: &mut Call, fuels: &[Fuel]) {
    call.quantity = fuels.iter().map(|fuel| fuel.quantity).collect();
    call.factor = fuels.iter().map(|fuel| fuel.factor).collect();
}

pub fn wrong_fuel(rng: &Rng, call: &mut Call, place: usize, way: usize) {
    match way {
        0 => call.quantity[place] = 1_000_000_001,
        1 => call.quantity[place] = rng.pick(&[u32::MAX, 1 << 31]),
        2 => call.factor[place] = 4_000_001,
        3 => call.factor[place] = rng.pick(&[u32::MAX, 1 << 31]),
        _ => (call.quantity[place], call.factor[place]) = (u32::MAX, u32::MAX),
    }
}
