//! Calls about ventilation air with wrong readings, in which it matters which of them is looked at first. What a long
//! run must meet (`vent_reading_kinds`) comes in turn, whatever is drawn.

use crate::rng::Rng;
use crate::vent_call::{VentCall, SERIES, STATUS};
use crate::vent_draw;
use crate::vent_reading_kinds::{number_of, number_pairs, pairs, BLOCKS, NUMBER_PAIRS};
use crate::vent_wrong_calls::offend;

/// How many ways there are for a reading of each series to be wrong, and how many more keep its rule.
pub const WAYS: [(usize, usize); SERIES] = [(3, 3), (3, 3), (5, 3), (5, 3), (3, 3), (3, 3), (5, 3), (5, 3), (3, 4)];

/// The last ways of each series are right: the ends of its range and its missing mark.
pub fn value(rng: &Rng, series: usize, way: usize) -> i64 {
    match (series, series % 4) {
        (STATUS, _) => [4, 255, rng.pick(&[rng.between(4, 255), rng.between(128, 131)]), 0, 1, 2, 3][way],
        (_, 0) => [30_001, 65_534, rng.between(30_001, 65_534), 0, 30_000, 65_535][way],
        (_, 1) => [20_001, 65_534, rng.between(20_001, 65_534), 0, 20_000, 65_535][way],
        (_, 2) => [-4_001, 10_001, -32_767, 32_767, rng.between(-32_767, -4_001), -4_000, 10_000, -32_768][way],
        _ => [1, 49_999, 300_001, u32::MAX as i64, 65_536 * rng.between(5, 65_535), 50_000, 300_000, 0][way],
    }
}

/// Makes a reading wrong in some way.
pub fn spoil(rng: &Rng, call: &mut VentCall, entry: usize, series: usize) {
    let value = value(rng, series, rng.below(WAYS[series].0));
    call.put_value(entry, series, value);
}

/// A series whose wrong readings have this number.
pub fn series_of(rng: &Rng, number: u32) -> usize {
    let own: Vec<usize> = (0..SERIES).filter(|&series| number_of(series) == number).collect();
    rng.pick(&own)
}

/// An accepted call, in which about one interval in so many lacks a reading.
fn base(rng: &Rng, n: usize, devices: usize, one_in: usize) -> VentCall {
    let mut call = vent_draw::call(rng, n, devices);
    vent_draw::spoil(rng, &mut call, one_in);
    call
}

/// The reading is wrong, and some that are looked at later in that interval are too.
fn and_further(rng: &Rng, call: &mut VentCall, entry: usize, series: usize) {
    spoil(rng, call, entry, series);
    for further in series + 1..SERIES {
        if rng.chance(6) {
            spoil(rng, call, entry, further);
        }
    }
}

/// Some readings of any series are wrong after that entry, near it or far.
fn and_later(rng: &Rng, call: &mut VentCall, entry: usize) {
    let last = call.entries() - 1;
    for _ in 0..rng.below(4) {
        let later = rng.pick(&[entry + 1 + rng.below(3), rng.size(entry, last), last]);
        if entry < later && later <= last {
            spoil(rng, call, later, rng.below(SERIES));
        }
    }
}

fn and_others(rng: &Rng, call: &mut VentCall, entry: usize, series: usize) {
    and_further(rng, call, entry, series);
    and_later(rng, call, entry);
}

const ALONE: usize = 3 * SERIES;
const TOGETHER: usize = 24;
const PAIRS: usize = 36;

/// After so many cases of `few` all have had their turn.
pub const FEW: usize = ALONE + TOGETHER + 1 + 2 * PAIRS;

/// Short calls: each series first, between and last, of devices that are stopped, unrecorded and running; each two of
/// different numbers in one interval, and all nine; each pair in one device, and in two.
pub fn few(rng: &Rng, case: usize) -> VentCall {
    let turn = case % FEW;
    let in_two = turn >= FEW - PAIRS;
    let mut call = base(rng, rng.size(3, 8), rng.size(if in_two { 2 } else { 1 }, 3), 8);
    if turn < ALONE {
        alone(rng, &mut call, turn / 3, turn % 3);
        return call;
    }
    let turn = turn - ALONE;
    if turn <= TOGETHER {
        together(rng, &mut call, turn);
    } else if turn <= TOGETHER + PAIRS {
        in_one_device(rng, &mut call, pairs()[turn - TOGETHER - 1]);
    } else {
        in_two_devices(rng, &mut call, pairs()[turn - TOGETHER - 1 - PAIRS], turn % 2 == 0);
    }
    if case % 3 == 0 {
        offend(rng, &mut call, 9);
    }
    call
}

/// The first time with a wrong fuel line too.
fn alone(rng: &Rng, call: &mut VentCall, series: usize, place: usize) {
    let last = call.entries() - 1;
    let entry = [0, rng.size(1, last - 1), last][place];
    call.put_value(entry, STATUS, [0, 3, rng.between(1, 2)][place]);
    spoil(rng, call, entry, series);
    if place == 0 {
        offend(rng, call, 9);
    }
}

fn together(rng: &Rng, call: &mut VentCall, turn: usize) {
    let (n, all) = (call.intervals as usize, call.entries());
    let entry = rng.pick(&[0, n - 1, n % all, all - 1, rng.below(all)]);
    match number_pairs().get(turn) {
        Some(&(series, earlier)) => [series, earlier].into_iter().for_each(|one| spoil(rng, call, entry, one)),
        None => (0..SERIES).for_each(|one| spoil(rng, call, entry, one)),
    }
    and_later(rng, call, entry);
}

fn in_one_device(rng: &Rng, call: &mut VentCall, (series, earlier): (usize, usize)) {
    let n = call.intervals as usize;
    let row = n * rng.below(call.devices as usize);
    let first = rng.below(n - 1);
    let second = rng.size(first + 1, n - 1);
    both(rng, call, (row + first, series), (row + second, earlier));
}

/// The later device's interval is any one, or an earlier one.
fn in_two_devices(rng: &Rng, call: &mut VentCall, (series, earlier): (usize, usize), is_earlier: bool) {
    let (n, devices) = (call.intervals as usize, call.devices as usize);
    let device = rng.below(devices - 1);
    let other = rng.size(device + 1, devices - 1);
    let interval = rng.size(1, n - 1);
    let second = rng.below(if is_earlier { interval } else { n });
    both(rng, call, (n * device + interval, series), (n * other + second, earlier));
}

fn both(rng: &Rng, call: &mut VentCall, first: (usize, usize), second: (usize, usize)) {
    and_further(rng, call, first.0, first.1);
    and_further(rng, call, second.0, second.1);
    and_later(rng, call, first.0);
}

/// After so many cases of `blocks` all have had their turn.
pub const IN_BLOCKS: usize = 2 * OF_A_SIZE;
const OF_A_SIZE: usize = 27 + 9 + 3 + 3;

/// Calls of a block and some more, or of two: each series beside a border between blocks; each number at the end of a
/// row that ends beside one; each pair of numbers on both sides of a border; the same intervals of a later device.
pub fn blocks(rng: &Rng, case: usize) -> VentCall {
    let (block, turn) = (BLOCKS[case % 2], case / 2 % OF_A_SIZE);
    match turn {
        0..27 => at_border(rng, block, turn / 3, turn % 3),
        27..36 => end_of_row(rng, block, series_of(rng, 21 + (turn as u32 - 27) / 3), turn % 3),
        36..39 => over_border(rng, block, NUMBER_PAIRS[turn - 36]),
        _ => in_later_row(rng, block, turn - 39),
    }
}

/// A call with two entries or more on both sides of a border, and the first entry after it. The border may lie between
/// two rows.
fn bordered(rng: &Rng, block: usize) -> (VentCall, usize) {
    let (n, devices) = rng.pick(&[
        (block + rng.size(2, 36), 1),
        (block / 3 + rng.size(2, 9), 3),
        (block / 16 + rng.size(1, 2), 16),
        (block, 2),
        (2 * block + rng.size(2, 12), 1),
    ]);
    let border = block * rng.size(1, (n * devices - 2) / block);
    (base(rng, n, devices, 40), border)
}

fn at_border(rng: &Rng, block: usize, series: usize, beside: usize) -> VentCall {
    let (mut call, border) = bordered(rng, block);
    and_others(rng, &mut call, border + beside - 1, series);
    call
}

fn end_of_row(rng: &Rng, block: usize, series: usize, beside: usize) -> VentCall {
    let (blocks, devices) = rng.pick(&[(1, 1), (1, 1), (1, 2), (2, 1)]);
    let n = block * blocks + beside - 1;
    let mut call = base(rng, n, devices, 40);
    and_others(rng, &mut call, n * rng.size(1, devices) - 1, series);
    call
}

/// More may be wrong on either side, in any series.
fn over_border(rng: &Rng, block: usize, (number, other): (u32, u32)) -> VentCall {
    let (mut call, border) = bordered(rng, block);
    let first = border - 1 - rng.below(4);
    let (series, earlier) = (series_of(rng, number), series_of(rng, other));
    both(rng, &mut call, (first, series), (border + rng.below(2), earlier));
    for entry in first + 1..=border + 1 {
        if rng.chance(2) {
            spoil(rng, &mut call, entry, rng.below(SERIES));
        }
    }
    call
}

fn in_later_row(rng: &Rng, block: usize, beside: usize) -> VentCall {
    let n = block + rng.size(2, 16);
    let mut call = base(rng, n, 2, 40);
    and_others(rng, &mut call, n + block + beside - 1, rng.below(SERIES));
    call
}
