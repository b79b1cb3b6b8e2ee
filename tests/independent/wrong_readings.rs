//! Records with wrong readings, for files and for calls, in which it matters which of them is looked at first. What a
//! long run must meet (`reading_kinds`) comes in turn, whatever is drawn.

use crate::reading_kinds::{sets, BLOCK, PAIRS};
use crate::record::Record;
use crate::refusal_files::{break_rule, spoil_reading};
use crate::refusals::READINGS;
use crate::rng::Rng;
use crate::{draw, plain_files};

/// An accepted record with checks, in which about one interval in so many lacks a reading.
fn base(rng: &Rng, n: usize, devices: usize, one_in: usize) -> Record {
    let mut record = draw::record(rng, n, devices);
    for device in &mut record.devices {
        for which in 0..2 {
            *device.checks(which) = draw::checks(rng, n, rng.size(0, 3));
        }
        plain_files::spoil(rng, device, one_in);
    }
    record
}

fn entries(record: &Record) -> usize {
    record.intervals as usize * record.devices.len()
}

/// The reading is wrong, and some with higher numbers in that interval are too.
pub fn and_higher(rng: &Rng, record: &mut Record, entry: usize, number: u32) {
    spoil_reading(rng, record, entry, number);
    for higher in number + 1..=21 {
        if rng.chance(4) {
            spoil_reading(rng, record, entry, higher);
        }
    }
}

/// Some readings of any series are wrong after that entry, near it or far.
fn and_later(rng: &Rng, record: &mut Record, entry: usize) {
    let last = entries(record) - 1;
    for _ in 0..rng.below(4) {
        let later = rng.pick(&[entry + 1 + rng.below(3), rng.size(entry, last), last]);
        if entry < later && later <= last {
            spoil_reading(rng, record, later, rng.pick(&READINGS));
        }
    }
}

fn and_others(rng: &Rng, record: &mut Record, entry: usize, number: u32) {
    and_higher(rng, record, entry, number);
    and_later(rng, record, entry);
}

/// After so many cases of `few` all have had their turn.
pub const FEW: usize = 15 + 31 + 10 + 10 + 5;

/// Short records: each series first, between and last; each set in one interval; each pair in one device, and in two;
/// each series beside a wrong check. Every third one has a wrong fuel line too.
pub fn few(rng: &Rng, case: usize) -> Record {
    let turn = case % FEW;
    let least = if (56..66).contains(&turn) { 2 } else { 1 };
    let mut record = base(rng, rng.size(3, 8), rng.size(least, 3), 8);
    match turn {
        0..15 => alone(rng, &mut record, READINGS[turn / 3], turn % 3),
        15..46 => together(rng, &mut record, &sets()[turn - 15]),
        46..56 => in_one_device(rng, &mut record, PAIRS[turn - 46]),
        56..66 => in_two_devices(rng, &mut record, PAIRS[turn - 56], turn % 2 == 0),
        _ => beside_a_check(rng, &mut record, READINGS[turn - 66]),
    }
    if case % 3 == 0 {
        break_rule(rng, &mut record, 9);
    }
    record
}

fn alone(rng: &Rng, record: &mut Record, number: u32, place: usize) {
    let last = entries(record) - 1;
    let entry = [0, rng.size(1, last - 1), last][place];
    spoil_reading(rng, record, entry, number);
}

fn together(rng: &Rng, record: &mut Record, set: &[u32]) {
    let (n, all) = (record.intervals as usize, entries(record));
    let entry = rng.pick(&[0, n - 1, n % all, all - 1, rng.below(all)]);
    for &number in set {
        spoil_reading(rng, record, entry, number);
    }
    and_later(rng, record, entry);
}

fn in_one_device(rng: &Rng, record: &mut Record, (number, lower): (u32, u32)) {
    let n = record.intervals as usize;
    let row = n * rng.below(record.devices.len());
    let first = rng.below(n - 1);
    let second = rng.size(first + 1, n - 1);
    both(rng, record, (row + first, number), (row + second, lower));
}

/// The later device's interval is any one, or an earlier one.
fn in_two_devices(rng: &Rng, record: &mut Record, (number, lower): (u32, u32), is_earlier: bool) {
    let (n, devices) = (record.intervals as usize, record.devices.len());
    let device = rng.below(devices - 1);
    let other = rng.size(device + 1, devices - 1);
    let interval = rng.size(1, n - 1);
    let second = rng.below(if is_earlier { interval } else { n });
    both(rng, record, (n * device + interval, number), (n * other + second, lower));
}

fn both(rng: &Rng, record: &mut Record, first: (usize, u32), second: (usize, u32)) {
    and_higher(rng, record, first.0, first.1);
    and_higher(rng, record, second.0, second.1);
    and_later(rng, record, first.0);
}

fn beside_a_check(rng: &Rng, record: &mut Record, number: u32) {
    let entry = rng.below(entries(record));
    spoil_reading(rng, record, entry, number);
    break_rule(rng, record, 7);
}

/// After so many cases of `blocks` all have had their turn.
pub const BLOCKS: usize = 15 + 15 + 10 + 3;

/// Records of a block and some more, or of two: each series beside a border between blocks, and at the end of a row
/// that ends beside one; each pair on both sides of a border; the same intervals of a later device.
pub fn blocks(rng: &Rng, case: usize) -> Record {
    let turn = case % BLOCKS;
    match turn {
        0..15 => at_border(rng, READINGS[turn / 3], turn % 3),
        15..30 => end_of_row(rng, READINGS[turn / 3 - 5], turn % 3),
        30..40 => over_border(rng, PAIRS[turn - 30]),
        _ => in_later_row(rng, turn - 40),
    }
}

/// A record with two entries or more on both sides of a border, and the first entry after it. The border may lie
/// between two rows.
fn bordered(rng: &Rng) -> (Record, usize) {
    let (n, devices) = rng.pick(&[
        (rng.size(1_026, 1_060), 1),
        (rng.size(342, 350), 3),
        (rng.size(65, 66), 16),
        (1_024, 2),
        (rng.size(2_050, 2_060), 1),
    ]);
    let border = BLOCK * rng.size(1, (n * devices - 2) / BLOCK);
    (base(rng, n, devices, 40), border)
}

fn at_border(rng: &Rng, number: u32, beside: usize) -> Record {
    let (mut record, border) = bordered(rng);
    and_others(rng, &mut record, border + beside - 1, number);
    record
}

fn end_of_row(rng: &Rng, number: u32, beside: usize) -> Record {
    let (blocks, devices) = rng.pick(&[(1, 1), (1, 1), (1, 2), (2, 1)]);
    let n = BLOCK * blocks + beside - 1;
    let mut record = base(rng, n, devices, 40);
    and_others(rng, &mut record, n * rng.size(1, devices) - 1, number);
    record
}

/// More may be wrong on either side, in any series.
fn over_border(rng: &Rng, (number, lower): (u32, u32)) -> Record {
    let (mut record, border) = bordered(rng);
    let first = border - 1 - rng.below(4);
    both(rng, &mut record, (first, number), (border + rng.below(2), lower));
    for entry in first + 1..=border + 1 {
        if rng.chance(2) {
            spoil_reading(rng, &mut record, entry, rng.pick(&READINGS));
        }
    }
    record
}

fn in_later_row(rng: &Rng, beside: usize) -> Record {
    let n = rng.size(1_026, 1_040);
    let mut record = base(rng, n, 2, 40);
    and_others(rng, &mut record, n + BLOCK + beside - 1, rng.pick(&READINGS));
    record
}
