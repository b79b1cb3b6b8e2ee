//! Classes of files that are refused by their numbers: the head's limits, one offence, several at once.

use crate::plain_files::row_length;
use crate::record::{joined, Check, Device, Fuel, Record};
use crate::refusals::READINGS;
use crate::rng::Rng;
use crate::{draw, wrong_readings};

/// Heads on both sides of every limit of N, D and N x D.
const HEADS: [(u64, u64); 44] = [
    (0, 1),
    (1, 0),
    (0, 0),
    (35_136, 1),
    (35_137, 1),
    (1, 16),
    (1, 17),
    (2, 17),
    (0, 17),
    (35_137, 0),
    (35_137, 17),
    (2_977, 0),
    (2_977, 17),
    (35_136, 16),
    (35_136, 17),
    (65_536, 1),
    (65_537, 1),
    (1, 256),
    (1, 257),
    (1, 65_537),
    (4_294_967_295, 1),
    (4_294_967_296, 1),
    (4_294_967_297, 1),
    (1, 4_294_967_295),
    (1, 4_294_967_296),
    (1, 4_294_967_297),
    (4_096, 16),
    (4_097, 16),
    (8_192, 8),
    (16_384, 4),
    (32_768, 2),
    (21_846, 3),
    (2_977, 1),
    (2_978, 1),
    (3_000, 1),
    (229, 13),
    (268_435_456, 16),
    (268_435_457, 16),
    (4_294_967_295, 4_294_967_295),
    (0, 4_294_967_296),
    (4_294_967_296, 0),
    (2_147_483_648, 2),
    (35_137, 4_294_967_296),
    (10_000, 16),
];

/// Heads with what may follow: nothing, right lines, wrong ones; or a whole file just at N x D.
pub fn heads(rng: &Rng, case: usize, row: u64) -> Vec<u8> {
    let devices = case / 6 % 16 + 1;
    match case % 6 {
        0 => draw::record(rng, row_length(rng, devices, row), devices).text(),
        1 => head(rng, row / devices as u64 + 1, devices as u64),
        2 => head(rng, row + 1, 1),
        way => {
            let (n, d) = HEADS[(case / 6 * 3 + way) % HEADS.len()];
            head(rng, n, d)
        }
    }
}

fn head(rng: &Rng, n: u64, devices: u64) -> Vec<u8> {
    let right = format!("intervals={n}\ndevices={devices}\n");
    let next = rng.pick(&["mine=0\nfuels=0\n", "mine=x\n", "\n", "junk", "mine=0\nfuels=65\n", "devices=1\n"]);
    let text = match rng.below(16) {
        0 => right,
        1 => format!("intervals={n}\n"),
        2 => format!("intervals={n}\ndevices={devices}"),
        3 => format!("intervals={n}\ndevice={devices}\n{next}"),
        4 => format!("intervals={n}\ndevices=0{devices}\n"),
        5 => format!("intervals={n}"),
        _ => right + next,
    };
    text.into_bytes()
}

/// For each number, how many ways there are to break its rule, and how many more come just up to the limit.
const WAYS: [(u32, usize, usize); 11] = [
    (4, 5, 2),
    (5, 5, 2),
    (6, 1, 1),
    (7, 9, 3),
    (17, 3, 1),
    (18, 3, 1),
    (19, 3, 2),
    (20, 4, 2),
    (21, 2, 1),
    (9, 5, 2),
    (12, 3, 0),
];

/// The numbers of quantification that a record file can be refused with, in order of test but for the readings, which
/// are one step.
const NUMBERS: [u32; 10] = [4, 5, 6, 7, 17, 18, 19, 20, 21, 9];

/// One rule broken in every way, or its limit just met.
pub fn one(rng: &Rng, case: usize, _row: u64) -> Vec<u8> {
    let total: usize = WAYS.iter().map(|(_, ways, inside)| ways + inside).sum();
    let mut way = case % total;
    for (number, ways, inside) in WAYS {
        if way < ways + inside {
            let mut record = base(rng, rng.size(1, 3));
            offend(rng, &mut record, number, way);
            return record.text();
        }
        way -= ways + inside;
    }
    unreachable!()
}

fn base(rng: &Rng, devices: usize) -> Record {
    let n = rng.size(2, 8);
    let mut record = draw::record(rng, n, devices);
    for device in &mut record.devices {
        for which in 0..2 {
            *device.checks(which) = draw::checks(rng, n, rng.size(0, 4));
        }
        for i in 0..n {
            if rng.chance(4) {
                device.flow[i] = None;
            }
            if rng.chance(4) {
                device.temp[i] = None;
            }
        }
    }
    record
}

pub fn break_rule(rng: &Rng, record: &mut Record, number: u32) {
    offend(rng, record, number, rng.below(ways(number)));
}

/// How many ways there are to break this number's rule.
fn ways(number: u32) -> usize {
    WAYS.iter().find(|(other, ..)| *other == number).unwrap().1
}

/// Each kind of wrong reading, and of several, in turn.
pub fn wrong_readings(rng: &Rng, case: usize, _row: u64) -> Vec<u8> {
    wrong_readings::few(rng, case).text()
}

/// Two different rules broken, for every pair; now and then a wrong line too, which is answered before both.
pub fn pairs(rng: &Rng, case: usize, _row: u64) -> Vec<u8> {
    let all: Vec<(u32, u32)> =
        (0..NUMBERS.len()).flat_map(|at| NUMBERS[at + 1..].iter().map(move |&later| (NUMBERS[at], later))).collect();
    let (earlier, later) = all[case % all.len()];
    let mut record = base(rng, rng.size(2, 3));
    break_rule(rng, &mut record, later);
    break_rule(rng, &mut record, earlier);
    let mut lines = record.lines();
    if rng.chance(8) {
        let wrong = rng.below(lines.len());
        lines[wrong].push('x');
    }
    joined(&lines)
}

/// The rule of one step broken several times: the first offender is asked for.
pub fn rivals(rng: &Rng, case: usize, _row: u64) -> Vec<u8> {
    let readings = &READINGS[..];
    let numbers = [&[7], readings, &[9], readings, &[7], readings, &[9], &[5], &[7], &[6]][case % 10];
    let mut record = base(rng, rng.pick(&[1, 1, 2, 3]));
    if numbers == [9] {
        record.fuels = (0..rng.size(2, 6)).map(|_| draw::fuel(rng)).collect();
    }
    for _ in 0..rng.size(2, 4) {
        break_rule(rng, &mut record, rng.pick(numbers));
    }
    record.text()
}

/// Breaks one rule somewhere; ways past the number that `WAYS` gives keep it.
fn offend(rng: &Rng, record: &mut Record, number: u32, way: usize) {
    let place = rng.below(record.devices.len());
    let device = &mut record.devices[place];
    match number {
        4 => record.mine = [2, 7, 256, 65_536, u32::MAX, 0, 1][way],
        5 => device.kind = [0, 7, 258, 65_537, u32::MAX, 1, 5][way],
        6 => {
            record.mine = way as u32;
            device.kind = 6;
        }
        7 => offend_checks(rng, record, place, way),
        17..=21 => offend_reading(rng, device, number, way),
        9 => offend_fuel(rng, record, way),
        _ => offend_count(rng, record, place, way),
    }
}

/// One entry more than there are places, written out in full.
fn offend_count(rng: &Rng, record: &mut Record, place: usize, way: usize) {
    if way == 2 {
        record.fuels = (0..65).map(|_| draw::fuel(rng)).collect();
    } else {
        let check = |at: u32| Check { at, drift: draw::drift(rng) };
        *record.devices[place].checks(way) = (0..33).map(check).collect();
    }
}

fn offend_checks(rng: &Rng, record: &mut Record, device: usize, way: usize) {
    let n = record.intervals;
    let which = rng.below(2);
    let checks = record.devices[device].checks(which);
    if checks.len() < 2 {
        *checks = vec![Check { at: 0, drift: 0 }, Check { at: n / 2, drift: 600 }, Check { at: n, drift: 0 }];
    }
    let place = rng.below(checks.len());
    let later = place.max(1);
    match way {
        0 => checks.last_mut().unwrap().at = n + 1,
        1 => checks[place].at = n + 1,
        2 => checks[place].at = u32::MAX,
        3 => checks[place].drift = -9_001,
        4 => checks[place].drift = 20_001,
        5 => checks[place].drift = rng.pick(&[i32::MIN, i32::MAX, -65_536, 65_536]),
        6 => checks[later].at = checks[later - 1].at,
        7 => checks.swap(later, later - 1),
        8 => checks[later].at = 0,
        9 => checks[place].drift = -9_000,
        10 => checks[place].drift = 20_000,
        _ => checks.last_mut().unwrap().at = n,
    }
}

fn offend_reading(rng: &Rng, device: &mut Device, number: u32, way: usize) {
    let i = rng.pick(&[0, device.flow.len() - 1, rng.below(device.flow.len())]);
    set_reading(rng, device, i, number, way);
}

/// Makes this entry of the number's series wrong, counted over all devices.
pub fn spoil_reading(rng: &Rng, record: &mut Record, entry: usize, number: u32) {
    let n = record.intervals as usize;
    set_reading(rng, &mut record.devices[entry / n], entry % n, number, rng.below(ways(number)));
}

fn set_reading(rng: &Rng, device: &mut Device, i: usize, number: u32, way: usize) {
    match number {
        17 => device.flow[i] = Some([30_001, 40_000, 65_534, 30_000][way]),
        18 => device.ch4[i] = Some([10_001, 30_000, 65_534, 10_000][way]),
        19 => device.temp[i] = Some([-4_001, 10_001, rng.pick(&[-32_767, 32_767]), -4_000, 10_000][way]),
        20 => device.press[i] = Some([49_999, 300_001, 1, u32::MAX, 50_000, 300_000][way]),
        _ => device.status[i] = [4, 255, 3][way],
    }
}

fn offend_fuel(rng: &Rng, record: &mut Record, way: usize) {
    if record.fuels.is_empty() {
        record.fuels = vec![Fuel { quantity: 1, factor: 1 }; rng.pick(&[1, 2, 64])];
    }
    let place = rng.pick(&[0, record.fuels.len() - 1, rng.below(record.fuels.len())]);
    let fuel = &mut record.fuels[place];
    match way {
        0..=1 => fuel.quantity = [1_000_000_001, u32::MAX][way],
        2..=3 => fuel.factor = [4_000_001, u32::MAX][way - 2],
        4 => *fuel = Fuel { quantity: u32::MAX, factor: u32::MAX },
        5 => fuel.quantity = 1_000_000_000,
        _ => fuel.factor = 4_000_000,
    }
}
