//! Classes of accepted records for calls alone, which no record file has to carry: borders between rows, as many checks
//! as there can be, roundings, whole years.

use crate::draw::{self, cut, CH4_MAX, FLOW_MAX};
use crate::protocol::{MOST_CHECKS, MOST_DEVICES, MOST_INTERVALS};
use crate::record::{Check, Device, Fuel, Record};
use crate::rng::Rng;

/// Both sides of every border of the table of gaps.
const GAPS: [usize; 7] = [1, 23, 24, 95, 96, 672, 673];

fn window(gap: usize) -> usize {
    match gap {
        0..=23 => 16,
        24..=95 => 96,
        _ => 288,
    }
}

/// A gap at each distance that matters from its row's end or start, beside rows that are measured: no window may run
/// into them.
pub fn row_borders(rng: &Rng, case: usize, row: u64) -> Record {
    let gap = GAPS[case % 7];
    let w = window(gap);
    let away = [0, 1, 15, 16, w - 1, w][case / 7 % 6];
    let (at_start, which) = (case / 42 % 2 == 1, case / 84 % 2);
    let n = away + gap + w + rng.below(3);
    let devices = (row as usize / n).clamp(1, 3);
    let own = if at_start { devices - 1 } else { 0 };
    let mut record = draw::record(rng, n, devices);
    let start = if at_start { away } else { n - away - gap };
    cut(record.devices[own].series(which), start, gap);
    // At times the row beside it begins or ends with a gap too: two gaps and not one.
    if devices > 1 && rng.chance(3) {
        let length = rng.pick(&[1, 8, 23, 24]).min(n);
        let (beside, from) = if at_start { (own - 1, n - length) } else { (own + 1, 0) };
        cut(record.devices[beside].series(which), from, length);
    }
    record
}

const DRIFTS: [i32; 8] = [-9_000, -500, -499, 0, 499, 500, 501, 20_000];

/// As many checks as there can be on every instrument, 0 and N among them, with drifts at the rule's borders.
pub fn many_checks(rng: &Rng, case: usize, _row: u64) -> Record {
    let n = [31, 32, 33, 40, 64, 300][case % 6];
    let mut record = draw::record(rng, n, rng.size(1, 3));
    for device in &mut record.devices {
        for which in 0..2 {
            let mut positions: Vec<usize> = (0..=n).collect();
            while positions.len() > MOST_CHECKS {
                // The ends stay three times in four.
                let kept = rng.below(4) as usize;
                let from = if kept > 0 { 1 } else { 0 };
                positions.remove(rng.size(from, positions.len() - 1 - from));
            }
            let check = |at: usize| Check { at: at as u32, drift: rng.pick(&DRIFTS) };
            *device.checks(which) = positions.into_iter().map(check).collect();
            if rng.chance(2) {
                let length = rng.size(1, 3);
                let start = rng.below(n - length);
                cut(device.series(which), start, length);
            }
        }
    }
    record
}

/// Every reading at an end of its range or beside it, each interval its own: volumes and their roundings.
pub fn volumes(rng: &Rng, case: usize, _row: u64) -> Record {
    let n = rng.pick(&[1, 2, 24]);
    let mut record = draw::record(rng, n, 1 + case % 3);
    for device in &mut record.devices {
        for i in 0..n {
            device.flow[i] = Some(rng.pick(&[0, 1, 2, 7, 1_000, 29_999, FLOW_MAX]));
            device.ch4[i] = Some(rng.pick(&[0, 1, 4_999, 5_000, 9_999, CH4_MAX]));
            device.temp[i] = Some(rng.pick(&[-4_000, -3_999, -1, 0, 1, 2_000, 9_999, 10_000]));
            device.press[i] = Some(rng.pick(&[50_000, 50_001, 101_324, 101_325, 101_326, 299_999, 300_000]));
        }
    }
    record
}

/// The most methane or none, with the most fuel or none: the ends of every figure's range for that many intervals.
pub fn most_and_least(rng: &Rng, case: usize, _row: u64) -> Record {
    let (n, devices) = [(1, 1), (1, 16), (186, 16), (2_976, 1)][case % 4];
    let flow = [FLOW_MAX, 0][case / 4 % 2];
    let device = Device {
        kind: rng.size(1, 5) as u32,
        flow: vec![Some(flow); n],
        ch4: vec![Some(CH4_MAX); n],
        temp: vec![Some(-4_000); n],
        press: vec![Some(300_000); n],
        status: vec![rng.pick(&[1, 2]); n],
        ..Device::default()
    };
    let fuel = Fuel { quantity: 1_000_000_000, factor: 4_000_000 };
    let fuels = vec![fuel; [0, 64, 1][case / 8 % 3]];
    Record { intervals: n as u32, mine: 0, fuels, devices: vec![device; devices] }
}

/// A whole year, now and then of sixteen devices: gaps of every length, stops, lost conditions and up to 32 checks.
pub fn years(rng: &Rng, case: usize, _row: u64) -> Record {
    let n = MOST_INTERVALS as usize - [0, 0, 1][case % 3];
    let devices = if case % 8 == 7 { MOST_DEVICES as usize } else { 1 };
    let mut record = draw::record(rng, n, devices);
    for device in &mut record.devices {
        for which in 0..2 {
            *device.checks(which) = draw::checks(rng, n, rng.pick(&[0, 1, 5, 32]));
            for _ in 0..40 {
                let length = rng.pick(&[1, 2, 5, 23, 24, 60, 95, 96, 300, 672, 673, 5_000]);
                let start = rng.below(n - length + 1);
                cut(device.series(which), start, length);
            }
        }
        stretches(rng, device);
    }
    record
}

/// Stops, intervals without attestation, lost thermocouple records, temperatures and pressures.
fn stretches(rng: &Rng, device: &mut Device) {
    let n = device.status.len();
    for _ in 0..40 {
        let length = rng.size(1, 200);
        let start = rng.below(n - length);
        let own = start..start + length;
        match rng.below(6) {
            0 => device.temp[own].fill(None),
            1 => device.press[own].fill(None),
            way => device.status[own].fill([0, 1, 1, 3][way - 2]),
        }
    }
}
