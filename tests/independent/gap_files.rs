//! Classes of records about gaps and field checks: borders of length and place, neighbours, window values, drift.

use crate::draw::{self, cut, Style, CH4_MAX, FLOW_MAX};
use crate::record::{Check, Record};
use crate::rng::Rng;

const LENGTHS: [usize; 16] = [1, 2, 15, 16, 22, 23, 24, 25, 94, 95, 96, 97, 671, 672, 673, 674];

fn window(length: usize) -> usize {
    match length {
        0..=23 => 16,
        24..=95 => 96,
        _ => 288,
    }
}

/// A record where one device has one gap: `before` intervals, the gap, `after` intervals.
struct OneGap {
    record: Record,
    device: usize,
    which: usize,
    start: usize,
    length: usize,
}

fn one_gap(rng: &Rng, row: u64, which: usize, before: usize, length: usize, after: usize) -> OneGap {
    let n = before + length + after;
    let devices = rng.size(1, (row as usize / n).min(3));
    let device = rng.below(devices);
    let mut record = draw::record(rng, n, devices);
    cut(record.devices[device].series(which), before, length);
    OneGap { record, device, which, start: before, length }
}

/// How many intervals stand before and after the gap, seen from its window of `w`.
fn surroundings(rng: &Rng, case: usize, w: usize) -> (usize, usize) {
    match case {
        0 => (w, w),
        1 => (w - 1, w),
        2 => (w, w - 1),
        3 => (w, w + rng.size(0, 20)),
        4 => (0, w + 3),
        5 => (w + 3, rng.pick(&[0, 15])),
        6 => (15, 16),
        _ => (rng.size(w, w + 40), rng.size(w, w + 40)),
    }
}

/// Gaps on both sides of every length's border, at every distance that matters from the row's ends.
pub fn borders(rng: &Rng, case: usize, row: u64) -> Record {
    let length = LENGTHS[case % 16];
    let place = case / 16 % 9;
    let (before, after) = surroundings(rng, place, window(length));
    let mut gap = one_gap(rng, row, rng.below(2), before, length, after);
    if place > 6 && rng.chance(2) {
        disturb(rng, &mut gap);
    }
    if rng.chance(3) {
        spoil_around(rng, &mut gap);
    }
    gap.record
}

/// One more missing entry near the far end of a window: inside it the window is not whole, outside it is.
fn disturb(rng: &Rng, gap: &mut OneGap) {
    let w = window(gap.length);
    let away = rng.pick(&[2, w - 1, w, w, w + 1, w + 1]);
    let end = gap.start + gap.length;
    let place = if rng.chance(2) { gap.start.checked_sub(away) } else { Some(end + away - 1) };
    let which = if rng.chance(5) { 1 - gap.which } else { gap.which };
    let series = gap.record.devices[gap.device].series(which);
    if let Some(entry) = place.and_then(|place| series.get_mut(place)) {
        *entry = None;
    }
}

/// Stopped intervals and lost temperatures around and in the gap, and a stretch where both series are missing.
fn spoil_around(rng: &Rng, gap: &mut OneGap) {
    let n = gap.record.intervals as usize;
    let device = &mut gap.record.devices[gap.device];
    for _ in 0..rng.size(1, 6) {
        let i = rng.below(n);
        match rng.below(4) {
            0 => device.status[i] = rng.below(4) as u8,
            1 => device.temp[i] = None,
            2 => device.press[i] = None,
            _ => device.status[gap.start + rng.below(gap.length)] = 1,
        }
    }
    if rng.chance(3) {
        let from = gap.start + rng.below(gap.length);
        let length = rng.size(1, 30).min(n - from);
        cut(device.series(1 - gap.which), from, length);
    }
}

/// Two gaps of one row whose windows just touch, overlap, or reach into the other gap.
pub fn neighbours(rng: &Rng, case: usize, _row: u64) -> Record {
    let lengths = [1, 5, 23, 24, 40, 95, 96, 120];
    let (first, second) = (lengths[case % 8], rng.pick(&lengths));
    let w = [window(first), window(second)][case / 8 % 2];
    let between = rng.pick(&[w - 1, w, w + 1, 2 * w - 1, 2 * w, 2 * w + 1]);
    let widest = window(first.max(second));
    let (before, after) = (widest + rng.below(3), widest + rng.below(3));
    let n = before + first + between + second + after;
    let mut record = draw::record(rng, n, 1);
    let (which, other) = (rng.below(2), rng.below(4));
    let device = &mut record.devices[0];
    cut(device.series(which), before, first);
    // Now and then the second gap is one of the other series, and no neighbour at all.
    let second_series = if other == 0 { 1 - which } else { which };
    cut(device.series(second_series), before + first + between, second);
    record
}

/// Windows that are whole, with values that tell the mean, the two limits and their rounding apart.
pub fn window_values(rng: &Rng, case: usize, row: u64) -> Record {
    let which = case / 3 % 2;
    let length = [rng.size(1, 23), rng.size(24, 95), rng.size(96, 672)][case % 3];
    let w = window(length);
    let (before, after) = (w + rng.below(4), w + rng.below(4));
    let mut gap = one_gap(rng, row, which, before, length, after);
    let device = &mut gap.record.devices[gap.device];
    let n = before + length + after;
    let max = if which == 0 { FLOW_MAX } else { CH4_MAX };
    let values = window_row(rng, case / 6 % 7, n, w, before, max);
    *device.series(which) = values;
    cut(device.series(which), before, length);
    // The other series at its top makes one unit more or less visible on the sheet.
    *device.series(1 - which) = vec![Some(if which == 0 { CH4_MAX } else { FLOW_MAX }); n];
    gap.record
}

fn window_row(rng: &Rng, style: usize, n: usize, w: usize, before: usize, max: u16) -> Vec<Option<u16>> {
    let mut row = match style {
        0 => draw::readings(rng, n, max, Style::Constant),
        1 => draw::readings(rng, n, max, Style::Uniform),
        2 => draw::readings(rng, n, max, Style::TwoValues),
        3 => (0..n).map(|i| Some(if i < before { 0 } else { max })).collect(),
        4 => vec![Some(0); n],
        5 => (0..n).map(|_| Some(max - rng.below(2_000) as u16)).collect(),
        _ => draw::readings(rng, n, max, Style::Noise),
    };
    if style == 4 {
        row[before - 1 - rng.below(w)] = Some(rng.pick(&[1, 191, 192, 193, 575, 576, 577, 9_999]));
    }
    row
}

/// Field checks at every edge, on short records that show each corrected value.
pub fn checks(rng: &Rng, case: usize, _row: u64) -> Record {
    let n = if case % 8 == 5 {
        rng.size(30, 34)
    } else if case % 5 == 0 {
        rng.size(1, 3)
    } else {
        rng.size(4, 40)
    };
    let mut record = draw::record(rng, n, rng.size(1, 2));
    for device in &mut record.devices {
        for which in 0..2 {
            let middle = rng.size(0, n);
            let beside = (middle + 1).min(n);
            let positions = match case % 8 {
                0 => vec![0],
                1 => vec![n],
                2 => vec![0, n],
                3 => vec![middle, beside],
                4 => vec![0, middle, beside, n],
                5 => (0..=n).take(32).collect(),
                _ => (0..rng.size(1, 8)).map(|_| rng.size(0, n)).collect(),
            };
            *device.checks(which) = draw::checks_at(rng, positions);
        }
        alternate(rng, &mut device.flow_checks);
        // With pure methane, or full flow, each unit of the corrected value shows.
        match rng.below(3) {
            0 => device.ch4 = vec![Some(CH4_MAX); n],
            1 => device.flow = vec![Some(FLOW_MAX); n],
            _ => {}
        }
    }
    record
}

/// Sometimes failed, passed, failed: what a passed check must keep apart.
fn alternate(rng: &Rng, checks: &mut [Check]) {
    if rng.chance(3) {
        for (k, check) in checks.iter_mut().enumerate() {
            let failed = [rng.between(500, 20_000), rng.between(-9_000, -500)];
            check.drift = if k % 2 == 1 { rng.between(-499, 499) as i32 } else { rng.pick(&failed) as i32 };
        }
    }
}

/// A gap whose windows lie in corrected stretches, with checks at the edges of gap and windows.
pub fn drift_and_gaps(rng: &Rng, case: usize, row: u64) -> Record {
    let length = if case % 4 == 0 { rng.size(24, 95) } else { rng.size(1, 23) };
    let w = window(length);
    let (before, after) = (w + rng.below(6), w + rng.below(6));
    let which = rng.below(2);
    let mut gap = one_gap(rng, row, which, before, length, after);
    let (start, end, n) = (before, before + length, before + length + after);
    let edges =
        [0, start - w, start - w + 1, start - 1, start, start + 1, end - 1, end, end + 1, end + w - 1, end + w, n];
    let positions = (0..rng.size(1, 5)).map(|_| rng.pick(&edges)).collect();
    let device = &mut gap.record.devices[gap.device];
    *device.checks(which) = draw::checks_at(rng, positions);
    let first = device.checks(which).first_mut().unwrap();
    first.drift = rng.pick(&[500, 501, 1_000, 20_000, first.drift]);
    gap.record
}
