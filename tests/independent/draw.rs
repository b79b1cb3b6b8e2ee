//! Drawing of records that quantification accepts: readings in several styles, checks, fuels, whole devices.

use crate::record::{Check, Device, Fuel, Record};
use crate::rng::Rng;

pub const FLOW_MAX: u16 = 30_000;
pub const CH4_MAX: u16 = 10_000;

/// Drifts on both sides of each of the rule's borders.
pub const DRIFTS: [i32; 16] =
    [-9_000, -8_999, -501, -500, -499, -498, -1, 0, 1, 498, 499, 500, 501, 9_999, 19_999, 20_000];

/// How the readings of a series lie.
#[derive(Clone, Copy)]
pub enum Style {
    Noise,
    Uniform,
    Constant,
    TwoValues,
    Edges,
}

pub const STYLES: [Style; 5] = [Style::Noise, Style::Uniform, Style::Constant, Style::TwoValues, Style::Edges];

pub fn readings(rng: &Rng, n: usize, max: u16, style: Style) -> Vec<Option<u16>> {
    let top = max as i64;
    let (one, other) = (rng.between(0, top), rng.between(0, top));
    let base = rng.between(top / 10, top * 9 / 10);
    let draw = || match style {
        Style::Noise => rng.between(base - base / 10, base + base / 10),
        Style::Uniform => rng.between(0, top),
        Style::Constant => one,
        Style::TwoValues => rng.pick(&[one, other]),
        Style::Edges => rng.pick(&[0, 1, top - 1, top]),
    };
    (0..n).map(|_| Some(draw() as u16)).collect()
}

/// Everything measured, normal operation attested, no checks.
pub fn device(rng: &Rng, n: usize, kind: u32) -> Device {
    let (flow_style, ch4_style) = (rng.pick(&STYLES), rng.pick(&STYLES));
    let wide = rng.chance(4);
    let temp = |rng: &Rng| if wide { rng.between(-4_000, 10_000) } else { rng.between(1_500, 3_500) };
    let press = |rng: &Rng| if wide { rng.between(50_000, 300_000) } else { rng.between(95_000, 110_000) };
    Device {
        kind,
        flow: readings(rng, n, FLOW_MAX, flow_style),
        ch4: readings(rng, n, CH4_MAX, ch4_style),
        temp: (0..n).map(|_| Some(temp(rng) as i16)).collect(),
        press: (0..n).map(|_| Some(press(rng) as u32)).collect(),
        status: vec![2; n],
        ..Device::default()
    }
}

pub fn record(rng: &Rng, n: usize, devices: usize) -> Record {
    let mine = rng.below(2) as u32;
    let kinds = if mine == 1 { 6 } else { 5 };
    Record {
        intervals: n as u32,
        mine,
        fuels: (0..rng.pick(&[0, 0, 1, 2, 3])).map(|_| fuel(rng)).collect(),
        devices: (0..devices).map(|_| device(rng, n, rng.size(1, kinds) as u32)).collect(),
    }
}

pub fn fuel(rng: &Rng) -> Fuel {
    match rng.below(4) {
        0 => Fuel { quantity: rng.pick(&[0, 1, 1_000_000_000]), factor: rng.pick(&[0, 1, 4_000_000]) },
        1 => Fuel { quantity: rng.between(0, 1_000_000_000) as u32, factor: rng.between(0, 4_000_000) as u32 },
        _ => Fuel { quantity: rng.between(0, 100_000) as u32, factor: rng.between(0, 3_000) as u32 },
    }
}

pub fn drift(rng: &Rng) -> i32 {
    match rng.below(4) {
        0 => rng.between(-9_000, 20_000) as i32,
        1 => rng.between(-700, 700) as i32,
        _ => rng.pick(&DRIFTS),
    }
}

/// Up to 32 checks at increasing positions of 0..=n; the record's ends are favoured.
pub fn checks(rng: &Rng, n: usize, count: usize) -> Vec<Check> {
    let mut positions: Vec<usize> = (0..count.min(32)).map(|_| rng.size(0, n)).collect();
    if count > 1 {
        positions[0] = rng.pick(&[0, 0, 1.min(n), positions[0]]);
        positions[1] = rng.pick(&[n, n, n - 1, positions[1]]);
    }
    checks_at(rng, positions)
}

/// A check with some drift at each of these positions, in order and once.
pub fn checks_at(rng: &Rng, mut positions: Vec<usize>) -> Vec<Check> {
    positions.sort();
    positions.dedup();
    positions.iter().map(|&at| Check { at: at as u32, drift: drift(rng) }).collect()
}

/// Makes `length` entries missing from `start` on.
pub fn cut(series: &mut [Option<u16>], start: usize, length: usize) {
    series[start..start + length].fill(None);
}

impl Device {
    /// Flow (0) or CH4 (1).
    pub fn series(&mut self, which: usize) -> &mut Vec<Option<u16>> {
        if which == 0 {
            &mut self.flow
        } else {
            &mut self.ch4
        }
    }

    pub fn checks(&mut self, which: usize) -> &mut Vec<Check> {
        if which == 0 {
            &mut self.flow_checks
        } else {
            &mut self.ch4_checks
        }
    }
}
