//! Drawing of calls about ventilation air that are accepted: streams in several styles, statuses, missing readings.

use crate::draw::fuel;
use crate::litre_reading::{PRESSURES, TEMPS};
use crate::protocol::{CH4_MISSING, FLOW_MISSING, PRESS_MISSING, TEMP_MISSING};
use crate::record::Fuel;
use crate::rng::Rng;
use crate::vent_air::{Air, FLOW_MAX, PPM_MAX};
use crate::vent_call::{Interval, VentCall, STATUS};

/// How a device's two streams lie.
#[derive(Clone, Copy)]
pub enum Style {
    /// As an oxidiser's that works: little of the methane leaves it.
    Plant,
    /// The exhaust's methane is about the inlet's.
    Near,
    Any,
    Edges,
    /// Hardly any air, or hardly any methane.
    Little,
}

pub const STYLES: [Style; 6] = [Style::Plant, Style::Plant, Style::Near, Style::Any, Style::Edges, Style::Little];

pub fn any_temp(rng: &Rng) -> i16 {
    rng.between(TEMPS.0, TEMPS.1) as i16
}

pub fn any_press(rng: &Rng) -> u32 {
    rng.size(PRESSURES.0 as usize, PRESSURES.1 as usize) as u32
}

/// Everything in its range.
pub fn any_air(rng: &Rng) -> Air {
    Air {
        flow: rng.size(0, FLOW_MAX as usize) as u16,
        ppm: rng.size(0, PPM_MAX as usize) as u16,
        temp: any_temp(rng),
        press: any_press(rng),
    }
}

/// Everything at an end of its range, or beside it.
pub fn edge_air(rng: &Rng) -> Air {
    Air {
        flow: rng.pick(&[0, 1, 2, 29_999, FLOW_MAX]),
        ppm: rng.pick(&[0, 1, 50, 10_000, 19_999, PPM_MAX]),
        temp: rng.pick(&[-4_000, -3_999, -1, 0, 1, 2_000, 9_999, 10_000]),
        press: rng.pick(&[50_000, 50_001, 101_324, 101_325, 101_326, 299_999, 300_000]),
    }
}

fn little_air(rng: &Rng) -> Air {
    Air { flow: rng.size(0, 3) as u16, ppm: rng.size(0, 300) as u16, ..any_air(rng) }
}

/// A few units or parts in a hundred away.
fn about(rng: &Rng, value: u16, most: u16) -> u16 {
    let away = rng.pick(&[1, 3, 1 + value as i64 / 100, 1 + value as i64 / 10]);
    (value as i64 + rng.between(-away, away)).clamp(0, most as i64) as u16
}

fn plant_inlet(rng: &Rng) -> Air {
    Air {
        flow: rng.size(500, 25_000) as u16,
        ppm: rng.size(1_500, 12_000) as u16,
        temp: rng.between(500, 3_500) as i16,
        press: rng.size(95_000, 110_000) as u32,
    }
}

/// What an oxidiser lets through: as much air, warmer, with up to a twentieth of the methane.
fn plant_exhaust(rng: &Rng, inlet: Air) -> Air {
    let most = rng.pick(&[0, 1, inlet.ppm as usize / 100, inlet.ppm as usize / 20]);
    Air {
        flow: about(rng, inlet.flow, FLOW_MAX),
        ppm: rng.size(0, most) as u16,
        temp: rng.between(3_000, 10_000) as i16,
        press: rng.size(95_000, 110_000) as u32,
    }
}

fn near_exhaust(rng: &Rng, inlet: Air) -> Air {
    let (flow, ppm) = (about(rng, inlet.flow, FLOW_MAX), about(rng, inlet.ppm, PPM_MAX));
    let temp = rng.pick(&[inlet.temp, (inlet.temp + rng.between(-5, 5) as i16).clamp(-4_000, 10_000)]);
    let press = (inlet.press as i64 + rng.between(-900, 300)).clamp(50_000, 300_000) as u32;
    Air { flow, ppm, temp, press: rng.pick(&[inlet.press, press]) }
}

/// Nothing is missing, and the device runs.
pub fn interval(rng: &Rng, style: Style) -> Interval {
    let inlet = match style {
        Style::Plant => plant_inlet(rng),
        Style::Edges => edge_air(rng),
        Style::Little => little_air(rng),
        Style::Near | Style::Any => any_air(rng),
    };
    let exhaust = match style {
        Style::Plant => plant_exhaust(rng, inlet),
        Style::Near => near_exhaust(rng, inlet),
        Style::Edges => edge_air(rng),
        Style::Little => little_air(rng),
        Style::Any => Air { ppm: rng.size(0, rng.pick(&[30, 2_000, 20_000])) as u16, ..any_air(rng) },
    };
    Interval { inlet, exhaust, status: rng.pick(&[1, 2]) }
}

pub fn fuels(rng: &Rng) -> Vec<Fuel> {
    (0..rng.pick(&[0, 0, 1, 2, 3])).map(|_| fuel(rng)).collect()
}

/// Each device has a style of its own; nothing is missing.
pub fn call(rng: &Rng, n: usize, devices: usize) -> VentCall {
    let mut all = vec![];
    for _ in 0..devices {
        let style = rng.pick(&STYLES);
        all.extend((0..n).map(|_| interval(rng, style)));
    }
    VentCall::of(devices, &all, &fuels(rng))
}

/// The missing marks of the eight series that have one.
pub const MARKS: [i64; 8] = [
    FLOW_MISSING as i64, CH4_MISSING as i64, TEMP_MISSING as i64, PRESS_MISSING as i64, FLOW_MISSING as i64,
    CH4_MISSING as i64, TEMP_MISSING as i64, PRESS_MISSING as i64,
];

pub fn lose(call: &mut VentCall, entry: usize, series: usize) {
    call.put_value(entry, series, MARKS[series]);
}

/// About one in `one_in` intervals gets another status, and as many lose some readings.
pub fn spoil(rng: &Rng, call: &mut VentCall, one_in: usize) {
    for entry in 0..call.entries() {
        if rng.chance(one_in) {
            call.put_value(entry, STATUS, rng.between(0, 3));
        }
        if rng.chance(one_in) {
            (0..rng.pick(&[1, 1, 1, 2, 8])).for_each(|_| lose(call, entry, rng.below(MARKS.len())));
        }
    }
}
