//! Classes of calls about ventilation air that are accepted: small ones, all outcomes, months, many devices, extremes,
//! tonne borders, whole years.

use crate::draw;
use crate::protocol::{MG_PER_TONNE, MOST_DEVICES, MOST_INTERVALS};
use crate::record::Fuel;
use crate::rng::Rng;
use crate::vent_air::{Air, FLOW_MAX, PPM_MAX};
use crate::vent_call::{Interval, VentCall, STATUS};
use crate::vent_draw::{self, edge_air, interval, lose, spoil, Style, MARKS};
use crate::vent_quantify::quantify_ventilation;

pub fn small(rng: &Rng, case: usize) -> VentCall {
    let n = if case % 4 == 0 { rng.size(1, 3) } else { rng.size(1, 30) };
    let mut call = vent_draw::call(rng, n, rng.size(1, 4));
    spoil(rng, &mut call, 12);
    call
}

/// Every outcome, and several causes at once.
pub fn outcomes(rng: &Rng, _case: usize) -> VentCall {
    let mut call = vent_draw::call(rng, rng.size(4, 60), rng.size(1, 3));
    for entry in 0..call.entries() {
        if rng.chance(2) {
            call.put(entry, interval(rng, rng.pick(&[Style::Plant, Style::Near, Style::Little])));
        }
    }
    spoil(rng, &mut call, 3);
    call
}

/// One device's month: slow swings, stops, stretches in which a series is lost.
pub fn month(rng: &Rng, _case: usize) -> VentCall {
    let n = 2_976;
    let (flow, ppm) = (rng.between(5_000, 20_000), rng.between(2_500, 9_000));
    let mut all = vec![];
    for i in 0..n {
        let swing = ((i % 96) as i64 - 48).abs();
        let mut one = interval(rng, Style::Plant);
        one.inlet.flow = (flow + swing * 20 + rng.between(-600, 600)) as u16;
        one.inlet.ppm = (ppm - swing * 5 + rng.between(-150, 150)) as u16;
        one.inlet.temp = (1_500 + swing * 20 + rng.between(-100, 100)) as i16;
        one.exhaust.flow = (one.inlet.flow as i64 + rng.between(-500, 500)) as u16;
        one.exhaust.ppm = (one.inlet.ppm as i64 * rng.between(0, 6) / 100) as u16;
        all.push(one);
    }
    let mut call = VentCall::of(1, &all, &vent_draw::fuels(rng));
    stretches(rng, &mut call, 12);
    call
}

/// Stops, lost records, lost readings, and oxidisers that let everything through.
fn stretches(rng: &Rng, call: &mut VentCall, count: usize) {
    let all = call.entries();
    for _ in 0..count {
        let (from, length, way) = (rng.below(all - 50), rng.size(1, 50), rng.below(12));
        for entry in from..from + length {
            match way {
                0..8 => lose(call, entry, way),
                8 => call.put_value(entry, STATUS, 0),
                9 => call.put_value(entry, STATUS, 3),
                _ => {
                    let one = call.interval(entry);
                    call.put(entry, Interval { exhaust: one.inlet, ..one });
                }
            }
        }
    }
}

/// Every number of devices, in turn.
pub fn several_devices(rng: &Rng, case: usize) -> VentCall {
    let devices = [16, 2, 12, 8, 3, 6, 4, 5, 7, 9, 10, 11, 13, 14, 15][case % 15];
    let most = rng.pick(&[64, 640, 640, 2_976]);
    let mut call = vent_draw::call(rng, most / devices, devices);
    spoil(rng, &mut call, 40);
    call
}

const MOST_AIR: Air = Air { flow: FLOW_MAX, ppm: PPM_MAX, temp: -4_000, press: 300_000 };

/// One value of each series for every interval of a device, at the ends of its range; every fourth time the most air
/// and methane in both streams, and every fourth time just a bit less of it in the exhaust.
pub fn extremes(rng: &Rng, case: usize) -> VentCall {
    let (n, devices) = (rng.size(1, 12), rng.pick(&[1, 1, 2, 16]));
    let mut all = vec![];
    for _ in 0..devices {
        let mut one = Interval { inlet: edge_air(rng), exhaust: edge_air(rng), status: rng.pick(&[1, 1, 2, 2, 3, 0]) };
        if case % 4 < 2 {
            one = Interval { inlet: MOST_AIR, exhaust: MOST_AIR, status: rng.pick(&[1, 2]) };
        }
        let lost = rng.below(MARKS.len());
        match (case % 4, rng.below(3)) {
            (1, 0) => one.exhaust.flow -= 1,
            (1, 1) => one.exhaust.ppm -= 1,
            (1, _) => one.exhaust.press -= 1,
            (3, 0) => one.put(lost, MARKS[lost]),
            _ => {}
        }
        all.extend(vec![one; n]);
    }
    let mut call = VentCall::of(devices, &all, &vent_draw::fuels(rng));
    let most = Fuel { quantity: 1_000_000_000, factor: 4_000_000 };
    match case / 4 % 4 {
        0 => call.set_fuels(&[]),
        1 => call.set_fuels(&vec![most; rng.pick(&[1, 2, 63, 64])]),
        2 => call.set_fuels(&(0..64).map(|_| draw::fuel(rng)).collect::<Vec<Fuel>>()),
        _ => {}
    }
    call
}

/// Fuel chosen so that the reduction lies on, just under or just over a whole tonne, above or below 0.
pub fn tonne_borders(rng: &Rng, case: usize) -> VentCall {
    let mut call = vent_draw::call(rng, rng.size(1, 20), 1 + case % 3);
    spoil(rng, &mut call, 15);
    // Some tonnes at least: 30,000 m3 of air with 1 % of methane.
    let mut one = interval(rng, Style::Plant);
    (one.inlet.flow, one.inlet.ppm) = (rng.size(10_000, 30_000) as u16, rng.size(10_000, 20_000) as u16);
    call.put(rng.below(call.entries()), one);
    to_tonne_border(rng, case, &mut call);
    call
}

/// Replaces the call's fuel.
pub fn to_tonne_border(rng: &Rng, case: usize, call: &mut VentCall) {
    let beside = [0, -1, 1, rng.between(-999, 999)][case % 4];
    let is_positive = case / 4 % 2 == 0;
    call.set_fuels(&[]);
    let reduction = quantify_ventilation(call).map_or(0, |quantified| quantified.figures.reduction_mg);
    let whole = (reduction / MG_PER_TONNE) as i64;
    let tonnes = if is_positive && whole > 1 { rng.between(1, whole - 1) } else { -rng.between(0, 5) };
    fuel_down_to(call, reduction, tonnes as i128 * MG_PER_TONNE + beside as i128);
}

/// Fuel that leaves just so much of the reduction.
pub fn fuel_down_to(call: &mut VentCall, reduction: i128, left: i128) {
    let fuel_mg = reduction - left;
    let (whole, rest) = (fuel_mg.div_euclid(MG_PER_TONNE), fuel_mg.rem_euclid(MG_PER_TONNE));
    if (0..=4_000_000).contains(&whole) {
        call.set_fuels(&[
            Fuel { quantity: MG_PER_TONNE as u32, factor: whole as u32 },
            Fuel { quantity: rest as u32, factor: 1 },
        ]);
    }
}

/// The most methane or none, with the most fuel or none: the ends of every figure's range for that many intervals.
pub fn most_and_least(_rng: &Rng, case: usize) -> VentCall {
    let (n, devices) = [(1, 1), (1, 16), (40, 16), (640, 1)][case % 4];
    let none = Air { flow: 0, ..MOST_AIR };
    // One Pa less of the most: counted, with as much as can be in both streams.
    let one_less = Air { press: 299_999, ..MOST_AIR };
    let (inlet, exhaust) = [(MOST_AIR, none), (MOST_AIR, one_less), (none, none)][case / 4 % 3];
    let one = Interval { inlet, exhaust, status: 1 };
    let fuel = Fuel { quantity: 1_000_000_000, factor: 4_000_000 };
    VentCall::of(devices, &vec![one; n * devices], &vec![fuel; [0, 64, 1][case / 12 % 3]])
}

/// A whole year, now and then of sixteen devices.
pub fn years(rng: &Rng, case: usize) -> VentCall {
    let n = MOST_INTERVALS as usize - [0, 0, 1][case % 3];
    let devices = if case % 25 == 7 { MOST_DEVICES as usize } else { 1 };
    let mut call = vent_draw::call(rng, n, devices);
    stretches(rng, &mut call, 200 * devices);
    call
}
