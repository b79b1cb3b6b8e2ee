//! Calls about ventilation air that lose nearly all that rounding can lose: where demand 3 comes nearest to its limit.
//! Either stream loses less than 1.02 litres of methane. It nearly does where ppm is just below 20,000, litres × ppm
//! one millionth away from a whole litre, and the volume just beside a litre: before the next one in the inlet, after
//! the last one in the exhaust. Both together are 24.83 g, of 25.

use crate::litre_borders::common;
use crate::litre_reading::{PRESSURES, TEMPS};
use crate::protocol::MG_PER_TONNE;
use crate::rng::Rng;
use crate::vent_air::{divisor, times_pressure, Air, Round, WHOLE};
use crate::vent_call::{Interval, VentCall};
use crate::vent_draw::any_temp;
use crate::vent_exact::{claim, VentClaim};
use crate::vent_plain::{fuel_down_to, to_tonne_border};
use crate::vent_quantify::{quantify_ventilation, VentQuantified};
use crate::vent_solve::OF_FLOW_1;
use std::sync::{Mutex, OnceLock};

use Round::{Down, Up};

/// The pressure at which such a flow and temperature lose most with so many litres of air, if there is one.
fn last_with(round: Round, volume: u64, flow: u16, ppm: u16, temp: i16) -> Option<Air> {
    let press = match round {
        Down => ((volume + 1) * divisor(temp) - 1) / times_pressure(flow),
        Up => (volume - 1) * divisor(temp) / times_pressure(flow) + 1,
    };
    let air = Air { flow, ppm, temp, press: press as u32 };
    ((PRESSURES.0..=PRESSURES.1).contains(&press) && air.volume(round) == volume).then_some(air)
}

/// The least litres of air with which this ppm, which no factor of 1,000,000 divides, is one millionth away.
fn one_away(round: Round, ppm: u16) -> u64 {
    let inverse = common(ppm as u64, WHOLE).1;
    let volume = if round == Down { WHOLE - inverse } else { inverse };
    if volume <= OF_FLOW_1.0 {
        volume + WHOLE
    } else {
        volume
    }
}

/// At most one part in a hundred of a litre of air is not lost.
fn is_nearly_all(round: Round, air: Air) -> bool {
    let kept = if round == Down { air.divisor() - air.remainder() } else { air.remainder() };
    100 * kept <= air.divisor()
}

const PPM: [u16; 8] = [19_999, 19_999, 19_997, 19_993, 19_991, 19_989, 19_987, 19_983];

/// One stream that loses 1.0197 litres or more.
fn lost_air(rng: &Rng, round: Round, ppm: u16, volume: u64) -> Air {
    let flows = (volume.div_ceil(OF_FLOW_1.1 + 1) as usize, (volume / OF_FLOW_1.0) as usize);
    let draw = || last_with(round, volume, rng.size(flows.0.max(1), flows.1) as u16, ppm, any_temp(rng));
    std::iter::repeat_with(draw).flatten().find(|&air| is_nearly_all(round, air)).unwrap()
}

/// Litres of air, one millionth away in both streams, of which the inlet has no less methane than the exhaust.
fn volumes(of_inlet: u16, of_exhaust: u16) -> (u64, u64) {
    let (mut inlet, exhaust) = (one_away(Down, of_inlet), one_away(Up, of_exhaust));
    while Down.methane(inlet, of_inlet) < Up.methane(exhaust, of_exhaust) {
        inlet += WHOLE;
    }
    (inlet, exhaust)
}

/// An interval that loses nearly all that it can.
pub fn lost(rng: &Rng) -> Interval {
    let (of_inlet, of_exhaust) = (rng.pick(&PPM), rng.pick(&PPM));
    let (inlet, exhaust) = volumes(of_inlet, of_exhaust);
    Interval {
        inlet: lost_air(rng, Down, of_inlet, inlet),
        exhaust: lost_air(rng, Up, of_exhaust, exhaust),
        status: rng.pick(&[1, 2]),
    }
}

/// Of all air with 19,999 ppm and this volume the one that loses most.
fn worst_air(round: Round, volume: u64) -> Air {
    let flows = (volume.div_ceil(OF_FLOW_1.1 + 1).max(1) as u16, (volume / OF_FLOW_1.0) as u16);
    let temps = (TEMPS.0..=TEMPS.1).map(|temp| temp as i16);
    let all = temps.flat_map(|temp| (flows.0..=flows.1).map(move |flow| last_with(round, volume, flow, 19_999, temp)));
    let lost = |air: &Air| air.lost(round) as f64 / air.divisor() as f64;
    all.flatten().max_by(|a, b| lost(a).total_cmp(&lost(b))).unwrap()
}

/// With as little air as can be one millionth away, the interval that loses most. It is looked for once.
pub fn worst() -> Interval {
    static WORST: OnceLock<Interval> = OnceLock::new();
    *WORST.get_or_init(|| {
        let (inlet, exhaust) = volumes(19_999, 19_999);
        Interval { inlet: worst_air(Down, inlet), exhaust: worst_air(Up, exhaust), status: 1 }
    })
}

/// What an interval loses, in mg: litres of both streams, at 14,007 mg less their CO2.
pub fn lost_mg(one: Interval) -> f64 {
    let litres = |air: Air, round: Round| air.lost(round) as f64 / (WHOLE * air.divisor()) as f64;
    12_172.75 * (litres(one.inlet, Down) + litres(one.exhaust, Up))
}

/// Fuel such that the reduction is 1 mg below a whole tonne: the tonnes lose as much as they can.
pub fn before_next_tonne(call: &mut VentCall) {
    call.set_fuels(&[]);
    let reduction = quantify_ventilation(call).map_or(0, |quantified| quantified.figures.reduction_mg);
    fuel_down_to(call, reduction, reduction - (reduction + 1).rem_euclid(MG_PER_TONNE));
}

/// Two cases of three go beyond 24.8 g; the others lie on other borders of a tonne. At times all are the worst.
pub fn lost_by_rounding(rng: &Rng, case: usize) -> VentCall {
    let (n, devices) = rng.pick(&[(1, 1), (2, 1), (40, 1), (1, 3), (2, 16)]);
    let draw = |_| if case % 10 == 0 { worst() } else { lost(rng) };
    let all: Vec<Interval> = (0..n * devices).map(draw).collect();
    let mut call = VentCall::of(devices, &all, &[]);
    if case % 3 < 2 {
        before_next_tonne(&mut call);
    } else {
        to_tonne_border(rng, case / 3, &mut call);
    }
    call
}

/// The tonnes of a call that is nothing but this interval, with the fuel that loses most.
pub fn claim_of(one: Interval, n: usize, devices: usize) -> VentClaim {
    let mut call = VentCall::of(devices, &vec![one; n * devices], &[]);
    before_next_tonne(&mut call);
    let quantified = quantify_ventilation(&call).unwrap();
    claim(&call, &quantified.outcome, quantified.figures.tonnes)
}

/// How far calls of nothing but the worst interval fall short, beyond the tonne.
pub fn worst_text() -> String {
    let worst = worst();
    let one = |n: usize| {
        let beyond = claim_of(worst, n, 1).shortfall_mg() - MG_PER_TONNE;
        format!("{n} of the worst: short by 1 t and {beyond} mg, {:.3} mg each", beyond as f64 / n as f64)
    };
    format!("worst, {:.4} mg: {worst:?}\n{}", lost_mg(worst), [1, 64, 2_976, 35_136].map(one).join("\n"))
}

/// The call of a run that comes nearest to what demand 3 allows: mg that it is short by beyond the tonne, for each
/// counted interval, and its number.
#[derive(Default)]
pub struct Nearest(Mutex<(f64, usize)>);

impl Nearest {
    /// Takes note of an accepted call. Only few can lose much: short ones just below a whole tonne.
    pub fn add(&self, number: usize, call: &VentCall, quantified: &VentQuantified) {
        let (mg, counted) = (quantified.figures.reduction_mg, quantified.figures.counted);
        if (mg + 1).rem_euclid(MG_PER_TONNE) > 0 || counted == 0 || call.entries() > 256 {
            return;
        }
        let claim = claim(call, &quantified.outcome, quantified.figures.tonnes);
        let each = (claim.shortfall_mg() - MG_PER_TONNE) as f64 / counted as f64;
        let mut nearest = self.0.lock().unwrap();
        if each > nearest.0 || (each == nearest.0 && number < nearest.1) {
            *nearest = (each, number);
        }
    }

    pub fn text(self) -> String {
        let (each, number) = self.0.into_inner().unwrap();
        format!("nearest to 25 g an interval: {each:.3} mg beyond the tonne, by number {number}")
    }
}
