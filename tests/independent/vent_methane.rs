//! Calls about ventilation air in which the exhaust's methane is just the inlet's, a litre more or a litre less, or
//! where a stream has none; and what a sheet shows of that. All come in turn, whatever is drawn.

use crate::rng::Rng;
use crate::vent_air::{Air, Round, FLOW_MAX, PPM_MAX, WHOLE};
use crate::vent_borders::with_others;
use crate::vent_call::{Interval, VentCall};
use crate::vent_draw::{any_press, any_temp};
use crate::vent_solve::with_methane;

use Round::{Down, Up};

/// How many litres the exhaust has more than the inlet.
const APART: [(i64, &str); 3] = [(0, "equal to"), (1, "one above"), (-1, "one below")];

const SIZES: [(u64, u64, &str); 3] =
    [(1, 9, "a few litres"), (10, 999_999, "some litres"), (1_000_000, 22_000_000, "a million litres")];

/// Why a stream has no methane. Only the inlet's can be rounded to 0.
const NONE: [&str; 3] = ["no ppm", "no flow", "rounding"];

/// A little methane in the exhaust is a litre.
const LITTLE: &str = "less than a litre";

const MOST: &str = "22,336,255 litres in the inlet, 22,336,256 in the exhaust";

fn apart(apart: usize, size: usize) -> String {
    format!("exhaust {} the inlet, {}", APART[apart].1, SIZES[size].2)
}

fn none(inlet: &str, exhaust: &str) -> String {
    format!("no methane in the inlet by {inlet}, in the exhaust by {exhaust}")
}

fn little(inlet: &str) -> String {
    format!("{LITTLE} in the exhaust, {inlet}")
}

/// Kinds that any long run must meet.
pub fn wanted() -> Vec<String> {
    let mut kinds: Vec<String> = (0..9).map(|turn| apart(turn / 3, turn % 3)).collect();
    kinds.extend(NONE.iter().flat_map(|inlet| NONE[..2].iter().map(|exhaust| none(inlet, exhaust))));
    kinds.extend(NONE.map(|inlet| little(&format!("none in the inlet by {inlet}"))));
    kinds.extend([little("one in the inlet"), MOST.to_string()]);
    kinds
}

/// Why there is no litre of methane, if there is none.
fn reason(air: Air, litres: u64) -> Option<&'static str> {
    match (air.flow, air.ppm) {
        (0, 0) => None,
        (_, 0) => Some(NONE[0]),
        (0, _) => Some(NONE[1]),
        _ => (litres == 0).then_some(NONE[2]),
    }
}

/// What a running interval with whole readings shows.
pub fn of_interval(interval: Interval) -> Option<String> {
    let Interval { inlet, exhaust, .. } = interval;
    let (supplied, left) = (inlet.methane(Down), exhaust.methane(Up));
    if (supplied, left) == (22_336_255, 22_336_256) {
        return Some(MOST.to_string());
    }
    let is_little = exhaust.volume(Up) * (exhaust.ppm as u64) < WHOLE;
    match (supplied, left) {
        (0, 0) => Some(none(reason(inlet, 0)?, reason(exhaust, 0)?)),
        (0, 1) if is_little => Some(little(&format!("none in the inlet by {}", reason(inlet, 0)?))),
        (1, 1) if is_little => Some(little("one in the inlet")),
        (1.., 1..) => {
            let by = APART.iter().position(|(by, _)| left as i64 - supplied as i64 == *by)?;
            let size = SIZES.iter().position(|(least, most, _)| (*least..=*most).contains(&supplied))?;
            Some(apart(by, size))
        }
        _ => None,
    }
}

/// After so many cases all have had their turn.
pub const TURNS: usize = 9 + 6 + 3 + 2;

pub fn methane_borders(rng: &Rng, case: usize) -> VentCall {
    let turn = case % TURNS;
    let (inlet, exhaust) = match turn {
        0..9 => at_a_distance(rng, APART[turn / 3].0, SIZES[turn % 3]),
        9..15 => (inlet_without(rng, (turn - 9) / 2), without(rng, turn % 2)),
        15..18 => (inlet_without(rng, turn - 15), little_exhaust(rng)),
        18 => (solved(rng, Down, 1), little_exhaust(rng)),
        _ => {
            let most = Air { flow: FLOW_MAX, ppm: PPM_MAX, temp: -4_000, press: 300_000 };
            (most, most)
        }
    };
    with_others(rng, Interval { inlet, exhaust, status: rng.pick(&[1, 2]) })
}

fn solved(rng: &Rng, round: Round, litres: u64) -> Air {
    std::iter::repeat_with(|| with_methane(rng, round, litres)).flatten().next().unwrap()
}

fn at_a_distance(rng: &Rng, apart: i64, (least, most, _): (u64, u64, &str)) -> (Air, Air) {
    let litres = rng.size(least as usize + 1, most as usize - 1) as u64;
    (solved(rng, Down, litres), solved(rng, Up, (litres as i64 + apart) as u64))
}

fn some_air(rng: &Rng, flow: u16, ppm: u16) -> Air {
    Air { flow, ppm, temp: any_temp(rng), press: any_press(rng) }
}

fn without(rng: &Rng, reason: usize) -> Air {
    let (flow, ppm) = (rng.size(1, FLOW_MAX as usize) as u16, rng.size(1, PPM_MAX as usize) as u16);
    match reason {
        0 => some_air(rng, flow, 0),
        _ => some_air(rng, 0, ppm),
    }
}

fn inlet_without(rng: &Rng, reason: usize) -> Air {
    if reason < 2 {
        without(rng, reason)
    } else {
        // At most 260,589 litres with 3 ppm, or 37,227 with 26.
        some_air(rng, rng.size(1, 7) as u16, rng.size(1, 3) as u16)
    }
}

fn little_exhaust(rng: &Rng) -> Air {
    some_air(rng, rng.size(1, 7) as u16, rng.size(1, 3) as u16)
}
