//! Calls about ventilation air in which readings are missing, alone and with others, with every status, or in which the
//! exhaust is above the inlet beside another cause; and what a sheet shows of that. All come in turn.

use crate::rng::Rng;
use crate::vent_air::Round;
use crate::vent_borders::with_others;
use crate::vent_call::{Interval, VentCall, SLICES};
use crate::vent_draw::{interval, Style, MARKS};

const STATUSES: [&str; 4] = ["stopped", "running", "attested", "unrecorded"];

fn alone(series: usize, status: usize) -> String {
    format!("{} missing, {}", SLICES[series], STATUSES[status])
}

fn two(series: usize, other: usize) -> String {
    format!("{} and {} missing", SLICES[series], SLICES[other])
}

/// Whole streams, as sets of series.
const STREAMS: [(u8, &str); 3] = [(0x0F, "inlet"), (0xF0, "exhaust"), (0xFF, "everything")];

fn whole(stream: usize) -> String {
    format!("{} missing", STREAMS[stream].1)
}

fn above(status: usize) -> String {
    format!("exhaust above the inlet, {}", STATUSES[status])
}

/// Each two of the eight series.
fn pairs() -> Vec<(usize, usize)> {
    (0..8).flat_map(|series| (series + 1..8).map(move |other| (series, other))).collect()
}

/// Kinds that any long run must meet.
pub fn wanted() -> Vec<String> {
    let mut kinds: Vec<String> = (0..32).map(|turn| alone(turn / 4, turn % 4)).collect();
    kinds.extend(pairs().into_iter().map(|(series, other)| two(series, other)));
    kinds.extend((0..3).map(whole));
    kinds.extend((0..4).map(above));
    kinds
}

/// The series that are missing, as a set.
pub fn missing(interval: Interval) -> u8 {
    (0..8).filter(|&series| interval.value(series) == MARKS[series]).map(|series| 1 << series).sum()
}

/// What any interval shows.
pub fn of_interval(interval: Interval) -> Option<String> {
    let (set, status) = (missing(interval), interval.status as usize);
    let is_running = status == 1 || status == 2;
    let series: Vec<usize> = (0..8).filter(|series| set >> series & 1 == 1).collect();
    match series[..] {
        [] => {
            let (supplied, left) = (interval.inlet.methane(Round::Down), interval.exhaust.methane(Round::Up));
            (left > supplied).then(|| above(status))
        }
        [one] => Some(alone(one, status)),
        [one, other] if is_running => Some(two(one, other)),
        _ => STREAMS.iter().position(|(all, _)| *all == set && is_running).map(whole),
    }
}

/// After so many cases all have had their turn.
pub const TURNS: usize = 32 + 28 + 3 + 4;

/// An interval in which the set of series is missing, and otherwise little or nearly everything is let through.
fn lacking(rng: &Rng, set: u8, status: u8) -> Interval {
    let mut one = interval(rng, rng.pick(&[Style::Plant, Style::Near, Style::Any]));
    (0..8).filter(|series| set >> series & 1 == 1).for_each(|series| one.put(series, MARKS[series]));
    Interval { status, ..one }
}

fn with_too_much(rng: &Rng, status: u8) -> Interval {
    let draw = || interval(rng, rng.pick(&[Style::Near, Style::Any, Style::Little]));
    let is_above = |one: &Interval| one.exhaust.methane(Round::Up) > one.inlet.methane(Round::Down);
    Interval { status, ..std::iter::repeat_with(draw).find(is_above).unwrap() }
}

pub fn missing_readings(rng: &Rng, case: usize) -> VentCall {
    let (turn, running) = (case % TURNS, rng.pick(&[1, 2]));
    let one = match turn {
        0..32 => lacking(rng, 1 << (turn / 4), (turn % 4) as u8),
        32..60 => {
            let (series, other) = pairs()[turn - 32];
            lacking(rng, 1 << series | 1 << other, running)
        }
        60..63 => lacking(rng, STREAMS[turn - 60].0, running),
        _ => with_too_much(rng, (turn - 63) as u8),
    };
    with_others(rng, one)
}
