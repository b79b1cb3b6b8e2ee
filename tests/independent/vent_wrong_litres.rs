//! Wrong programs for the litres of ventilation air: streams mixed up, roundings in another sense or at another place,
//! other units, floating point.

use crate::vent_air::{Air, Round, PAIR, WHOLE};
use crate::vent_borders::Border;
use crate::vent_borders::Part::{LargeVolume, Methane, Volume};
use crate::vent_program::{right_litres, Litres, Program, RIGHT};
use crate::vent_solve::Rest;
use crate::vent_wrong_programs::WrongProgram;

use Round::{Down, Up};

const fn wrong(name: &'static str, litres: fn(Air, Air) -> Litres) -> WrongProgram {
    WrongProgram { name, program: Program { litres, ..RIGHT }, at: None }
}

/// Told where a volume or methane lies right beside a whole litre.
const fn at(at: fn(&Border) -> bool, name: &'static str, litres: fn(Air, Air) -> Litres) -> WrongProgram {
    WrongProgram { name, program: Program { litres, ..RIGHT }, at: Some(at) }
}

pub const PROGRAMS: [WrongProgram; 45] = [
    wrong("the inlet's flow for the exhaust", |i, e| right_litres(i, Air { flow: i.flow, ..e })),
    wrong("the inlet's ppm for the exhaust", |i, e| right_litres(i, Air { ppm: i.ppm, ..e })),
    wrong("the inlet's temperature for the exhaust", |i, e| right_litres(i, Air { temp: i.temp, ..e })),
    wrong("the inlet's pressure for the exhaust", |i, e| right_litres(i, Air { press: i.press, ..e })),
    wrong("the exhaust's flow for the inlet", |i, e| right_litres(Air { flow: e.flow, ..i }, e)),
    wrong("the exhaust's ppm for the inlet", |i, e| right_litres(Air { ppm: e.ppm, ..i }, e)),
    wrong("the exhaust's temperature for the inlet", |i, e| right_litres(Air { temp: e.temp, ..i }, e)),
    wrong("the exhaust's pressure for the inlet", |i, e| right_litres(Air { press: e.press, ..i }, e)),
    wrong("the streams for each other", |i, e| right_litres(e, i)),
    wrong("inlet volume up", |i, e| with_inlet(Down.methane(i.volume(Up), i.ppm), e)),
    wrong("inlet methane up", |i, e| with_inlet(Up.methane(i.volume(Down), i.ppm), e)),
    wrong("inlet up", |i, e| with_inlet(i.methane(Up), e)),
    wrong("exhaust volume down", |i, e| with_exhaust(i, Up.methane(e.volume(Down), e.ppm))),
    wrong("exhaust methane down", |i, e| with_exhaust(i, Down.methane(e.volume(Up), e.ppm))),
    wrong("exhaust down", |i, e| with_exhaust(i, e.methane(Down))),
    wrong("both up", |i, e| (i.methane(Up) as i64, e.methane(Up) as i64)),
    wrong("both down", |i, e| (i.methane(Down) as i64, e.methane(Down) as i64)),
    wrong("inlet volume to the nearest", |i, e| with_inlet(Down.methane(nearest_volume(i), i.ppm), e)),
    wrong("inlet methane to the nearest", |i, e| with_inlet(nearest_methane(i, Down), e)),
    wrong("exhaust volume to the nearest", |i, e| with_exhaust(i, Up.methane(nearest_volume(e), e.ppm))),
    wrong("exhaust methane to the nearest", |i, e| with_exhaust(i, nearest_methane(e, Up))),
    wrong("exhaust volume down and one more", |i, e| with_exhaust(i, Up.methane(e.volume(Down) + 1, e.ppm))),
    wrong("exhaust methane down and one more", |i, e| with_exhaust(i, Down.methane(e.volume(Up), e.ppm) + 1)),
    wrong("inlet rounded once at the end", |i, e| with_inlet(once(i, Down), e)),
    wrong("exhaust rounded once at the end", |i, e| with_exhaust(i, once(e, Up))),
    wrong("inlet volume in hundredths", |i, e| with_inlet(by_hundredths(i, Down), e)),
    wrong("exhaust volume in hundredths", |i, e| with_exhaust(i, by_hundredths(e, Up))),
    wrong("the exact difference rounded down", difference),
    wrong("the difference of whole litres of air", difference_of_volumes),
    wrong("flow in tenths of a m3", |i, e| in_parts(i, e, 100)),
    wrong("flow in m3", |i, e| in_parts(i, e, 10)),
    wrong("ppm over 10,000", |i, e| over(i, e, 10_000)),
    wrong("ppm over 100,000", |i, e| over(i, e, 100_000)),
    wrong("ppm in whole per cent", |i, e| (percent(i, Down), percent(e, Up))),
    wrong("litres over 1,000,000 first", |i, e| ((i.volume(Down) / WHOLE) as i64 * i.ppm as i64, right_litres(i, e).1)),
    wrong("litres × ppm in 32 bits", |i, e| (in_32_bits(i, Down), in_32_bits(e, Up))),
    wrong("273 kelvin", |i, e| right_litres(Air { temp: i.temp - 15, ..i }, Air { temp: e.temp - 15, ..e })),
    wrong("no correction of the exhaust", |i, e| with_exhaust(i, Up.methane(e.flow as u64 * 10_000, e.ppm))),
    wrong("no correction of the inlet", |i, e| with_inlet(Down.methane(i.flow as u64 * 10_000, i.ppm), e)),
    at(
        |b| b.is_of(Down, LargeVolume),
        "one quotient in binary64, inlet",
        |i, e| with_inlet(Down.methane(quotient(i).floor() as u64, i.ppm), e),
    ),
    at(
        |b| b.is_of(Up, LargeVolume),
        "one quotient in binary64, exhaust",
        |i, e| with_exhaust(i, Up.methane(quotient(e).ceil() as u64, e.ppm)),
    ),
    at(
        |b| b.is_of(Down, Volume),
        "factors in binary64, inlet",
        |i, e| with_inlet(Down.methane(factors(i).floor() as u64, i.ppm), e),
    ),
    at(
        |b| b.is_of(Up, Volume),
        "factors in binary64, exhaust",
        |i, e| with_exhaust(i, Up.methane(factors(e).ceil() as u64, e.ppm)),
    ),
    at(
        |b| b.is_of(Down, Methane) && b.rest == Rest::Zero,
        "ppm over 10^6 in binary64, inlet",
        |i, e| with_inlet(millionths(i, Down).floor() as u64, e),
    ),
    at(
        |b| b.is_of(Up, Methane) && b.rest == Rest::Zero,
        "ppm over 10^6 in binary64, exhaust",
        |i, e| with_exhaust(i, millionths(e, Up).ceil() as u64),
    ),
];

fn with_inlet(inlet: u64, exhaust: Air) -> Litres {
    (inlet as i64, exhaust.methane(Up) as i64)
}

fn with_exhaust(inlet: Air, exhaust: u64) -> Litres {
    (inlet.methane(Down) as i64, exhaust as i64)
}

fn nearest(above: u64, below: u64) -> u64 {
    (2 * above + below) / (2 * below)
}

pub fn nearest_volume(air: Air) -> u64 {
    nearest(air.product(), air.divisor())
}

pub fn nearest_methane(air: Air, round: Round) -> u64 {
    nearest(air.volume(round) * air.ppm as u64, WHOLE)
}

/// Exact litres of methane: numerator and denominator.
pub fn exact(air: Air) -> (u128, u128) {
    (air.product() as u128 * air.ppm as u128, air.divisor() as u128 * WHOLE as u128)
}

/// No rounding of the volume.
fn once(air: Air, round: Round) -> u64 {
    let (above, below) = exact(air);
    match round {
        Down => (above / below) as u64,
        Up => above.div_ceil(below) as u64,
    }
}

/// As request 5 has it for drainage.
fn by_hundredths(air: Air, round: Round) -> u64 {
    let (above, below) = (100 * air.product() as u128, air.divisor() as u128);
    let hundredths = if round == Down { above / below } else { above.div_ceil(below) };
    round.quotient(hundredths as u64 * air.ppm as u64, 100 * WHOLE)
}

/// Inlet as it should be; the exhaust is what is left when the whole part of the exact difference is destroyed.
fn difference(inlet: Air, exhaust: Air) -> Litres {
    let ((a, b), (c, d)) = (exact(inlet), exact(exhaust));
    // Below 2^103 each: no product overflows.
    let (above, below) =
        ((a * (d / WHOLE as u128)) as i128 - (c * (b / WHOLE as u128)) as i128, b * (d / WHOLE as u128));
    let supplied = inlet.methane(Down) as i64;
    (supplied, supplied - above.div_euclid(below as i128) as i64)
}

/// The difference of litres × ppm rounded down, and not each part.
fn difference_of_volumes(inlet: Air, exhaust: Air) -> Litres {
    let millionths = |air: Air, round: Round| (air.volume(round) * air.ppm as u64) as i64;
    let supplied = inlet.methane(Down) as i64;
    (supplied, supplied - (millionths(inlet, Down) - millionths(exhaust, Up)).div_euclid(WHOLE as i64))
}

/// A unit of flow that is so many times smaller.
fn in_parts(inlet: Air, exhaust: Air, parts: u64) -> Litres {
    let litres =
        |air: Air, round: Round| round.methane(round.quotient(air.product(), parts * air.divisor()), air.ppm) as i64;
    (litres(inlet, Down), litres(exhaust, Up))
}

fn over(inlet: Air, exhaust: Air, whole: u64) -> Litres {
    let litres = |air: Air, round: Round| round.quotient(air.volume(round) * air.ppm as u64, whole) as i64;
    (litres(inlet, Down), litres(exhaust, Up))
}

fn percent(air: Air, round: Round) -> i64 {
    round.quotient(air.volume(round) * (air.ppm as u64 / 10_000), 100) as i64
}

fn in_32_bits(air: Air, round: Round) -> i64 {
    round.quotient((air.volume(round) as u32).wrapping_mul(air.ppm as u32) as u64, WHOLE) as i64
}

/// The product passes 2^53, and the quotient is rounded.
fn quotient(air: Air) -> f64 {
    air.flow as f64 * PAIR.0 as f64 * air.press as f64 / ((air.temp as f64 + 27_315.0) * PAIR.1 as f64)
}

/// As a textbook has it: litres times pressures times temperatures.
fn factors(air: Air) -> f64 {
    let kelvin = air.temp as f64 / 100.0 + 273.15;
    air.flow as f64 * 10_000.0 * (air.press as f64 / 101_325.0) * (293.15 / kelvin)
}

/// Few ppm are a binary64 when they are divided first.
fn millionths(air: Air, round: Round) -> f64 {
    air.volume(round) as f64 * (air.ppm as f64 / 1_000_000.0)
}
