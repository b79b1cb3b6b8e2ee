//! Wrong programs for outcome 6, the exhaust's methane above the inlet's in rounded litres.

use crate::vent_air::{Air, Round};
use crate::vent_program::{Litres, Program, RIGHT};
use crate::vent_wrong_litres::{exact, nearest_methane};
use crate::vent_wrong_programs::WrongProgram;

use Round::{Down, Up};

const fn wrong(name: &'static str, is_above: fn(Air, Air, Litres) -> bool) -> WrongProgram {
    WrongProgram { name, program: Program { is_above, ..RIGHT }, at: None }
}

pub const PROGRAMS: [WrongProgram; 17] = [
    wrong("6 by exact litres", |i, e, _| is_exactly_above(i, e)),
    wrong("6 by litres rounded the other way", |i, e, _| e.methane(Down) > i.methane(Up)),
    wrong("6 by litres rounded down", |i, e, _| e.methane(Down) > i.methane(Down)),
    wrong("6 by litres rounded up", |i, e, _| e.methane(Up) > i.methane(Up)),
    wrong("6 by litres rounded to the nearest", |i, e, _| nearest_methane(e, Up) > nearest_methane(i, Down)),
    wrong("6 by litres × ppm", |i, e, _| millionths(e, Up) > millionths(i, Down)),
    wrong("6 by litres × ppm, both down", |i, e, _| millionths(e, Down) > millionths(i, Down)),
    wrong("6 by flow × ppm", |i, e, _| e.flow as u32 * e.ppm as u32 > i.flow as u32 * i.ppm as u32),
    wrong("6 by ppm", |i, e, _| e.ppm > i.ppm),
    wrong("6 by flow", |i, e, _| e.flow > i.flow),
    wrong("6 by litres of air", |i, e, _| e.volume(Up) > i.volume(Down)),
    wrong("6 where equal", |_, _, (inlet, exhaust)| exhaust >= inlet),
    wrong("6 where equal and 0", |_, _, (inlet, exhaust)| exhaust > inlet || inlet == 0),
    wrong("6 from two litres on", |_, _, (inlet, exhaust)| exhaust > inlet + 1),
    wrong("6 only with methane in the inlet", |_, _, (inlet, exhaust)| exhaust > inlet && inlet > 0),
    wrong("never 6", |_, _, _| false),
    WrongProgram {
        name: "the exhaust cut to the inlet",
        program: Program {
            litres: |i, e| (i.methane(Down) as i64, e.methane(Up).min(i.methane(Down)) as i64),
            ..RIGHT
        },
        at: None,
    },
];

fn millionths(air: Air, round: Round) -> u64 {
    air.volume(round) * air.ppm as u64
}

/// Multiplied across; 1,000,000 is in both denominators.
fn is_exactly_above(inlet: Air, exhaust: Air) -> bool {
    let ((a, _), (c, _)) = (exact(inlet), exact(exhaust));
    c * inlet.divisor() as u128 > a * exhaust.divisor() as u128
}
