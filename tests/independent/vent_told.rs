//! Calls about ventilation air that tell a wrong program from the right one, for each of them in turn.

use crate::rng::Rng;
use crate::vent_borders::{self, borders, some_border};
use crate::vent_call::VentCall;
use crate::vent_draw::{self, spoil};
use crate::vent_methane::{self, methane_borders};
use crate::vent_missing::{self, missing_readings};
use crate::vent_plain::tonne_borders;
use crate::vent_program::RIGHT;
use crate::vent_wrong_programs::programs;

fn small(rng: &Rng) -> VentCall {
    let mut call = vent_draw::call(rng, rng.size(1, 4), rng.size(1, 3));
    spoil(rng, &mut call, 6);
    call
}

/// A small call of any sort that is accepted.
pub fn any(rng: &Rng) -> VentCall {
    match rng.below(16) {
        0 => borders(rng, rng.below(vent_borders::TURNS)),
        1..4 => methane_borders(rng, rng.below(vent_methane::TURNS)),
        4..8 => missing_readings(rng, rng.below(vent_missing::TURNS)),
        8 => tonne_borders(rng, rng.below(24)),
        _ => small(rng),
    }
}

/// Some call that the program whose turn it is would answer otherwise.
pub fn wrong_programs(rng: &Rng, case: usize) -> VentCall {
    let count = programs().count();
    let wrong = programs().nth(case % count).unwrap();
    let is_told = |call: &VentCall| wrong.program.given(call) != RIGHT.given(call);
    let draw = || wrong.at.map_or_else(|| any(rng), |at| some_border(rng, at));
    std::iter::repeat_with(draw).find(is_told).unwrap()
}
