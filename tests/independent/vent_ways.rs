//! The own ways of working out the litres of ventilation air held to each other, on drawn intervals and on solved ones;
//! and how many of them tell each wrong program for litres.

use crate::litre_ways::whole_part;
use crate::natural::Fraction;
use crate::rng::Rng;
use crate::vent_air::{Air, Round, WHOLE};
use crate::vent_borders::{solved, Part, BORDERS};
use crate::vent_call::Interval;
use crate::vent_draw::{interval, STYLES};
use crate::vent_litres::{exhaust_methane, exhaust_volume, inlet_methane, inlet_volume};
use crate::vent_lost::{lost, lost_mg, worst_text};
use crate::vent_program::right_litres;
use crate::vent_solve::Rest;
use crate::vent_wrong_litres::PROGRAMS;
use std::collections::BTreeMap;

use Round::{Down, Up};

/// Whole litres of air, and whole litres of methane.
pub type Litres = (u64, u64);

/// By the definition in 128 bits; by the pair in 64 bits; as a textbook has it, in exact fractions.
pub fn three_ways(air: Air, round: Round) -> [Litres; 3] {
    [by_definition(air, round), (air.volume(round), air.methane(round)), by_fractions(air, round)]
}

fn by_definition(air: Air, round: Round) -> Litres {
    match round {
        Down => (inlet_volume(air) as u64, inlet_methane(air) as u64),
        Up => (exhaust_volume(air) as u64, exhaust_methane(air) as u64),
    }
}

/// The flow in m3, times pressure over reference pressure, times reference temperature over temperature; in litres.
fn by_fractions(air: Air, round: Round) -> Litres {
    let cubic_metres = Fraction::new(10 * air.flow as u128, 1);
    let pressures = Fraction::new(air.press as u128, 101_325);
    let temperatures = Fraction::new(29_315, (air.temp as i64 + 27_315) as u128);
    let litres = cubic_metres.times(&pressures).times(&temperatures).times(&Fraction::new(1_000, 1));
    let volume = rounded(&litres, round);
    let methane = Fraction::new(volume as u128, 1).times(&Fraction::new(air.ppm as u128, 1_000_000));
    (volume, rounded(&methane, round))
}

/// The whole part, found digit by digit; up is one more, unless that is all.
fn rounded(fraction: &Fraction, round: Round) -> u64 {
    let whole = whole_part(fraction);
    let is_all = fraction.at_most(&Fraction::new(whole as u128, 1));
    whole + (round == Up && !is_all) as u64
}

/// In turn: many of any sort; two on some border; one of a whole litre of methane; one that loses nearly all that it
/// can.
pub fn drawn(rng: &Rng, number: usize) -> Interval {
    let turn = number / 64;
    match number % 64 {
        0..60 => interval(rng, STYLES[number % STYLES.len()]),
        60..62 => solved(rng, &BORDERS[turn % BORDERS.len()], rng.below(2)),
        62 => {
            let mut whole = BORDERS.iter().filter(|border| border.part == Part::Methane && border.rest == Rest::Zero);
            solved(rng, whole.nth(turn % 2).unwrap(), rng.below(2))
        }
        _ => lost(rng),
    }
}

/// What intervals have shown.
#[derive(Default)]
pub struct Tally {
    intervals: u64,
    /// The exhaust's methane is above the inlet's.
    above: u64,
    equal: u64,
    told: BTreeMap<&'static str, u64>,
    /// Of one stream, in litres, and of a counted interval, in mg.
    most_lost: [f64; 2],
    most_lost_mg: f64,
}

impl Tally {
    /// What is wrong with the litres of an interval, if anything is.
    pub fn add(&mut self, one: Interval) -> Option<String> {
        let right = right_litres(one.inlet, one.exhaust);
        self.intervals += 1;
        self.above += (right.1 > right.0) as u64;
        self.equal += (right.1 == right.0) as u64;
        for wrong in &PROGRAMS {
            let is_told = (wrong.program.litres)(one.inlet, one.exhaust) != right;
            *self.told.entry(wrong.name).or_default() += is_told as u64;
        }
        if right.1 <= right.0 {
            self.most_lost_mg = self.most_lost_mg.max(lost_mg(one));
        }
        for (k, (air, round)) in [(one.inlet, Down), (one.exhaust, Up)].into_iter().enumerate() {
            let lost = air.lost(round) as f64 / (WHOLE * air.divisor()) as f64;
            self.most_lost[k] = self.most_lost[k].max(lost);
            let ways = three_ways(air, round);
            if ways.iter().any(|way| *way != ways[0]) {
                return Some(format!("{ways:?} by the ways of {air:?}, rounded {round:?}"));
            }
        }
        None
    }

    /// Of all intervals some are counted, some are not, some have the same in both streams; every wrong program is
    /// told; and no stream has lost 1.02 litres.
    pub fn is_whole(&self) -> bool {
        let all_sorts = (1..self.intervals).contains(&self.above) && self.equal > 0;
        let lost = self.most_lost.iter().all(|lost| (1.0197..1.02).contains(lost));
        all_sorts && lost && self.told.values().all(|&told| told > 0)
    }

    pub fn text(&self) -> String {
        let mut text = format!("{} intervals, {} above, {} equal\n", self.intervals, self.above, self.equal);
        for (name, told) in &self.told {
            text += &format!("{told:9} not as by {name}\n");
        }
        let [inlet, exhaust] = self.most_lost;
        text + &format!(
            "{inlet:.9} litres lost at most in an inlet, {exhaust:.9} added in an exhaust; {:.4} mg in both",
            self.most_lost_mg
        )
    }
}

/// From this many intervals on, all sorts must have occurred.
const ENOUGH: usize = 50_000;

/// So many intervals of a seed, each in all ways. True if all is well.
pub fn run(seed: u64, count: usize) -> bool {
    let mut tally = Tally::default();
    let mut troubles = 0;
    for number in 0..count {
        if let Some(trouble) = tally.add(drawn(&Rng::new(seed, number as u64), number)) {
            troubles += 1;
            println!("number {number}: {trouble}");
        }
    }
    println!("{}\n{}\n{troubles} different", tally.text(), worst_text());
    troubles == 0 && count > 0 && (count < ENOUGH || tally.is_whole())
}
