//! The own ways of working out an interval's litres held to each other, and to the earlier rule, on drawn readings and
//! on solved ones; and how many of them tell each wrong program.

use crate::draw::{CH4_MAX, FLOW_MAX};
use crate::litre_borders::{any_temp, first, BORDERS};
use crate::litre_reading::{Reading, PAIR, PRESSURES};
use crate::lost_litres::{self, lost};
use crate::natural::Fraction;
use crate::rng::Rng;
use crate::tonnes::{hundredths, methane_litres};
use crate::wrong_litres::{earlier, PROGRAMS};

/// Hundredths of a litre of gas, and whole litres of methane.
pub type Litres = (u64, u64);

/// By the definition in 128 bits; in two steps in 64 bits; as a textbook has it, in exact fractions.
pub fn three_ways(one: Reading) -> [Litres; 3] {
    [by_definition(one), in_two_steps(one).0, by_fractions(one)]
}

pub fn by_definition(one: Reading) -> Litres {
    let hundredths = hundredths(one.flow, one.temp, one.press);
    (hundredths as u64, methane_litres(hundredths, one.ch4) as u64)
}

/// Whole litres by the pair with a remainder, then a hundred times the remainder; and the largest number met. The next
/// multiple of a divisor shows that no greater quotient would do.
pub fn in_two_steps(one: Reading) -> (Litres, u64) {
    let product = one.flow as u64 * PAIR.0 * one.press as u64;
    let divisor = (one.temp as i64 + 27_315) as u64 * PAIR.1;
    let (litres, remainder) = (product / divisor, product % divisor);
    let further = 100 * remainder / divisor;
    let hundredths = 100 * litres + further;
    let content = hundredths * one.ch4 as u64;
    let methane = content / 1_000_000;
    let next = [(litres + 1) * divisor, (further + 1) * divisor, (methane + 1) * 1_000_000];
    let largest = [product, 100 * remainder, content].into_iter().chain(next).max();
    ((hundredths, methane), largest.unwrap())
}

/// The flow in m3, times pressure over reference pressure, times reference temperature over temperature; in litres.
fn by_fractions(one: Reading) -> Litres {
    let cubic_metres = Fraction::new(one.flow as u128, 10);
    let pressures = Fraction::new(one.press as u128, 101_325);
    let temperatures = Fraction::new(29_315, (one.temp as i64 + 27_315) as u128);
    let litres = cubic_metres.times(&pressures).times(&temperatures).times(&Fraction::new(1_000, 1));
    let hundredths = whole_part(&litres.times(&Fraction::new(100, 1)));
    let methane = Fraction::new(hundredths as u128, 100).times(&Fraction::new(one.ch4 as u128, 10_000));
    (hundredths, whole_part(&methane))
}

/// Digit by digit, from ten digits downwards.
pub fn whole_part(fraction: &Fraction) -> u64 {
    let mut whole = 0;
    for power in (0..10).rev().map(|digits| 10_i128.pow(digits)) {
        while fraction.at_least(whole + power) {
            whole += power;
        }
    }
    whole as u64
}

/// In turn: many of any sort; many of a small engine; one on some border; one that loses nearly all that it can.
pub fn drawn(rng: &Rng, number: usize) -> Reading {
    let gas = |flow: (usize, usize), ch4: (usize, usize)| Reading {
        flow: rng.size(flow.0, flow.1) as u16,
        ch4: rng.size(ch4.0, ch4.1) as u16,
        temp: any_temp(rng),
        press: rng.between(PRESSURES.0 as i64, PRESSURES.1 as i64) as u32,
    };
    match number % 64 {
        0..40 => gas((0, FLOW_MAX as usize), (0, CH4_MAX as usize)),
        40..62 => gas((1, 40), (2_500, 7_000)),
        62 => first(rng, rng.below(BORDERS)),
        _ => lost(rng),
    }
}

/// What readings have shown.
#[derive(Default)]
pub struct Tally {
    readings: u64,
    /// With a litre of methane more than by the earlier rule.
    one_more: u64,
    told: [u64; PROGRAMS.len()],
    most_lost: f64,
}

impl Tally {
    /// What is wrong with the litres of a reading, if anything is.
    pub fn add(&mut self, one: Reading, ways: &[Litres]) -> Option<String> {
        let (hundredths, methane) = ways[0];
        let more = methane as i64 - earlier(one) as i64;
        self.readings += 1;
        self.one_more += (more == 1) as u64;
        self.most_lost = self.most_lost.max(one.lost() as f64 / (10_000 * one.divisor()) as f64);
        for (told, program) in self.told.iter_mut().zip(&PROGRAMS) {
            *told += (program.apart(one) != 0) as u64;
        }
        if ways.iter().any(|way| *way != ways[0]) || (hundredths, methane) != (one.hundredths(), one.methane()) {
            return Some(format!("{ways:?} by the ways of {one:?}"));
        }
        (!(0..=1).contains(&more)).then(|| format!("{more} litres more than by the earlier rule: {one:?}"))
    }

    /// Of all readings some have a litre more than by the earlier rule, some have not, and every wrong program is told.
    pub fn is_whole(&self) -> bool {
        (1..self.readings).contains(&self.one_more) && self.told.iter().all(|&told| told > 0)
    }

    pub fn text(&self) -> String {
        let mut text =
            format!("{} readings, {} with a litre more than by the earlier rule\n", self.readings, self.one_more);
        for (told, program) in self.told.iter().zip(&PROGRAMS) {
            text += &format!("{told:9} not as by {}\n", program.name);
        }
        text + &format!("{:.9} litres lost at most", self.most_lost)
    }
}

/// From this many readings on, all sorts must have occurred.
const ENOUGH: usize = 10_000;

/// So many readings of a seed, each in all ways. True if all is well.
pub fn run(seed: u64, count: usize) -> bool {
    let mut tally = Tally::default();
    let mut troubles = 0;
    for number in 0..count {
        let one = drawn(&Rng::new(seed, number as u64), number);
        if let Some(trouble) = tally.add(one, &three_ways(one)) {
            troubles += 1;
            println!("number {number}: {trouble}");
        }
    }
    println!("{}\n{}\n{troubles} different", tally.text(), lost_litres::worst_text());
    troubles == 0 && count > 0 && (count < ENOUGH || tally.is_whole())
}
