//! The part of the self-check about the flow correction: in two steps by document 02's pair 117,260 / 4,053 against the
//! definition, in whole numbers and as a spreadsheet works it; and readings on both sides of a whole unit.

use crate::litre_borders::Side::{Above, Below, On};
use crate::litre_borders::{first, large_reading, pressure, reading, BORDERS, LARGE, NEAREST};
use crate::litre_reading::{Reading, HUNDREDTHS, LITRES, PAIR, PRESSURES};
use crate::litre_ways::{by_definition, in_two_steps};
use crate::lost_litres::lost;
use crate::rng::Rng;
use crate::selfcheck::Checks;
use crate::wrong_litres::in_binary64;
use std::collections::BTreeSet;

pub fn run(checks: &mut Checks) {
    pair(checks);
    let rng = Rng::new(3, 0);
    for one in [corners(), drawn(&rng, 100_000), beside(checks, &rng, 1_000)].concat() {
        all_ways(checks, Reading { ch4: rng.size(0, 10_000) as u16, ..one });
    }
    for turn in 0..2_600 {
        all_ways(checks, first(&rng, turn % BORDERS));
        all_ways(checks, lost(&rng));
    }
    one_too_high(checks);
    more_too_high(checks, &rng, 500);
    hundredths_too_high(checks, &rng, 500);
    nearest(checks, &rng);
}

/// Up to here every whole number is a binary64.
const EXACT: u64 = 1 << 53;

/// Numbers below this have at most 14 digits. A difference of 1 is then more than 2^-48 of what it is taken from: some
/// spreadsheet programs take much smaller ones for 0.
const FOURTEEN_DIGITS: u64 = 100_000_000_000_000;

/// The pair is document 01's fraction, cut down by 25. In two steps the largest product is a hundredth of one step's.
fn pair(checks: &mut Checks) {
    checks.same("25 times the pair", (25 * PAIR.0, 25 * PAIR.1), (100 * 29_315, 101_325));
    let largest = 30_000 * PAIR.0 * 300_000;
    checks.same("the largest product", (largest, largest < EXACT), (1_055_340_000_000_000, true));
    let in_one = 100 * largest;
    checks.same("the largest in one step", (in_one, in_one < EXACT), (105_534_000_000_000_000, false));
}

/// Every end of a range with every other, and what lies beside them.
fn corners() -> Vec<Reading> {
    let mut readings = vec![];
    for flow in [0, 1, 2, 29_999, 30_000] {
        for temp in [-4_000, -3_999, -1, 0, 1, 2_000, 9_999, 10_000] {
            for press in [50_000, 50_001, 101_324, 101_325, 101_326, 299_999, 300_000] {
                readings.push(Reading { flow, ch4: 10_000, temp, press });
            }
        }
    }
    readings
}

fn drawn(rng: &Rng, count: usize) -> Vec<Reading> {
    let draw = |_| Reading {
        flow: rng.size(0, 30_000) as u16,
        ch4: 10_000,
        temp: rng.between(-4_000, 10_000) as i16,
        press: rng.size(50_000, 300_000) as u32,
    };
    (0..count).map(draw).collect()
}

/// So many on a whole unit, and on each side of one a few parts from it and as near as any flow can be.
fn beside(checks: &mut Checks, rng: &Rng, count: usize) -> Vec<Reading> {
    let mut readings = vec![];
    for unit in (0..count).flat_map(|_| [LITRES, HUNDREDTHS]) {
        let [on, above, below] = [On, Above(9), Below(9)].map(|side| reading(rng, unit, side));
        let few = (1..=9).contains(&above.remainder(unit)) && (1..=9).contains(&below.lacking(unit));
        checks.same("sides of a unit", (on.remainder(unit), few), (0, true));
        readings.extend([on, above, below, reading(rng, unit, Above(NEAREST)), reading(rng, unit, Below(NEAREST))]);
    }
    readings
}

/// A spreadsheet's single quotient; INT is rounding down, with or without something before it.
fn single_quotient(one: Reading, int: fn(f64) -> f64) -> u64 {
    let above = one.flow as f64 * 117_260.0 * one.press as f64;
    int(above / ((one.temp as f64 + 27_315.0) * 4_053.0)) as u64
}

/// A spreadsheet's cells E to M, in whole numbers, and the largest number in them and between them. K has whole litres,
/// L hundredths, M litres of methane.
fn long_division(one: Reading) -> ([u64; 9], u64) {
    let (press, ch4) = (one.press as u64, one.ch4 as u64);
    let e = one.flow as u64 * 117_260;
    let f = (one.temp as i64 + 27_315) as u64 * 4_053;
    let g = e / f;
    let h = e - g * f;
    let i = h * press / f;
    let j = h * press - i * f;
    let k = g * press + i;
    let l = k * 100 + j * 100 / f;
    let m = l * ch4 / 1_000_000;
    let largest = [e, f, g * f, h * press, i * f, g * press, k * 100, j * 100, l, l * ch4].into_iter().max();
    ([e, f, g, h, i, j, k, l, m], largest.unwrap())
}

/// The same cells as a spreadsheet has them, in binary64.
fn spreadsheet(one: Reading, int: fn(f64) -> f64) -> [u64; 9] {
    let (press, ch4) = (one.press as f64, one.ch4 as f64);
    let e = one.flow as f64 * 117_260.0;
    let f = (one.temp as f64 + 27_315.0) * 4_053.0;
    let g = int(e / f);
    let h = e - g * f;
    let i = int(h * press / f);
    let j = h * press - i * f;
    let k = g * press + i;
    let l = k * 100.0 + int(j * 100.0 / f);
    let m = int(l * ch4 / 1_000_000.0);
    [e, f, g, h, i, j, k, l, m].map(|cell| cell as u64)
}

/// INT of spreadsheet programs that round to 15 digits first.
fn int_of_15_digits(number: f64) -> f64 {
    format!("{number:.14e}").parse::<f64>().unwrap().floor()
}

/// The definition, the two steps and the spreadsheet's cells give the same hundredths and methane, by small numbers.
fn all_ways(checks: &mut Checks, one: Reading) {
    let name = format!("{one:?}");
    let (stepwise, largest) = in_two_steps(one);
    let (cells, largest_cell) = long_division(one);
    checks.same(&name, [stepwise, (cells[7], cells[8])], [by_definition(one); 2]);
    checks.same(&name, [one.volume(LITRES), single_quotient(one, f64::floor)], [cells[6]; 2]);
    checks.same(&name, [f64::floor, int_of_15_digits].map(|int| spreadsheet(one, int)), [cells; 2]);
    checks.same(&name, (largest < EXACT, largest_cell < FOURTEEN_DIGITS), (true, true));
}

/// A reading one part short of a whole litre: a single quotient of 15 digits does not show that it is short.
fn one_too_high(checks: &mut Checks) {
    let one = Reading { flow: 29_633, ch4: 10_000, temp: -3_998, press: 298_817 };
    let worked = (one.volume(LITRES), one.remainder(LITRES), one.divisor());
    checks.same("one part short", worked, (10_987_060, 94_503_800, 94_503_801));
    checks.same("one part short, 15 digits", single_quotient(one, int_of_15_digits), 10_987_061);
    all_ways(checks, one);
}

fn rounded(above: u128, below: u128) -> u128 {
    (2 * above + below) / (2 * below)
}

/// The same quotient in whole numbers, where it has eight digits before the point: a binary64 keeps 29 bits after the
/// point there, and 15 digits are seven decimals.
fn single_quotient_of_15_digits(one: Reading) -> u64 {
    let binary = rounded((one.product() as u128) << 29, one.divisor() as u128);
    (rounded(binary * 10_000_000, 1 << 29) / 10_000_000) as u64
}

/// More of that sort: up to four parts short the single quotient is one too high, five parts short where 15 digits say
/// so, and the long division never is.
fn more_too_high(checks: &mut Checks, rng: &Rng, count: usize) {
    let mut met = BTreeSet::new();
    for _ in 0..count {
        let one = large_reading(rng, LITRES, Below(5));
        let (right, given) = (one.volume(LITRES), single_quotient(one, int_of_15_digits));
        checks.same("eight digits", right >= LARGE, true);
        checks.same("15 digits, two ways", given, single_quotient_of_15_digits(one));
        all_ways(checks, one);
        met.insert((one.lacking(LITRES), given - right));
    }
    let all = BTreeSet::from([(1, 1), (2, 1), (3, 1), (4, 1), (5, 0), (5, 1)]);
    checks.same("parts short of a litre, and litres too high", met, all);
}

/// In one quotient hundredths are too high even in binary64, by one: its product passes 2^53.
fn hundredths_too_high(checks: &mut Checks, rng: &Rng, count: usize) {
    for _ in 0..count {
        let one = large_reading(rng, HUNDREDTHS, Below(5));
        checks.same("ten digits", one.hundredths() >= 100 * LARGE, true);
        checks.same("hundredths in one quotient", in_binary64(one) - one.hundredths(), 1);
        all_ways(checks, one);
    }
}

/// The pressure that is solved for, against all pressures there are.
fn nearest(checks: &mut Checks, rng: &Rng) {
    for (one, unit) in drawn(rng, 40).into_iter().zip([LITRES, HUNDREDTHS].into_iter().cycle()) {
        let at = |press: u32| Reading { press, ..one };
        let all: Vec<u64> = (50_000..=300_000).map(|press| at(press).remainder(unit)).collect();
        let others = || all.iter().copied().filter(|&remainder| remainder > 0);
        let solved = |side| pressure(rng, unit, one.flow, one.temp, side, PRESSURES);
        let given = |side| solved(side).map(|press| at(press).remainder(unit));
        checks.same("on a whole unit", given(On), all.contains(&0).then_some(0));
        checks.same("above a whole unit", given(Above(NEAREST)), others().min());
        checks.same("below a whole unit", given(Below(NEAREST)), others().max());
    }
}
