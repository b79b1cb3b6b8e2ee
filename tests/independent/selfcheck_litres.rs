//! The part of the self-check about an interval's litres: the ways held to each other and to the earlier rule, wrong
//! programs, what is lost, and that everything that a long run must meet has its turn.

use crate::call::Call;
use crate::litre_borders::{litre_borders, TURNS};
use crate::litre_kinds::{of_sheet, wanted};
use crate::litre_reading::{methane, Reading, LITRES};
use crate::litre_ways::{by_definition, drawn, in_two_steps, three_ways, Tally};
use crate::lost_litres::{lost, lost_by_rounding, worst, worst_claim};
use crate::quantify::quantify;
use crate::rng::Rng;
use crate::selfcheck::Checks;
use crate::wrong_litres::{earlier, PROGRAMS};
use std::collections::BTreeSet;

pub fn run(checks: &mut Checks) {
    by_hand(checks);
    ways(checks, 1_000_000);
    senses(checks, 100_000);
    lost_readings(checks);
    worst_calls(checks);
    for seed in 0..12 {
        in_turn(checks, seed);
    }
}

/// 10,001 × 9,999 is 99,999,999: one millionth short of 100 litres. 300 × 4,999 is 1,499,700. 125 × 8,000 is 1,000,000,
/// a whole litre from a litre and a quarter, where the earlier rule had none.
fn by_hand(checks: &mut Checks) {
    let given =
        [(10_001, 9_999), (10_002, 9_999), (300, 4_999), (125, 8_000), (124, 8_000), (99, 10_000), (100, 10_000)];
    checks.same("methane", given.map(|(hundredths, ch4)| methane(hundredths, ch4)), [99, 100, 1, 1, 0, 0, 1]);
    let one = Reading { flow: 1, ch4: 4_999, temp: 10_000, press: 50_000 };
    checks.same("flow 1 at 100 C", three_ways(one), [(3_876, 19); 3]);
    checks.same("the same by the earlier rule", earlier(one), 18);
}

/// Every number stays below 2^53, and no interval has fewer litres than by the earlier rule, or two more. The fractions
/// take longer: `litre-ways` has more of them.
fn ways(checks: &mut Checks, count: usize) {
    let (rng, mut tally, mut largest) = (Rng::new(9, 0), Tally::default(), 0);
    for number in 0..count {
        let one = drawn(&rng, number);
        let ((hundredths, methane), largest_here) = in_two_steps(one);
        largest = largest.max(largest_here);
        let mut ways = vec![by_definition(one), (hundredths, methane)];
        if number < 12_800 {
            ways = three_ways(one).to_vec();
        }
        checks.same("litres", tally.add(one, &ways), None);
    }
    checks.same("every number is small", largest < 1 << 53, true);
    checks.same("all sorts of readings", tally.is_whole(), true);
}

/// How far each wrong program is from the right litres at least and at most. Equal by arithmetic, and so no programs of
/// their own: two divisions one after the other are the division by the product, so that hundredths × CH4 over 10,000,
/// then over 100, is right; and hundredths over 100, or those of two steps without the remainder, are whole litres, so
/// that these are the earlier rule.
fn senses(checks: &mut Checks, count: usize) {
    let rng = Rng::new(10, 0);
    let mut apart = [(0, 0); PROGRAMS.len()];
    for number in 0..count {
        let one = drawn(&rng, number);
        for ((least, most), program) in apart.iter_mut().zip(&PROGRAMS) {
            (*least, *most) = (program.apart(one).min(*least), program.apart(one).max(*most));
        }
        let content = one.ch4 as u64;
        checks.same("over 10,000, then over 100", one.hundredths() * content / 10_000 / 100, one.methane());
        let without_remainder = methane(100 * one.volume(LITRES), one.ch4);
        checks.same("no remainder", [without_remainder, one.hundredths() / 100 * content / 10_000], [earlier(one); 2]);
    }
    // At most one litre too many or too few; more where CH4 or hundredths lose digits before they are multiplied.
    checks.same("one too few", [0, 6, 8].map(|k| apart[k]), [(-1, 0); 3]);
    checks.same("one too many", [1, 2, 3, 4, 5, 7].map(|k| apart[k]), [(0, 1); 6]);
    checks.same("too few", [9, 10, 11, 12].map(|k| (apart[k].0 < 0, apart[k].1)), [(true, 0); 4]);
    checks.same("binary64", apart[13].1, 1);
}

/// In 10^8 parts of a litre.
fn lost_parts(one: Reading) -> u128 {
    one.lost() as u128 * 100_000_000 / (10_000 * one.divisor() as u128)
}

/// From 1.0098 litres on, and never 1.01.
fn lost_readings(checks: &mut Checks) {
    let rng = Rng::new(11, 0);
    for _ in 0..2_000 {
        let one = lost(&rng);
        checks.same("lost", (100_980_000..101_000_000).contains(&lost_parts(one)), true);
        checks.same("999,999 millionths", one.methane_rest(), 999_999);
    }
    checks.same("the most that is lost", lost_parts(worst()), 100_999_799);
}

/// Calls that are nothing but the worst reading. 12 g for each of a month's intervals are not enough of kinds 2, 4 and
/// 5; 13 g are, of every kind. Of kind 2 the readings alone lose 12,232.980 mg each, of at most 12,233.006.
fn worst_calls(checks: &mut Checks) {
    for kind in 1..=6 {
        let claim = worst_claim(2_976, 1, kind);
        let (beyond_12, beyond_13) = (claim.loses_more_than(12_000), claim.loses_more_than(13_000));
        checks.same(&format!("kind {kind}"), (beyond_12, beyond_13), ([2, 4, 5].contains(&kind), false));
    }
    for (n, devices, wanted) in
        [(64, 1, 1_000_786_805), (2_976, 1, 1_036_416_062), (35_136, 1, 1_429_826_292), (35_136, 16, 7_877_220_700)]
    {
        let claim = worst_claim(n, devices, 2);
        let beyond = [12_000, 12_232, 12_233, 13_000].map(|mg| claim.loses_more_than(mg));
        checks.same("beyond so many mg", beyond, [true, n > 64, false, false]);
        checks.same("mg short", claim.shortfall_mg(), wanted);
    }
}

/// One turn of the classes has every kind that is wanted of them.
fn in_turn(checks: &mut Checks, seed: u64) {
    let mut met = BTreeSet::new();
    let borders = (0..TURNS).map(|case| litre_borders(&Rng::new(seed, case as u64), case, 4_000));
    let lost = (0..3).map(|case| lost_by_rounding(&Rng::new(seed, case as u64), case, 4_000));
    for record in borders.chain(lost) {
        let quantified = quantify(&Call::of(&record)).unwrap();
        let all = quantified.rows.iter().all(|row| row.outcome.iter().all(|&outcome| outcome == 0));
        checks.same("all are counted", all, true);
        met.extend(of_sheet(&quantified));
    }
    let lacking: Vec<String> = wanted().into_iter().filter(|kind| !met.contains(kind)).collect();
    checks.same("kinds that a turn lacks", lacking, vec![]);
}
