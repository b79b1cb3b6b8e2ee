//! The part of the self-check about lower limits: numbers worked out by hand, windows on the border, the three ways
//! held to each other, and what the generator of windows reaches.

use crate::border_windows::{apart, together, window, Side, Target, LEVELS};
use crate::compare_limits::ENOUGH;
use crate::draw::{CH4_MAX, FLOW_MAX};
use crate::gaps::statistics;
use crate::limit_kinds::{self, wanted};
use crate::limit_rows;
use crate::limit_ways::{earlier_limit, judge, three_ways, Farthest};
use crate::rng::Rng;
use crate::selfcheck::Checks;
use std::collections::BTreeSet;

pub fn run(checks: &mut Checks) {
    by_hand(checks);
    equal_by_hand(checks);
    equal_distances(checks);
    beside_border(checks);
    three_of_all(checks);
    in_turn(checks);
}

/// So many of one value and so many of another.
fn two(many: usize, one: u16, more: usize, other: u16) -> Vec<u16> {
    [vec![one; many], vec![other; more]].concat()
}

/// Half 0 and half 2,000: the mean is 1,000 and n Q2 - S² is (1,000 n)², so (n - 1) × (1,000 - L)² must be at least
/// z2 × 1,000,000. 191 × 120² is 2,750,400 and 191 × 119² is 2,704,751, beside 2,710,000 (192 × 119², the earlier
/// rule's, is 2,718,912). 575 × 82² is 3,866,300 and 575 × 81² is 3,772,575, beside 3,850,000.
fn by_hand(checks: &mut Checks) {
    for (what, values, z2, wanted) in [
        ("96 of 0 and 96 of 2,000", two(96, 0, 96, 2_000), 271, 880),
        ("288 of 0 and 288 of 2,000", two(288, 0, 288, 2_000), 385, 918),
        ("191 of 0 and one 192", two(191, 0, 1, 192), 271, 0),
        ("192 equal ones", vec![1_000; 192], 271, 1_000),
        ("576 equal ones", vec![30_000; 576], 385, 30_000),
        ("nothing but 0", vec![0; 576], 385, 0),
    ] {
        checks.same(what, three_ways(&values, z2), [wanted; 3]);
    }
    checks.same("earlier rule", earlier_limit(&two(96, 0, 96, 2_000), 271), 881);
}

/// Less 1,000 the values of the first add to 4,336 and their squares to 6,999,388, so that n Q2 - S² is 1,325,081,600;
/// 271 of these are 359,097,113,600, and so are 19,100 × 4,336². Of the second 3,696, 3,565,716, 2,040,192,000, and 385
/// of these, 785,473,920,000, are 57,500 × 3,696².
fn equal_by_hand(checks: &mut Checks) {
    let first = [two(185, 1_000, 4, 1_001), vec![1_940, 3_122, 2_270]].concat();
    let second = [two(570, 1_000, 4, 1_529), vec![1_016, 2_564]].concat();
    for (mut values, z2) in [(first, 271), (second, 385)] {
        checks.same("on the border", three_ways(&values, z2), [1_000; 3]);
        (values[0], values[1]) = (999, 1_001);
        checks.same("the least step outside", three_ways(&values, z2), [999; 3]);
    }
}

/// Every distance of a period: the condition can be an equation at multiples of `equal` alone.
fn equal_distances(checks: &mut Checks) {
    for level in LEVELS {
        let spare = |distance: i128| level.spare(level.n - 1, distance, level.widest(level.n - 1, distance));
        let found: Vec<i128> = (1..=level.step()).filter(|&distance| spare(distance) == 0).collect();
        let multiples: Vec<i128> = (1..=level.step() / level.equal).map(|k| k * level.equal).collect();
        checks.same("distances with equality", found, multiples);
    }
}

/// Windows that are made are where they should be: S and Q2 as solved for, and L or one less as the limit.
fn beside_border(checks: &mut Checks) {
    let rng = Rng::new(1, 0);
    let mut made = 0;
    while made < 200 {
        let (level, max) = (rng.pick(&LEVELS), rng.pick(&[FLOW_MAX, CH4_MAX]));
        let (side, inside) = rng.pick(&[(Side::On, true), (Side::NearestInside, true), (Side::NearestOutside, false)]);
        let Some(target) = Target::draw(&rng, level, max, side, Some(rng.between(2, 5_000) as i128)) else {
            continue;
        };
        let Some([first, second]) = window(&rng, &target, false) else {
            continue;
        };
        let limit = |halves: [&[u16]; 2]| three_ways(&halves.concat(), level.z2);
        let (_, sum, spread) = statistics(&[&first[..], &second].concat());
        checks.same("sums of a made window", (sum, spread), (target.sum, target.spread()));
        let own = limit([&first, &second]);
        let beside = if inside { limit([&apart(&first), &second]) } else { limit([&together(&first), &second]) };
        let (lower, higher) = if inside { (beside, own) } else { (own, beside) };
        checks.same("both sides of the border", higher, lower.map(|lower| lower + 1));
        made += 1;
    }
}

/// The windows of some calls, by all ways and by the earlier rule.
fn three_of_all(checks: &mut Checks) {
    let farthest = Farthest::default();
    for number in 0..ENOUGH {
        checks.same("limits of a call", judge(1, number, &farthest).difference, None);
    }
}

/// So many calls have every kind that is wanted of them, whatever the seed.
fn in_turn(checks: &mut Checks) {
    for seed in [2, 3] {
        let mut met = BTreeSet::new();
        for number in 0..ENOUGH {
            met.extend(limit_kinds::of_record(&limit_rows::generate(seed, number)));
        }
        let lacking: Vec<String> = wanted().into_iter().filter(|kind| !met.contains(kind)).collect();
        checks.same("kinds that a turn lacks", lacking, vec![]);
    }
}
