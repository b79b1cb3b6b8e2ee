//! The part of the self-check about calls: lengths and counts that no record file can carry, a device's account, exact
//! arithmetic and demand 3.

use crate::call::{Call, FACTOR, QUANTITY, SLICES};
use crate::exact::{unfair, Given};
use crate::natural::{Fraction, Natural};
use crate::protocol::MG_PER_TONNE;
use crate::quantify::quantify;
use crate::record::{Device, Fuel, Record};
use crate::rng::Rng;
use crate::selfcheck::Checks;

pub fn run(checks: &mut Checks) {
    lengths(checks);
    counts(checks);
    order(checks);
    accounts(checks);
    naturals(checks);
    fractions(checks);
    fairness(checks);
}

/// Document 01's worked interval, for so many intervals and devices, with these fuels.
pub fn worked(n: usize, devices: usize, fuels: &[Fuel]) -> Call {
    let device = Device {
        kind: 2,
        flow: vec![Some(30_000); n],
        ch4: vec![Some(10_000); n],
        temp: vec![Some(2_000); n],
        press: vec![Some(101_325); n],
        status: vec![1; n],
        ..Device::default()
    };
    Call::of(&Record { intervals: n as u32, mine: 0, fuels: fuels.to_vec(), devices: vec![device; devices] })
}

pub const FUEL: Fuel = Fuel { quantity: 1_000, factor: 700_000 };

/// Number, device and place; three times 0 where nothing is refused.
pub fn answer(call: &Call) -> (u32, u64, u64) {
    quantify(call).err().map_or((0, 0, 0), |refusal| (refusal.number, refusal.device, refusal.place))
}

fn lengths(checks: &mut Checks) {
    let right = worked(3, 2, &[FUEL]);
    checks.same("right lengths", right.lengths(), [2, 4, 128, 128, 6, 6, 6, 6, 6, 1, 1, 6, 6, 6]);
    checks.same("right lengths", answer(&right), (0, 0, 0));
    for slice in 0..SLICES.len() {
        for length in [0, right.lengths()[slice] - 1, right.lengths()[slice] + 1, 1 << 32] {
            let mut call = right.clone();
            call.told.push((slice, length));
            checks.same(SLICES[slice], answer(&call), (3, 0, 0));
        }
    }
    let mut call = right.clone();
    call.told = vec![(QUANTITY, 65), (FACTOR, 65)];
    checks.same("65 fuel lines", answer(&call), (9, 0, 64));
    call.told = vec![(QUANTITY, 65), (FACTOR, 64)];
    checks.same("65 quantities, 64 factors", answer(&call), (3, 0, 0));
    checks.same("64 fuel lines", answer(&worked(1, 1, &[FUEL; 64])), (0, 0, 0));
}

fn counts(checks: &mut Checks) {
    for (instrument, count, wanted) in [
        (0, 32, (7, 0, 1)), // 32 entries, all at position 0
        (0, 33, (7, 0, 32)),
        (3, 33, (7, 1, 32)),
        (2, u32::MAX, (7, 1, 32)),
        (1, 1, (0, 0, 0)),
    ] {
        let mut call = worked(3, 2, &[]);
        call.counts[instrument] = count;
        checks.same("a count", answer(&call), wanted);
    }
    let mut call = worked(3, 2, &[]);
    call.positions[1] = u32::MAX;
    call.drifts[1] = i32::MIN;
    call.counts[0] = 1;
    checks.same("an entry past the count", answer(&call), (0, 0, 0));
    call.counts[0] = 2;
    checks.same("an entry within the count", answer(&call), (7, 0, 1));
    call.counts[1] = 33;
    checks.same("flow's entries before CH4's count", answer(&call), (7, 0, 1));
    call.counts[0] = 33;
    checks.same("a count before its entries", answer(&call), (7, 0, 32));
}

/// Everything is wrong; what is mended makes way for the next number.
fn order(checks: &mut Checks) {
    let mut call = worked(3, 2, &[FUEL, FUEL]);
    call.factor[1] = 4_000_001;
    checks.same("fuel", answer(&call), (9, 0, 1));
    call.flow[5] = 30_001;
    checks.same("17 before 9", answer(&call), (17, 1, 2));
    call.status[4] = 4;
    checks.same("21 of an earlier interval before 17", answer(&call), (21, 1, 1));
    call.counts[3] = 33;
    checks.same("7 before 21", answer(&call), (7, 1, 32));
    call.kinds[1] = 6;
    checks.same("6 before 7", answer(&call), (6, 1, 0));
    call.kinds[1] = 258;
    checks.same("5 before 7", answer(&call), (5, 1, 0));
    call.kinds[0] = 6;
    checks.same("5 before 6, though of a later device", answer(&call), (5, 1, 0));
    call.mine = 256;
    checks.same("4 before 5", answer(&call), (4, 0, 0));
    call.rows[2] += 1;
    checks.same("3 before 4", answer(&call), (3, 0, 0));
    call.devices = 17;
    checks.same("2 before 3", answer(&call), (2, 0, 0));
    call.intervals = 0;
    checks.same("1 before 2", answer(&call), (1, 0, 0));
}

/// Q 50,000 of kind 2, as document 01 has it, beside a device that is stopped in one of its two intervals.
fn accounts(checks: &mut Checks) {
    let mut call = worked(2, 2, &[]);
    call.flow = vec![250, 250, 30_000, 65_535];
    call.status = vec![1, 2, 0, 1];
    let accounts = quantify(&call).map(|quantified| quantified.accounts).unwrap_or_default();
    let numbers: Vec<[u64; 13]> = accounts.iter().map(|account| account.numbers()).collect();
    let first = [2, 0, 0, 0, 0, 0, 0, 0, 0, 0, 50_000, 49_750, 250];
    let second = [0, 0, 0, 1, 0, 0, 0, 1, 0, 0, 0, 0, 0];
    checks.same("accounts", numbers, vec![first, second]);
}

fn decimal(digits: &str) -> Natural {
    let next = |number: Natural, digit: u32| number.times(&Natural::of(10)).plus(&Natural::of(digit as u128));
    digits.chars().filter_map(|digit| digit.to_digit(10)).fold(Natural::of(0), next)
}

fn naturals(checks: &mut Checks) {
    let factorial = (1..=40).fold(Natural::of(1), |product, factor| product.times(&Natural::of(factor)));
    checks.same("40!", factorial.clone(), decimal("815915283247897734345611269596115894272000000000"));
    let rng = Rng::new(5, 0);
    for _ in 0..200 {
        let (a, b) = (rng.next() >> rng.below(64), rng.next() >> rng.below(64));
        let (x, y) = (Natural::of(a as u128), Natural::of(b as u128));
        checks.same("a product", x.times(&y), Natural::of(a as u128 * b as u128));
        checks.same("a sum", x.plus(&y), Natural::of(a as u128 + b as u128));
        checks.same("an order", x.cmp(&y), a.cmp(&b));
        checks.same("a distance", [x.distance(&y), y.distance(&x)], [0; 2].map(|_| Natural::of(a.abs_diff(b) as u128)));
        // (f + x)(f + y) = f f + f (x + y) + x y, far beyond 128 bits
        let wide = factorial.plus(&x).times(&factorial.plus(&y));
        let parts = factorial.times(&factorial).plus(&factorial.times(&x.plus(&y))).plus(&x.times(&y));
        checks.same("a wide product", wide.clone(), parts);
        checks.same("a wide distance", factorial.distance(&wide).plus(&factorial), wide.clone());
        checks.same("a wide order", wide < wide.plus(&Natural::of(1)), true);
        let carried = Natural::of(u128::MAX).plus(&Natural::of(1)).times(&x);
        checks.same("a carry", carried, Natural::of(u64::MAX as u128 + 1).times(&x).times(&Natural::of(1 << 64)));
    }
    let power = Natural::of(1 << 127).times(&Natural::of(1 << 127));
    checks.same("a borrow", power.distance(&Natural::of(1)).plus(&Natural::of(1)), power);
    checks.same("an order of lengths", Natural::of(1 << 64) > Natural::of(u64::MAX as u128), true);
    checks.same(
        "nothing",
        (Natural::of(0).times(&factorial), Natural::of(0).plus(&factorial)),
        (Natural::of(0), factorial),
    );
}

fn fractions(checks: &mut Checks) {
    let sum = |terms: &[(u128, u128)]| Fraction::sum(terms.iter().map(|&(a, b)| Fraction::new(a, b)).collect());
    let borders = |sum: &Fraction| [-1, 0, 1, 2].map(|whole| sum.at_least(whole));
    checks.same("a half and a third", borders(&sum(&[(1, 2), (1, 3)])), [true, true, false, false]);
    checks.same("and a sixth", borders(&sum(&[(1, 2), (1, 3), (1, 6)])), [true, true, true, false]);
    checks.same("no term", borders(&sum(&[])), [true, true, false, false]);
    let sevenths = sum(&[(1, 7); 14]);
    checks.same("fourteen sevenths", (sevenths.at_least(2), sevenths.at_least(3)), (true, false));
    let orders = |one: &Fraction, other: &Fraction| (one.at_most(other), other.at_most(one));
    let half = Fraction::new(7, 2);
    checks.same("7/2 from 3 and from 4", orders(&half.distance(3), &half.distance(4)), (true, true));
    checks.same("7/2 from 3, squared", orders(&half.distance(3).squared(), &Fraction::new(2, 8)), (true, true));
    checks.same("a third of 7/2 and 1", orders(&half.over(3), &Fraction::new(1, 1)), (false, true));
}

/// The worked interval has no rounding in it: without fuel it reduces 36,335,658,750 mg exactly.
fn fairness(checks: &mut Checks) {
    let verdict = |reduction: i128, tonnes: i128| {
        let fuel_mg = 36_335_658_750 - reduction;
        let fuels = [(MG_PER_TONNE, fuel_mg / MG_PER_TONNE), (fuel_mg % MG_PER_TONNE, 1)];
        let call = worked(1, 1, &fuels.map(|(q, f)| Fuel { quantity: q as u32, factor: f as u32 }));
        let given = Given { outcome: &[0], flow_used: &[30_000], content_used: &[10_000], tonnes };
        unfair(&call, &given).is_none()
    };
    for (reduction, tonnes, wanted) in [
        (35_635_658_750, 35, true),
        (35_635_658_750, 36, false),
        (35_635_658_750, 34, false),
        (35_000_000_000, 35, true),
        (34_999_999_999, 35, false),
        (36_000_025_999, 35, true),
        (36_000_026_000, 35, false),
        (-1, 0, false),
        (-1, -1, true),
        (0, 0, true),
        (-999_974_001, -2, true),
        (-999_974_000, -2, false),
    ] {
        checks.same(&format!("{tonnes} t of {reduction} mg"), verdict(reduction, tonnes), wanted);
    }
}
