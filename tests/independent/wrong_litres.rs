//! Wrong programs for the methane of an interval, each of which some reading must tell from the right one. A wrong
//! program that no reading could tell is none: `selfcheck_litres` has those that are equal by arithmetic.

use crate::litre_reading::{methane, Reading, HUNDREDTHS, LITRES, WHOLE};

pub struct WrongProgram {
    pub name: &'static str,
    pub methane: fn(Reading) -> u64,
}

impl WrongProgram {
    /// How many litres it has more than are right.
    pub fn apart(&self, one: Reading) -> i64 {
        (self.methane)(one) as i64 - one.methane() as i64
    }
}

const fn wrong(name: &'static str, methane: fn(Reading) -> u64) -> WrongProgram {
    WrongProgram { name, methane }
}

pub const PROGRAMS: [WrongProgram; 14] = [
    wrong("the earlier rule", earlier),
    wrong("one rounding at the end", once),
    wrong("hundredths to the nearest", |one| methane(nearest(HUNDREDTHS * one.product(), one.divisor()), one.ch4)),
    wrong("hundredths rounded up", |one| methane((HUNDREDTHS * one.product()).div_ceil(one.divisor()), one.ch4)),
    wrong("methane to the nearest", |one| nearest(one.hundredths() * one.ch4 as u64, WHOLE)),
    wrong("methane rounded up", |one| (one.hundredths() * one.ch4 as u64).div_ceil(WHOLE)),
    wrong("tenths of a litre", |one| one.volume(10) * one.ch4 as u64 / 100_000),
    wrong("thousandths of a litre", |one| one.volume(1_000) * one.ch4 as u64 / 10_000_000),
    wrong("the remainder times 10", |one| two_steps(one, |remainder| 10 * remainder)),
    wrong("100 remainders in 32 bits", |one| two_steps(one, |remainder| (100 * remainder) as u32 as u64)),
    wrong("CH4 over 10,000 first", |one| one.hundredths() * (one.ch4 as u64 / 10_000) / 100),
    wrong("CH4 in whole per cent", |one| one.hundredths() * (one.ch4 as u64 / 100) / 10_000),
    wrong("hundredths over 1,000,000", |one| one.hundredths() / WHOLE * one.ch4 as u64),
    wrong("one quotient in binary64", |one| methane(in_binary64(one), one.ch4)),
];

/// Whole litres of gas first.
pub fn earlier(one: Reading) -> u64 {
    one.volume(LITRES) * one.ch4 as u64 / 10_000
}

/// No rounding to hundredths.
fn once(one: Reading) -> u64 {
    one.product() * one.ch4 as u64 / (10_000 * one.divisor())
}

fn nearest(above: u64, below: u64) -> u64 {
    (2 * above + below) / (2 * below)
}

/// Whole litres with a remainder, and then something else than a hundred times that.
fn two_steps(one: Reading, next: fn(u64) -> u64) -> u64 {
    let further = next(one.remainder(LITRES)) / one.divisor();
    methane(100 * one.volume(LITRES) + further, one.ch4)
}

/// The product passes 2^53, and the quotient is rounded.
pub fn in_binary64(one: Reading) -> u64 {
    let above = one.flow as f64 * 11_726_000.0 * one.press as f64;
    (above / ((one.temp as f64 + 27_315.0) * 4_053.0)).floor() as u64
}
