//! The exact reduction of ventilation air, with no rounding anywhere, and demand 3 over it: the tonnes never exceed it,
//! and they fall short of it by less than a tonne and 25 g for each counted device-interval.

use crate::natural::Fraction;
use crate::protocol::{BASELINE_MG, CO2_MG_TIMES_4, MG_PER_TONNE};
use crate::vent_air::Air;
use crate::vent_call::{Interval, VentCall};
use std::collections::BTreeMap;

pub const MG_PER_INTERVAL: i128 = 25_000;

/// By this the exact mg are multiplied: 101,325 and 1,000,000 are from litres and ppm, 4 from the CO2 of a litre. What
/// is left of the denominators is the temperature in kelvin, in hundredths.
const SCALE: i128 = 101_325 * 1_000_000 * 4;

/// Four times the mg that an exact litre reduces if it is destroyed: 14,007 less its CO2. Inlet less exhaust is what is
/// destroyed, and 14,007 mg come with either.
const MG_TIMES_4: i128 = 4 * BASELINE_MG - CO2_MG_TIMES_4;

/// The exact mg of all this air, times `SCALE`. Readings of one temperature have one denominator.
fn scaled_mg(all: impl Iterator<Item = Air>) -> Fraction {
    let mut by_temp: BTreeMap<i16, u128> = BTreeMap::new();
    for air in all {
        let litres = air.flow as u128 * 10_000 * 29_315 * air.press as u128;
        *by_temp.entry(air.temp).or_default() += litres * air.ppm as u128 * MG_TIMES_4 as u128;
    }
    let term = |(&temp, &above): (&i16, &u128)| Fraction::new(above, (temp as i128 + 27_315) as u128);
    Fraction::sum(by_temp.iter().map(term).collect())
}

/// The tonnes that are claimed for counted intervals, held to the exact reduction.
pub struct VentClaim {
    /// Exact mg, times `SCALE`. Fuel is added to what is claimed, so that nothing is subtracted.
    inlet: Fraction,
    exhaust: Fraction,
    claimed_mg: i128,
    counted: i128,
}

impl VentClaim {
    pub fn new(counted: &[Interval], tonnes: i128, fuel_mg: i128) -> VentClaim {
        VentClaim {
            inlet: scaled_mg(counted.iter().map(|one| one.inlet)),
            exhaust: scaled_mg(counted.iter().map(|one| one.exhaust)),
            claimed_mg: tonnes * MG_PER_TONNE + fuel_mg,
            counted: counted.len() as i128,
        }
    }

    /// Do the tonnes fall short of the exact reduction by so many mg or more? Inlet less exhaust is at least that much
    /// more than what is claimed; a number below 0 stands on the other side.
    fn is_short_by(&self, mg: i128) -> bool {
        let claimed = SCALE * (self.claimed_mg + mg);
        let part = |whole: i128| Fraction::new(whole.max(0) as u128, 1);
        self.exhaust.plus(&part(claimed)).at_most(&self.inlet.plus(&part(-claimed)))
    }

    pub fn exceeds(&self) -> bool {
        !self.is_short_by(0)
    }

    /// Is more lost than a tonne and so much for each counted interval?
    pub fn loses_more_than(&self, mg_per_interval: i128) -> bool {
        self.is_short_by(MG_PER_TONNE + mg_per_interval * self.counted)
    }

    /// By how many whole mg the tonnes fall short, halving what it may be.
    pub fn shortfall_mg(&self) -> i128 {
        let (mut least, mut most) = (0, 1 << 62);
        while most - least > 1 {
            let middle = (least + most) / 2;
            *(if self.is_short_by(middle) { &mut least } else { &mut most }) = middle;
        }
        least
    }
}

/// What is claimed for a call by the row and the tonnes that it has given.
pub fn claim(call: &VentCall, outcome: &[u8], tonnes: i128) -> VentClaim {
    let counted = call.all().zip(outcome).filter(|(_, outcome)| **outcome == 0).map(|(one, _)| one);
    VentClaim::new(&counted.collect::<Vec<Interval>>(), tonnes, call.fuel_mg())
}

/// What is wrong with the tonnes of an accepted call, if anything is.
pub fn unfair(call: &VentCall, outcome: &[u8], tonnes: i128) -> Option<&'static str> {
    let claim = claim(call, outcome, tonnes);
    if claim.exceeds() {
        return Some("the tonnes exceed the exact reduction");
    }
    if claim.loses_more_than(MG_PER_INTERVAL) {
        return Some("the tonnes fall too far short of the exact reduction");
    }
    None
}
