//! The exact reduction, with no rounding anywhere, and demand 3 over it: the tonnes never exceed it, and they fall
//! short of it by less than a tonne, 13 g for each counted device-interval and 13 g for each device.

use crate::call::Call;
use crate::litre_reading::Reading;
use crate::natural::Fraction;
use crate::protocol::{thousandths, BASELINE_MG, CO2_MG_TIMES_4, MG_PER_TONNE};
use std::collections::BTreeMap;

pub const MG_PER_INTERVAL: i128 = 13_000;
const MG_PER_DEVICE: i128 = 13_000;

/// What a call has given: its three rows, and the tonnes.
pub struct Given<'a> {
    pub outcome: &'a [u8],
    pub flow_used: &'a [u16],
    pub content_used: &'a [u16],
    pub tonnes: i128,
}

/// A counted interval: its device's kind, and the values that are used.
pub struct Counted {
    pub kind: u32,
    pub reading: Reading,
}

/// 4,000 times the mg that a litre of methane reduces in a device of this kind: baseline, less CO2 of the part
/// destroyed, less the part not combusted (equation 1).
fn mg_times_4000(kind: u32) -> i128 {
    let destroyed = thousandths(kind);
    4_000 * BASELINE_MG - CO2_MG_TIMES_4 * destroyed - 4 * BASELINE_MG * (1_000 - destroyed)
}

/// By this the exact reduction is multiplied: 101,325 and 10,000 are from litres and content, 4,000 from above. What is
/// left of the denominators is the temperature in kelvin, in hundredths.
const SCALE: i128 = 101_325 * 10_000 * 4_000;

/// The exact mg of all counted intervals before fuel, times `SCALE`. Intervals of one temperature have one denominator.
fn scaled_mg(counted: &[Counted]) -> Fraction {
    let mut by_temp: BTreeMap<i16, u128> = BTreeMap::new();
    for &Counted { kind, reading } in counted {
        let litres = reading.flow as u128 * 100 * 29_315 * reading.press as u128;
        let methane = litres * reading.ch4 as u128;
        *by_temp.entry(reading.temp).or_default() += methane * mg_times_4000(kind) as u128;
    }
    let term = |(&temp, &above): (&i16, &u128)| Fraction::new(above, (temp as i128 + 27_315) as u128);
    Fraction::sum(by_temp.iter().map(term).collect())
}

/// The tonnes that are claimed for a call's counted intervals, held to the exact reduction.
pub struct Claim {
    /// The exact mg before fuel, times `SCALE`. Fuel is added to the other side, so that nothing is subtracted from it.
    exact: Fraction,
    claimed_mg: i128,
    counted: i128,
    devices: i128,
}

impl Claim {
    pub fn new(counted: &[Counted], devices: i128, tonnes: i128, fuel_mg: i128) -> Claim {
        let claimed_mg = tonnes * MG_PER_TONNE + fuel_mg;
        Claim { exact: scaled_mg(counted), claimed_mg, counted: counted.len() as i128, devices }
    }

    /// Do the tonnes fall short of the exact reduction by so many mg or more?
    fn is_short_by(&self, mg: i128) -> bool {
        self.exact.at_least(SCALE * (self.claimed_mg + mg))
    }

    pub fn exceeds(&self) -> bool {
        !self.is_short_by(0)
    }

    /// Is more lost than a tonne, so much for each counted interval, and 13 g for each device?
    pub fn loses_more_than(&self, mg_per_interval: i128) -> bool {
        self.is_short_by(MG_PER_TONNE + mg_per_interval * self.counted + MG_PER_DEVICE * self.devices)
    }

    /// By how many whole mg the tonnes fall short, halving what it may be.
    pub fn shortfall_mg(&self) -> i128 {
        let (mut least, mut most) = (0, 1 << 62);
        while most - least > 1 {
            let middle = (least + most) / 2;
            *(if self.is_short_by(middle) { &mut least } else { &mut most }) = middle;
        }
        least
    }
}

fn counted(call: &Call, given: &Given) -> Vec<Counted> {
    let entries = (0..given.outcome.len()).filter(|&i| given.outcome[i] <= 2);
    let one = |i: usize| {
        let (flow, ch4) = (given.flow_used[i], given.content_used[i]);
        let reading = Reading { flow, ch4, temp: call.temp[i], press: call.press[i] };
        Counted { kind: call.kinds[i / call.intervals as usize], reading }
    };
    entries.map(one).collect()
}

/// What is claimed for a call by what it has given.
pub fn claim(call: &Call, given: &Given) -> Claim {
    let fuel_mg = call.quantity.iter().zip(&call.factor).map(|(&q, &f)| q as i128 * f as i128).sum();
    Claim::new(&counted(call, given), call.devices as i128, given.tonnes, fuel_mg)
}

/// What is wrong with the tonnes of an accepted call, if anything is.
pub fn unfair(call: &Call, given: &Given) -> Option<&'static str> {
    let claim = claim(call, given);
    if claim.exceeds() {
        return Some("the tonnes exceed the exact reduction");
    }
    if claim.loses_more_than(MG_PER_INTERVAL) {
        return Some("the tonnes fall too far short of the exact reduction");
    }
    None
}
