//! From used values to litres, milligrams, tonnes and credits.

use crate::protocol::{thousandths, BASELINE_MG, CO2_MG_TIMES_4, MG_PER_TONNE};

/// The corrected volume of an interval in hundredths of a litre at standard conditions, rounded down (equation 2).
pub fn hundredths(flow: u16, temp: i16, press: u32) -> i128 {
    let above = flow as i128 * 10_000 * 29_315 * press as i128;
    above / ((temp as i128 + 27_315) * 101_325)
}

/// The methane of an interval in whole litres, rounded down, from its hundredths.
pub fn methane_litres(hundredths: i128, ch4: u16) -> i128 {
    hundredths * ch4 as i128 / 1_000_000
}

pub fn rounded_up(above: i128, below: i128) -> i128 {
    (above + below - 1) / below
}

/// A device's part of the sums, from its methane litres.
pub struct Balance {
    pub destroyed: i128,
    pub uncombusted: i128,
    pub baseline_mg: i128,
    pub co2_mg: i128,
    pub uncombusted_mg: i128,
}

pub fn balance(methane: i128, kind: u32) -> Balance {
    let destroyed = methane * thousandths(kind) / 1_000;
    let uncombusted = rounded_up(methane * (1_000 - thousandths(kind)), 1_000);
    Balance {
        destroyed,
        uncombusted,
        baseline_mg: BASELINE_MG * methane,
        co2_mg: rounded_up(CO2_MG_TIMES_4 * destroyed, 4),
        uncombusted_mg: BASELINE_MG * uncombusted,
    }
}

/// Rounded towards minus infinity.
pub fn tonnes(reduction_mg: i128) -> i128 {
    reduction_mg.div_euclid(MG_PER_TONNE)
}

pub fn credits(tonnes: i128) -> i128 {
    tonnes.max(0)
}
