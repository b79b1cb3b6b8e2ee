//! Document 02's litres of ventilation air, by its definition: whole litres of air and of methane, down for the inlet
//! and up for the exhaust. Answers are made with these.

use crate::tonnes::rounded_up;
use crate::vent_air::Air;

/// The corrected volume in litres as a fraction: numerator and denominator. Flow is in tens of m3, 10,000 litres.
fn litres(air: Air) -> (i128, i128) {
    let above = air.flow as i128 * 10_000 * 29_315 * air.press as i128;
    (above, (air.temp as i128 + 27_315) * 101_325)
}

pub fn inlet_volume(air: Air) -> i128 {
    let (above, below) = litres(air);
    above / below
}

pub fn inlet_methane(air: Air) -> i128 {
    inlet_volume(air) * air.ppm as i128 / 1_000_000
}

pub fn exhaust_volume(air: Air) -> i128 {
    let (above, below) = litres(air);
    rounded_up(above, below)
}

pub fn exhaust_methane(air: Air) -> i128 {
    rounded_up(exhaust_volume(air) * air.ppm as i128, 1_000_000)
}
