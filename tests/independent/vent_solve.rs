//! Readings of ventilation air that are solved for: with a remainder, with so many litres of air, or with so many
//! litres of methane. Drawn readings seldom have them.

use crate::litre_borders::{common, one_with};
use crate::litre_reading::PRESSURES;
use crate::rng::Rng;
use crate::vent_air::{divisor, times_pressure, Air, Round, FLOW_MAX, PPM_MAX, WHOLE};
use crate::vent_draw::any_temp;

/// Litres that a flow of 1 has at least and at most, rounded down.
pub const OF_FLOW_1: (u64, u64) = (3_876, 37_227);

/// What the most air has.
pub const MOST_LITRES: u64 = 1_116_812_781;

/// From here on a volume has as many digits as there can be.
pub const LARGE: u64 = 1_000_000_000;

/// A pressure of the range at which such a flow and temperature leave this remainder, if there is one.
fn pressure(rng: &Rng, flow: u16, temp: i16, remainder: u64, range: (u64, u64)) -> Option<u32> {
    let (part, factor) = common(times_pressure(flow), divisor(temp));
    if remainder % part > 0 {
        return None;
    }
    let modulus = divisor(temp) / part;
    one_with(rng, remainder / part % modulus * factor % modulus, modulus, range)
}

/// From the last whole litre on, or up to the next one.
#[derive(Clone, Copy, Debug, PartialEq, Eq)]
pub enum Rest {
    Zero,
    After(u64),
    Before(u64),
}

impl Rest {
    fn of(self, modulus: u64) -> u64 {
        match self {
            Rest::Zero => 0,
            Rest::After(parts) => parts,
            Rest::Before(parts) => modulus - parts,
        }
    }
}

/// Any flow but 0, at times a small one.
fn any_flow(rng: &Rng) -> u16 {
    let most = rng.pick(&[FLOW_MAX, FLOW_MAX, FLOW_MAX, 300]);
    rng.size(1, most as usize) as u16
}

/// Air whose volume leaves just this remainder.
pub fn with_rest(rng: &Rng, rest: Rest) -> Air {
    loop {
        let (flow, temp) = (any_flow(rng), any_temp(rng));
        if let Some(press) = pressure(rng, flow, temp, rest.of(divisor(temp)), PRESSURES) {
            return Air { flow, ppm: 0, temp, press };
        }
    }
}

/// The same of 1,000,000,000 litres or more: much air, cold and under pressure.
pub fn large_with_rest(rng: &Rng, rest: Rest) -> Air {
    loop {
        let (flow, temp) = (rng.size(28_000, 30_000) as u16, rng.between(-4_000, -1_500) as i16);
        let least = (LARGE * divisor(temp)).div_ceil(times_pressure(flow));
        if least > PRESSURES.1 {
            continue;
        }
        if let Some(press) = pressure(rng, flow, temp, rest.of(divisor(temp)), (least, PRESSURES.1)) {
            return Air { flow, ppm: 0, temp, press };
        }
    }
}

/// Air of about so many litres, or nothing if no flow has so many or the pressure is not in range.
fn about(rng: &Rng, volume: u64) -> Option<Air> {
    let (least, most) = (volume.div_ceil(OF_FLOW_1.1 + 1).max(1), (volume / OF_FLOW_1.0).min(FLOW_MAX as u64));
    if least > most {
        return None;
    }
    let flow = rng.size(least as usize, most as usize) as u16;
    let temp = if volume > LARGE { rng.between(-4_000, -1_500) as i16 } else { any_temp(rng) };
    let press = volume * divisor(temp) / times_pressure(flow);
    (PRESSURES.0..=PRESSURES.1).contains(&press).then_some(Air { flow, ppm: 0, temp, press: press as u32 })
}

/// The air itself and with one Pa more.
fn and_next(air: Air) -> impl Iterator<Item = Air> {
    let last = PRESSURES.1 as u32;
    [air, Air { press: last.min(air.press + 1), ..air }].into_iter()
}

/// Air of just so many litres, if some tries find any.
pub fn with_volume(rng: &Rng, round: Round, volume: u64, ppm: u16) -> Option<Air> {
    let tries = (0..300).filter_map(|_| about(rng, volume)).flat_map(and_next);
    tries.map(|air| Air { ppm, ..air }).find(|air| air.volume(round) == volume)
}

/// Air with just so many litres of methane, if some tries find any.
pub fn with_methane(rng: &Rng, round: Round, litres: u64) -> Option<Air> {
    if litres == 0 {
        let none = rng.pick(&[(0, 7), (1, 0), (900, 0), (0, 0)]);
        return Some(Air { flow: none.0, ppm: none.1, temp: any_temp(rng), press: 101_325 });
    }
    let least = (litres * WHOLE).div_ceil(MOST_LITRES).max(1);
    let most = (litres * WHOLE / OF_FLOW_1.0).min(PPM_MAX as u64);
    if least > most {
        return None;
    }
    let draw = |_| {
        let ppm = rng.size(least as usize, most as usize) as u16;
        // Somewhere among the volumes that have so many litres.
        let part = rng.below(WHOLE as usize * 3 / 4) as u64;
        let millionths = if round == Round::Down { litres * WHOLE + part } else { litres * WHOLE - part };
        let volume = millionths / ppm as u64;
        about(rng, volume).map(|air| Air { ppm, ..air })
    };
    (0..200).filter_map(draw).flat_map(and_next).find(|air| air.methane(round) == litres)
}

/// A ppm that has 2 and 5 in common with 1,000,000 often enough to make whole litres of methane; or neither.
fn ppm(rng: &Rng, rest: Rest) -> u16 {
    let drawn = || rng.size(1, PPM_MAX as usize) as u16;
    let wanted = |ppm: &u16| match rest {
        Rest::Zero => common(*ppm as u64, WHOLE).0 >= 64,
        _ => common(*ppm as u64, WHOLE).0 == 1,
    };
    std::iter::repeat_with(drawn).find(wanted).unwrap()
}

/// Air whose litres × ppm leave just this remainder by 1,000,000.
pub fn with_methane_rest(rng: &Rng, round: Round, rest: Rest) -> Air {
    loop {
        let ppm = ppm(rng, rest);
        let (part, factor) = common(ppm as u64, WHOLE);
        let modulus = WHOLE / part;
        let remainder = rest.of(WHOLE) / part % modulus * factor % modulus;
        let range = (OF_FLOW_1.0 + 1, rng.pick(&[2_000_000, 2_000_000, 20_000_000, 200_000_000]));
        let volume = one_with(rng, remainder, modulus, range);
        if let Some(air) = volume.and_then(|volume| with_volume(rng, round, volume as u64, ppm)) {
            return air;
        }
    }
}
