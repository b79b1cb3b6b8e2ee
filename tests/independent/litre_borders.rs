//! Records whose counted readings lie on a whole hundredth or litre of gas or a whole litre of methane, or right beside
//! one, or where a wrong program (`wrong_litres`) has other litres: for files and for calls. What lies beside a border
//! is solved for: drawn readings seldom do. What a long run must meet (`litre_kinds`) comes in turn, whatever is drawn.

use crate::draw::{self, CH4_MAX, FLOW_MAX};
use crate::litre_reading::{divisor, times_pressure, Reading, HUNDREDTHS, LITRES, PRESSURES, TEMPS, WHOLE};
use crate::record::{Device, Record};
use crate::rng::Rng;
use crate::wrong_litres::{WrongProgram, PROGRAMS};

/// From here on a volume has as many digits before the point as there can be: litres eight, hundredths ten.
pub const LARGE: u64 = 10_000_000;

/// On a whole unit; or above or below one, as near as can be and by at most so many parts of the divisor.
#[derive(Clone, Copy)]
pub enum Side {
    On,
    Above(u64),
    Below(u64),
}

use Side::{Above, Below, On};

/// As near as the other readings allow.
pub const NEAREST: u64 = u64::MAX;

/// The greatest common divisor of a number and a modulus, and what the number is multiplied by to give it, but for
/// multiples of the modulus: Euclid's algorithm.
pub fn common(number: u64, modulus: u64) -> (u64, u64) {
    let (mut a, mut b) = (modulus as i64, number as i64);
    let (mut for_a, mut for_b) = (0, 1);
    while b != 0 {
        let whole = a / b;
        (a, b) = (b, a - whole * b);
        (for_a, for_b) = (for_b, for_a - whole * for_b);
    }
    (a as u64, for_a.rem_euclid(modulus as i64 / a) as u64)
}

/// One of the numbers of a range that leave this remainder, if any does.
pub fn one_with(rng: &Rng, remainder: u64, modulus: u64, (low, high): (u64, u64)) -> Option<u32> {
    let first = low + (remainder + modulus - low % modulus) % modulus;
    (first <= high).then(|| (first + modulus * rng.below(((high - first) / modulus + 1) as usize) as u64) as u32)
}

/// A pressure of the range at which such a flow and temperature lie on that side of a whole unit, if there is one.
pub fn pressure(rng: &Rng, unit: u64, flow: u16, temp: i16, side: Side, range: (u64, u64)) -> Option<u32> {
    let (part, factor) = common(unit * times_pressure(flow), divisor(temp));
    // Every pressure leaves a multiple of `part`, and those that leave the same one differ by multiples of this.
    let modulus = divisor(temp) / part;
    let (most, step) = match side {
        On => return one_with(rng, 0, modulus, range),
        Above(most) => (most, factor),
        Below(most) => (most, modulus - factor),
    };
    let mut multiples = 1..modulus.min((most / part).saturating_add(1));
    multiples.find_map(|k| one_with(rng, k * step % modulus, modulus, range))
}

pub fn any_temp(rng: &Rng) -> i16 {
    rng.between(TEMPS.0, TEMPS.1) as i16
}

/// Any flow but 0, at times a small one.
fn any_flow(rng: &Rng) -> u16 {
    let most = rng.pick(&[FLOW_MAX, FLOW_MAX, FLOW_MAX, 300]);
    rng.size(1, most as usize) as u16
}

/// Pure gas on that side of a whole unit.
pub fn reading(rng: &Rng, unit: u64, side: Side) -> Reading {
    loop {
        let (flow, temp) = (any_flow(rng), any_temp(rng));
        if let Some(press) = pressure(rng, unit, flow, temp, side, PRESSURES) {
            return Reading { flow, ch4: CH4_MAX, temp, press };
        }
    }
}

/// The same of 10,000,000 litres or more: much gas, cold and under pressure.
pub fn large_reading(rng: &Rng, unit: u64, side: Side) -> Reading {
    loop {
        let (flow, temp) = (rng.size(28_000, 30_000) as u16, rng.between(-4_000, -1_500) as i16);
        let least = (LARGE * divisor(temp)).div_ceil(times_pressure(flow));
        if let Some(press) = pressure(rng, unit, flow, temp, side, (least, PRESSURES.1)) {
            return Reading { flow, ch4: CH4_MAX, temp, press };
        }
    }
}

/// With a CH4 for which the hundredth next to the border makes other litres of methane, if there is one.
fn showing(rng: &Rng, one: Reading, side: Side) -> Option<Reading> {
    let start = rng.below(CH4_MAX as usize) as u16;
    let mut all = (0..CH4_MAX).map(|k| Reading { ch4: (start + k) % CH4_MAX + 1, ..one });
    all.find(|one| if let Below(_) = side { one.shows_one_more() } else { one.shows_one_fewer() })
}

/// Beside a whole unit of gas, so that a hundredth too many or too few shows. At a litre most are of pure methane.
fn of_gas(rng: &Rng, unit: u64, side: Side, draw: fn(&Rng, u64, Side) -> Reading) -> Reading {
    loop {
        let one = draw(rng, unit, side);
        let is_litre = one.remainder(LITRES) == 0;
        if unit == LITRES && !rng.chance(4) {
            return one;
        }
        if let Some(shown) = showing(rng, one, side).filter(|_| unit == LITRES || !is_litre) {
            return shown;
        }
    }
}

/// Readings with so many hundredths and a flow like this, if some tries find any.
fn with_hundredths(rng: &Rng, hundredths: u64, flow: u16, ch4: u16) -> Option<Reading> {
    let each = HUNDREDTHS * times_pressure(flow);
    let draw = |_| {
        let temp = any_temp(rng);
        Reading { flow, ch4, temp, press: (hundredths * divisor(temp)).div_ceil(each) as u32 }
    };
    let is_right =
        |one: &Reading| (PRESSURES.0..=PRESSURES.1).contains(&(one.press as u64)) && one.hundredths() == hundredths;
    (0..300).map(draw).find(is_right)
}

/// Hundredths that a flow of 1 has at least and at most.
pub const OF_FLOW_1: (u64, u64) = (3_877, 37_227);

/// Hundredths × CH4 lies on a whole litre of methane, or as near above or below one as this CH4 allows.
fn of_methane(rng: &Rng, ch4: u16, side: Side) -> Option<Reading> {
    let (part, factor) = common(ch4 as u64, WHOLE);
    let modulus = WHOLE / part;
    let rest = match side {
        On => 0,
        Above(_) => factor,
        Below(_) => modulus - factor,
    };
    let flow = rng.size(1, rng.pick(&[30, 300, 300, FLOW_MAX as usize])) as u16;
    let range = (OF_FLOW_1.0 * flow as u64, OF_FLOW_1.1 * flow as u64);
    with_hundredths(rng, one_with(rng, rest, modulus, range)? as u64, flow, ch4)
}

/// With 2 and 5 in common with 1,000,000 often enough that hundredths which are no whole litre make whole litres of
/// methane; with neither, so that every remainder occurs; or with some.
fn content(rng: &Rng, turn: usize) -> u16 {
    let drawn = || rng.size(1, CH4_MAX as usize - 1) as u16;
    let wanted = |ch4: &u16| match turn {
        0 => ch4 % 32 == 0 || ch4 % 3_125 == 0,
        1 | 2 => common(*ch4 as u64, WHOLE).0 == 1,
        _ => common(*ch4 as u64, WHOLE).0 > 1,
    };
    std::iter::repeat_with(drawn).find(wanted).unwrap()
}

/// Beside a whole litre of methane: on it; one millionth above and below; as near above and below as CH4 allows.
fn beside_methane(rng: &Rng, turn: usize) -> Reading {
    let side = [On, Above(NEAREST), Below(NEAREST), Above(NEAREST), Below(NEAREST)][turn];
    let is_right = |one: &Reading| turn > 0 || one.hundredths() % HUNDREDTHS > 0;
    std::iter::repeat_with(|| of_methane(rng, content(rng, turn), side)).flatten().find(is_right).unwrap()
}

/// Turns of borders, and after so many cases all have had theirs.
pub const BORDERS: usize = 13;
pub const TURNS: usize = BORDERS + PROGRAMS.len();

/// What a long run must have met.
pub fn first(rng: &Rng, turn: usize) -> Reading {
    let few = rng.pick(&[1, 9, 9, 9]);
    match turn {
        0 => of_gas(rng, LITRES, On, reading),
        1 => of_gas(rng, LITRES, Above(few), reading),
        2 => of_gas(rng, LITRES, Below(few), reading),
        3 => of_gas(rng, LITRES, Below(5), large_reading),
        4 => of_gas(rng, HUNDREDTHS, On, reading),
        5 => of_gas(rng, HUNDREDTHS, Above(few), reading),
        6 => of_gas(rng, HUNDREDTHS, Below(few), reading),
        7 => of_gas(rng, HUNDREDTHS, Below(5), large_reading),
        8..BORDERS => beside_methane(rng, turn - 8),
        _ => differing(rng, &PROGRAMS[turn - BORDERS], |apart| apart != 0),
    }
}

/// A reading on some border, for which the wrong program is so far from the right litres.
fn differing(rng: &Rng, program: &WrongProgram, is_right: impl Fn(i64) -> bool) -> Reading {
    let draw = || first(rng, rng.below(BORDERS));
    std::iter::repeat_with(draw).find(|&one| is_right(program.apart(one))).unwrap()
}

/// The others lie on the same side, so that no litre too many makes up for one too few.
fn further(rng: &Rng, turn: usize, before: Reading) -> Reading {
    match turn {
        1 => of_gas(rng, LITRES, Above(NEAREST), reading),
        2 | 3 => of_gas(rng, LITRES, Below(NEAREST), reading),
        5 => of_gas(rng, HUNDREDTHS, Above(NEAREST), reading),
        6 | 7 => of_gas(rng, HUNDREDTHS, Below(NEAREST), reading),
        0..BORDERS => first(rng, turn),
        _ => {
            let program = &PROGRAMS[turn - BORDERS];
            let sense = program.apart(before).signum();
            differing(rng, program, |apart| apart.signum() == sense)
        }
    }
}

/// Every reading is counted.
pub fn litre_borders(rng: &Rng, case: usize, _row: u64) -> Record {
    let (turn, n) = (case % TURNS, rng.pick(&[1, 2, 8, 24]));
    let mut record = draw::record(rng, n, rng.pick(&[1, 1, 2, 3]));
    let one = first(rng, turn);
    for (number, device) in record.devices.iter_mut().enumerate() {
        for i in 0..n {
            put(device, i, if number + i == 0 { one } else { further(rng, turn, one) });
        }
    }
    record
}

pub fn put(device: &mut Device, i: usize, reading: Reading) {
    device.flow[i] = Some(reading.flow);
    device.ch4[i] = Some(reading.ch4);
    device.temp[i] = Some(reading.temp);
    device.press[i] = Some(reading.press);
}
