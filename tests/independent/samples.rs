//! Drawing of a historian's samples: readings that are right and readings that are refused, near every border, and
//! whole exports that are read.

use crate::historian::SAMPLE;
use crate::rng::Rng;

pub type Sample = [u8; SAMPLE];

/// The binary32 of 3,000, and the exponent that it has.
pub const MOST: u32 = 0x453b_8000;
pub const MOST_EXPONENT: u32 = 138;
pub const INFINITY: u32 = 0x7f80_0000;
pub const MINUS: u32 = 0x8000_0000;

pub fn sample(quality: u8, pattern: u32) -> Sample {
    let [a, b, c, d] = pattern.to_le_bytes();
    [quality, a, b, c, d]
}

pub fn good(pattern: u32) -> Sample {
    sample(0, pattern)
}

/// The binary32 that is nearest to so many tenths: that of a number typed with one decimal.
pub fn of_tenths(tenths: usize) -> u32 {
    (tenths as f32 / 10.0).to_bits()
}

/// A drawn fraction under this exponent, at an end of its range as often as not.
pub fn with_exponent(rng: &Rng, exponent: u32) -> u32 {
    let any = rng.next() as u32 & 0x7f_ffff;
    exponent << 23 | rng.pick(&[0, 1, 0x7f_ffff, 0x40_0000, any, any, any, any])
}

/// A tenth or a neighbour of one, a border of the whole range more often than others. It may be no right reading.
pub fn near_border(rng: &Rng) -> u32 {
    let tenths = rng.pick(&[0, 1, 7, 10, 29_999, 30_000, rng.size(0, 30_000), rng.size(0, 30_000)]);
    of_tenths(tenths).wrapping_add(rng.between(-3, 3) as u32)
}

/// A right reading, of every kind there is.
pub fn right_reading(rng: &Rng) -> u32 {
    match rng.below(8) {
        0 => with_exponent(rng, rng.size(0, MOST_EXPONENT as usize) as u32).min(MOST),
        1 => with_exponent(rng, rng.size(120, MOST_EXPONENT as usize) as u32).min(MOST),
        2 => with_exponent(rng, 0),
        3 => rng.pick(&[0, MINUS, 1, MOST, MOST - 1]),
        4..=5 => near_border(rng) % (MOST + 1),
        6 => of_tenths(rng.size(0, 30_000)),
        _ => (rng.size(0, 300_000) as f32 / 100.0).to_bits(),
    }
}

/// How many kinds of wrong readings there are.
pub const WRONG_WAYS: usize = 16;

/// A reading that is refused, each kind in turn.
pub fn wrong_reading(rng: &Rng, way: usize) -> u32 {
    let payload = rng.pick(&[1, 2, 0x3f_ffff, 0x40_0000, 0x40_0001, 0x7f_ffff, rng.size(1, 0x7f_ffff) as u32]);
    match way % WRONG_WAYS {
        0 => MOST + 1,
        1 => MOST + rng.size(2, 9) as u32,
        2 => rng.size(MOST as usize + 1, INFINITY as usize - 1) as u32,
        3 => with_exponent(rng, rng.size(MOST_EXPONENT as usize + 1, 254) as u32),
        4 => INFINITY - 1,
        5 => INFINITY,
        6 => MINUS | INFINITY,
        7 => INFINITY | payload,
        8 => MINUS | INFINITY | payload,
        9 => MINUS | 1,
        10 => MINUS | rng.size(1, 0x7f_ffff) as u32,
        11 => MINUS | with_exponent(rng, rng.size(1, 254) as u32),
        12 => MINUS | (right_reading(rng) & !MINUS).max(1),
        13 => MINUS | (INFINITY - 1),
        // what stands there in the other byte order, or with the quality behind the reading
        14 => of_tenths(rng.size(20_000, 30_000)).swap_bytes() | MINUS | 1,
        // in another unit
        _ => (rng.size(300_100, 300_000_000) as f32 / 100.0).to_bits(),
    }
}

/// Any 32 bits, or such as a good sample would be refused for.
pub fn any_bytes(rng: &Rng) -> u32 {
    match rng.below(3) {
        0 => rng.next() as u32,
        1 => wrong_reading(rng, rng.below(WRONG_WAYS)),
        _ => right_reading(rng),
    }
}

/// A sample without a reading.
pub fn missing(rng: &Rng) -> Sample {
    sample(rng.pick(&[1, 2]), any_bytes(rng))
}

/// A sample that is read, one in three without a reading.
pub fn right_sample(rng: &Rng) -> Sample {
    if rng.chance(3) {
        missing(rng)
    } else {
        good(right_reading(rng))
    }
}

/// Each quality that there is none of in turn, with any bytes.
pub fn unknown(rng: &Rng, case: usize) -> Sample {
    sample(3 + (case % 253) as u8, any_bytes(rng))
}

pub fn right_samples(rng: &Rng, count: usize) -> Vec<Sample> {
    (0..count).map(|_| right_sample(rng)).collect()
}

/// An export as a mine has it: a flow that swings with the day, in hundredths of m3, and some gaps.
pub fn real(rng: &Rng, count: usize) -> Vec<Sample> {
    let middle = rng.between(20_000, 250_000);
    let value = |i: usize| middle + ((i % 96) as i64 - 48).abs() * 100 + rng.between(-5_000, 5_000);
    let mut samples: Vec<Sample> =
        (0..count).map(|i| good((value(i).clamp(0, 300_000) as f32 / 100.0).to_bits())).collect();
    for _ in 0..count / 60 {
        let (start, length) = (rng.below(count), rng.pick(&[1, 1, 2, 3, 8, 23, 24, 30]));
        let end = (start + length).min(count);
        samples[start..end].fill(missing(rng));
    }
    samples
}
