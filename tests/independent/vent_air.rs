//! One stream of ventilation air in an interval, and where its volume and its methane lie beside whole litres: the
//! volume is P = flow × 11,726,000 × pressure over F = (temperature + 27,315) × 4,053. In 64 bits, which have room.

use crate::protocol::{CH4_MISSING, FLOW_MISSING, PRESS_MISSING, TEMP_MISSING};

/// 10,000 × 29,315 / 101,325 in lowest terms.
pub const PAIR: (u64, u64) = (11_726_000, 4_053);

/// Litres × ppm that make a litre of methane.
pub const WHOLE: u64 = 1_000_000;

pub const FLOW_MAX: u16 = 30_000;
pub const PPM_MAX: u16 = 20_000;

/// Readings as they are lent: a missing one is its mark.
#[derive(Clone, Copy, Debug, PartialEq, Eq)]
pub struct Air {
    pub flow: u16,
    pub ppm: u16,
    pub temp: i16,
    pub press: u32,
}

/// The inlet is rounded down and the exhaust up: volume and methane, both against the operator.
#[derive(Clone, Copy, Debug, PartialEq, Eq)]
pub enum Round {
    Down,
    Up,
}

use Round::{Down, Up};

impl Round {
    pub fn quotient(self, above: u64, below: u64) -> u64 {
        match self {
            Down => above / below,
            Up => above.div_ceil(below),
        }
    }

    /// Whole litres of methane in so many litres of air.
    pub fn methane(self, volume: u64, ppm: u16) -> u64 {
        self.quotient(volume * ppm as u64, WHOLE)
    }
}

/// What one Pa adds to the product.
pub fn times_pressure(flow: u16) -> u64 {
    flow as u64 * PAIR.0
}

pub fn divisor(temp: i16) -> u64 {
    (temp as i64 + 27_315) as u64 * PAIR.1
}

/// What follows but the first asks for whole readings.
impl Air {
    /// No reading is missing.
    pub fn is_whole(self) -> bool {
        self.flow != FLOW_MISSING && self.ppm != CH4_MISSING && self.temp != TEMP_MISSING && self.press != PRESS_MISSING
    }

    pub fn product(self) -> u64 {
        times_pressure(self.flow) * self.press as u64
    }

    pub fn divisor(self) -> u64 {
        divisor(self.temp)
    }

    /// How many parts of the divisor are beyond the last whole litre.
    pub fn remainder(self) -> u64 {
        self.product() % self.divisor()
    }

    pub fn volume(self, round: Round) -> u64 {
        round.quotient(self.product(), self.divisor())
    }

    pub fn methane(self, round: Round) -> u64 {
        round.methane(self.volume(round), self.ppm)
    }

    /// What litres × ppm is beyond the last whole litre of methane, in millionths.
    pub fn methane_rest(self, round: Round) -> u64 {
        self.volume(round) * self.ppm as u64 % WHOLE
    }

    /// Does one litre of air fewer, or one more, make other litres of methane?
    pub fn shows_one_fewer(self, round: Round) -> bool {
        let volume = self.volume(round);
        volume > 0 && round.methane(volume - 1, self.ppm) < self.methane(round)
    }

    pub fn shows_one_more(self, round: Round) -> bool {
        round.methane(self.volume(round) + 1, self.ppm) > self.methane(round)
    }

    /// What rounding takes from the inlet, or adds to the exhaust, as a numerator over 1,000,000 times the divisor.
    pub fn lost(self, round: Round) -> u128 {
        let exact = self.product() as u128 * self.ppm as u128;
        exact.abs_diff(self.methane(round) as u128 * WHOLE as u128 * self.divisor() as u128)
    }
}
