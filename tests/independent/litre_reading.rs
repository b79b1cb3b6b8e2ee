//! What the methane of a counted interval depends on, and where it lies beside a whole unit: the volume is a product
//! over a divisor by document 02's pair, P = flow × 117,260 × pressure over F = (temperature + 27,315) × 4,053.

/// Document 02's pair: 117,260 / 4,053 is 100 × 29,315 / 101,325 in lowest terms.
pub const PAIR: (u64, u64) = (117_260, 4_053);

pub const TEMPS: (i64, i64) = (-4_000, 10_000);
pub const PRESSURES: (u64, u64) = (50_000, 300_000);

/// Units of gas: how many make a litre.
pub const LITRES: u64 = 1;
pub const HUNDREDTHS: u64 = 100;

/// Hundredths × CH4 that make a litre of methane.
pub const WHOLE: u64 = 1_000_000;

#[derive(Clone, Copy, Debug)]
pub struct Reading {
    pub flow: u16,
    pub ch4: u16,
    pub temp: i16,
    pub press: u32,
}

/// What one Pa adds to the product.
pub fn times_pressure(flow: u16) -> u64 {
    flow as u64 * PAIR.0
}

pub fn divisor(temp: i16) -> u64 {
    (temp as i64 + 27_315) as u64 * PAIR.1
}

/// Whole litres of methane in so many hundredths of a litre.
pub fn methane(hundredths: u64, ch4: u16) -> u64 {
    hundredths * ch4 as u64 / WHOLE
}

impl Reading {
    pub fn product(self) -> u64 {
        times_pressure(self.flow) * self.press as u64
    }

    pub fn divisor(self) -> u64 {
        divisor(self.temp)
    }

    /// The volume in whole units. In one step, which 64 bits have room for.
    pub fn volume(self, unit: u64) -> u64 {
        unit * self.product() / self.divisor()
    }

    /// How many parts of the divisor are beyond the last whole unit.
    pub fn remainder(self, unit: u64) -> u64 {
        unit * self.product() % self.divisor()
    }

    /// How many parts of the divisor are lacking to the next whole unit.
    pub fn lacking(self, unit: u64) -> u64 {
        self.divisor() - self.remainder(unit)
    }

    pub fn hundredths(self) -> u64 {
        self.volume(HUNDREDTHS)
    }

    pub fn methane(self) -> u64 {
        methane(self.hundredths(), self.ch4)
    }

    /// What hundredths × CH4 is beyond the last whole litre of methane, in millionths.
    pub fn methane_rest(self) -> u64 {
        self.hundredths() * self.ch4 as u64 % WHOLE
    }

    /// Does one hundredth fewer, or one more, make other litres of methane?
    pub fn shows_one_fewer(self) -> bool {
        self.hundredths() > 0 && methane(self.hundredths() - 1, self.ch4) < self.methane()
    }

    pub fn shows_one_more(self) -> bool {
        methane(self.hundredths() + 1, self.ch4) > self.methane()
    }

    /// The methane that rounding loses, as a numerator; the denominator is 10,000 times the divisor.
    pub fn lost(self) -> u64 {
        self.product() * self.ch4 as u64 - self.methane() * 10_000 * self.divisor()
    }
}
