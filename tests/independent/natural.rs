//! Whole numbers from 0 up of any size, and fractions of them: just what an exact sum and its comparison need, and the
//! mean and variance of a window.

use std::cmp::Ordering;

/// Digits to the base of 2^64, the least first; the last one is not 0.
#[derive(Clone, Debug, PartialEq, Eq)]
pub struct Natural(Vec<u64>);

impl Natural {
    pub fn of(value: u128) -> Natural {
        Natural::trimmed(vec![value as u64, (value >> 64) as u64])
    }

    fn trimmed(mut digits: Vec<u64>) -> Natural {
        while digits.last() == Some(&0) {
            digits.pop();
        }
        Natural(digits)
    }

    fn digit(&self, k: usize) -> u128 {
        self.0.get(k).copied().unwrap_or(0) as u128
    }

    /// Added digit by digit, as by hand.
    pub fn plus(&self, other: &Natural) -> Natural {
        let mut digits = Vec::new();
        let mut carry = 0;
        for k in 0..self.0.len().max(other.0.len()) + 1 {
            let sum = self.digit(k) + other.digit(k) + carry;
            digits.push(sum as u64);
            carry = sum >> 64;
        }
        Natural::trimmed(digits)
    }

    /// Multiplied digit by digit, as by hand. Nothing overflows: (2^64 - 1)^2 + 2 (2^64 - 1) is 2^128 - 1.
    pub fn times(&self, other: &Natural) -> Natural {
        let mut digits = vec![0; self.0.len() + other.0.len()];
        for (i, &a) in self.0.iter().enumerate() {
            let mut carry = 0;
            for (j, &b) in other.0.iter().enumerate() {
                let sum = a as u128 * b as u128 + digits[i + j] as u128 + carry;
                digits[i + j] = sum as u64;
                carry = sum >> 64;
            }
            digits[i + other.0.len()] = carry as u64;
        }
        Natural::trimmed(digits)
    }

    /// How far apart the two are: the less taken from the greater digit by digit, as by hand.
    pub fn distance(&self, other: &Natural) -> Natural {
        let (more, less) = if self >= other { (self, other) } else { (other, self) };
        let mut digits = Vec::new();
        let mut borrowed = 0;
        for k in 0..more.0.len() {
            let taken = less.digit(k) + borrowed;
            borrowed = (more.digit(k) < taken) as u128;
            digits.push(((borrowed << 64) + more.digit(k) - taken) as u64);
        }
        Natural::trimmed(digits)
    }
}

impl PartialOrd for Natural {
    fn partial_cmp(&self, other: &Natural) -> Option<Ordering> {
        Some(self.cmp(other))
    }
}

impl Ord for Natural {
    fn cmp(&self, other: &Natural) -> Ordering {
        self.0.len().cmp(&other.0.len()).then_with(|| self.0.iter().rev().cmp(other.0.iter().rev()))
    }
}

/// A whole numerator over a whole denominator above 0.
#[derive(Clone, Debug)]
pub struct Fraction {
    pub above: Natural,
    pub below: Natural,
}

impl Fraction {
    pub fn new(above: u128, below: u128) -> Fraction {
        assert!(below > 0);
        Fraction { above: Natural::of(above), below: Natural::of(below) }
    }

    pub fn plus(&self, other: &Fraction) -> Fraction {
        if self.below == other.below {
            return Fraction { above: self.above.plus(&other.above), below: self.below.clone() };
        }
        Fraction {
            above: self.above.times(&other.below).plus(&other.above.times(&self.below)),
            below: self.below.times(&other.below),
        }
    }

    /// The sum of all, in pairs, and then pairs of pairs: the numbers grow slowly so.
    pub fn sum(mut terms: Vec<Fraction>) -> Fraction {
        while terms.len() > 1 {
            terms = terms
                .chunks(2)
                .map(|pair| if pair.len() == 2 { pair[0].plus(&pair[1]) } else { pair[0].clone() })
                .collect();
        }
        terms.pop().unwrap_or(Fraction::new(0, 1))
    }

    /// How far it is from the whole number.
    pub fn distance(&self, whole: u128) -> Fraction {
        Fraction { above: self.above.distance(&Natural::of(whole).times(&self.below)), below: self.below.clone() }
    }

    pub fn times(&self, other: &Fraction) -> Fraction {
        Fraction { above: self.above.times(&other.above), below: self.below.times(&other.below) }
    }

    pub fn squared(&self) -> Fraction {
        self.times(self)
    }

    /// A part of it, where so many make the whole.
    pub fn over(&self, parts: u128) -> Fraction {
        self.times(&Fraction::new(1, parts))
    }

    pub fn at_most(&self, other: &Fraction) -> bool {
        self.above.times(&other.below) <= other.above.times(&self.below)
    }

    /// Is this at least the whole number? Below 0 nothing has to be multiplied.
    pub fn at_least(&self, whole: i128) -> bool {
        whole <= 0 || self.above >= Natural::of(whole as u128).times(&self.below)
    }
}
