//! A binary32 in nine significant digits, as C's `%.9g` writes it: worked out from all of its decimal digits, of which
//! it has finitely many, rounded to the nearest and of two as near to the even one.

use crate::historian::{reading, Reading};

const DIGITS: usize = 9;

/// Digits of 0.d1d2d3.. × 10^point; the first one is not 0.
struct Decimal {
    digits: Vec<u8>,
    point: i32,
}

/// An infinity is `inf` with its sign, a NaN is `nan` without.
pub fn written(pattern: u32) -> String {
    let minus = if pattern >> 31 == 1 { "-" } else { "" };
    match reading(pattern) {
        None if pattern & 0x7f_ffff == 0 => format!("{minus}inf"),
        None => "nan".to_string(),
        Some(Reading { significand: 0, .. }) => format!("{minus}0"),
        Some(reading) => format!("{minus}{}", exact(&reading).rounded().text()),
    }
}

/// All digits of significand × 2^power. A half is five tenths: so many halvings are as many times five and a point.
fn exact(reading: &Reading) -> Decimal {
    let mut digits: Vec<u8> = reading.significand.to_string().bytes().rev().map(|digit| digit - b'0').collect();
    let (factor, places) = if reading.power < 0 { (5, -reading.power) } else { (2, 0) };
    for _ in 0..reading.power.abs() {
        multiply(&mut digits, factor);
    }
    digits.reverse();
    Decimal { point: digits.len() as i32 - places, digits }
}

/// The least digit comes first.
fn multiply(digits: &mut Vec<u8>, factor: u8) {
    let mut carry = 0;
    for digit in digits.iter_mut() {
        let product = *digit * factor + carry;
        (*digit, carry) = (product % 10, product / 10);
    }
    if carry > 0 {
        digits.push(carry);
    }
}

impl Decimal {
    fn rounded(mut self) -> Decimal {
        if self.digits.len() > DIGITS {
            let rest = self.digits.split_off(DIGITS);
            let is_half = rest[0] == 5 && rest[1..].iter().all(|&digit| digit == 0);
            let last_is_odd = self.digits[DIGITS - 1] % 2 == 1;
            if if is_half { last_is_odd } else { rest[0] >= 5 } {
                self.round_up();
            }
        }
        while self.digits.len() > 1 && self.digits.last() == Some(&0) {
            self.digits.pop();
        }
        self
    }

    fn round_up(&mut self) {
        match self.digits.iter().rposition(|&digit| digit != 9) {
            Some(at) => {
                self.digits[at] += 1;
                self.digits[at + 1..].fill(0);
            }
            None => {
                self.digits = vec![1];
                self.point += 1;
            }
        }
    }

    /// With an exponent if it is below -4 or has as many digits before the point as are written, or more.
    fn text(&self) -> String {
        let digits: String = self.digits.iter().map(|digit| digit.to_string()).collect();
        let exponent = self.point - 1;
        if exponent < -4 || exponent >= DIGITS as i32 {
            let (sign, size) = if exponent < 0 { ('-', -exponent) } else { ('+', exponent) };
            return format!("{}e{sign}{size:02}", pointed(&digits, 1));
        }
        if self.point <= 0 {
            return format!("0.{}{digits}", "0".repeat(-self.point as usize));
        }
        let point = self.point as usize;
        pointed(&format!("{digits}{}", "0".repeat(point.saturating_sub(digits.len()))), point)
    }
}

/// A point after so many digits, if more follow.
fn pointed(digits: &str, point: usize) -> String {
    match digits.split_at(point) {
        (whole, "") => whole.to_string(),
        (whole, rest) => format!("{whole}.{rest}"),
    }
}
