//! Gaps of one series in one device's row, their windows, and what replaces their readings. The lower limit is worked
//! in three ways, which `selfcheck` holds to each other.

use crate::natural::Fraction;

#[derive(Clone, Copy, Debug, PartialEq, Eq)]
pub struct Gap {
    pub start: usize,
    pub end: usize,
}

#[derive(Clone, Copy, Debug, PartialEq, Eq)]
pub enum Replacement {
    Value(u16),
    GapTooLong,
    WindowNotWhole,
}

/// The runs of missing entries, each as long as it goes.
pub fn gaps(row: &[Option<u16>]) -> Vec<Gap> {
    let mut found = Vec::new();
    let mut i = 0;
    while i < row.len() {
        let start = i;
        while i < row.len() && row[i].is_none() {
            i += 1;
        }
        if i > start {
            found.push(Gap { start, end: i });
        } else {
            i += 1;
        }
    }
    found
}

/// A way of working out the lower limit of these values, with z2 in hundredths.
pub type Limit = fn(&[u16], i128) -> u16;

/// What a gap asks for: w, and z2 in hundredths unless it is the mean. Nothing replaces a longer gap.
fn asked(gap: Gap) -> Option<(usize, Option<i128>)> {
    match gap.end - gap.start {
        0..=23 => Some((16, None)),
        24..=95 => Some((96, Some(271))),
        96..=672 => Some((288, Some(385))),
        _ => None,
    }
}

/// `row` holds drift-corrected readings.
pub fn replacement(row: &[Option<u16>], gap: Gap, limit: Limit) -> Replacement {
    let Some((width, z2_hundredths)) = asked(gap) else {
        return Replacement::GapTooLong;
    };
    let Some(values) = windows(row, gap, width) else {
        return Replacement::WindowNotWhole;
    };
    Replacement::Value(match z2_hundredths {
        None => mean(&values),
        Some(z2) => limit(&values, z2),
    })
}

/// The values of which a lower limit is asked, and z2 in hundredths.
pub fn limit_asked(row: &[Option<u16>], gap: Gap) -> Option<(Vec<u16>, i128)> {
    let (width, z2_hundredths) = asked(gap)?;
    Some((windows(row, gap, width)?, z2_hundredths?))
}

fn windows(row: &[Option<u16>], gap: Gap, width: usize) -> Option<Vec<u16>> {
    if gap.start < width || gap.end + width > row.len() {
        return None;
    }
    let before = &row[gap.start - width..gap.start];
    let after = &row[gap.end..gap.end + width];
    before.iter().chain(after).copied().collect()
}

pub fn mean(values: &[u16]) -> u16 {
    let sum: u128 = values.iter().map(|&v| v as u128).sum();
    (sum / values.len() as u128) as u16
}

/// n, sum and n times the sum of squares less the sum squared.
pub fn statistics(values: &[u16]) -> (i128, i128, i128) {
    let n = values.len() as i128;
    let sum: i128 = values.iter().map(|&v| v as i128).sum();
    let squares: i128 = values.iter().map(|&v| v as i128 * v as i128).sum();
    (n, sum, n * squares - sum * sum)
}

/// The greatest whole L that document 02's two conditions allow, tried from the mean downwards; 0 if there is none.
pub fn lower_limit(values: &[u16], z2_hundredths: i128) -> u16 {
    let (n, sum, spread) = statistics(values);
    let allowed = |l: &i128| sum >= n * l && z2_hundredths * spread <= 100 * (n - 1) * (sum - n * l) * (sum - n * l);
    (0..=sum / n).rev().find(allowed).unwrap_or(0) as u16
}

/// The same by the least whole distance from the sum whose square suffices.
pub fn lower_limit_by_root(values: &[u16], z2_hundredths: i128) -> u16 {
    let (n, sum, spread) = statistics(values);
    let suffices = |distance: i128| 100 * (n - 1) * distance * distance >= z2_hundredths * spread;
    let (mut low, mut high) = (0, 1 << 40);
    while low < high {
        let middle = (low + high) / 2;
        if suffices(middle) {
            high = middle;
        } else {
            low = middle + 1;
        }
    }
    if sum < low {
        0
    } else {
        ((sum - low) / n) as u16
    }
}

/// The same as a textbook has it, in exact fractions: the mean, the variance of a sample from the deviations
/// themselves, and the greatest whole number up to it whose distance from it, squared, is at least z2 × variance / n.
/// Both sides times n × n × (n - 1) are document 02's condition: the squares of the deviations add to Q2 - S² / n.
pub fn lower_limit_by_fractions(values: &[u16], z2_hundredths: i128) -> u16 {
    let n = values.len() as u128;
    let mean = Fraction::new(values.iter().map(|&value| value as u128).sum(), n);
    let squares = values.iter().map(|&value| mean.distance(value as u128).squared()).collect();
    let variance = Fraction::sum(squares).over(n - 1);
    let wanted = Fraction::new(z2_hundredths as u128, 100).times(&variance).over(n);
    let allowed = |l: u16| mean.at_least(l as i128) && wanted.at_most(&mean.distance(l as u128).squared());
    // Nearer to the mean the distance is less, so that whole numbers up to the limit are allowed and no others are.
    let (mut low, mut high) = (0, u16::MAX);
    while low < high {
        let middle = high - (high - low) / 2;
        if allowed(middle) {
            low = middle;
        } else {
            high = middle - 1;
        }
    }
    low
}
