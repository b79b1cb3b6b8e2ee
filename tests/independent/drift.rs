//! What field checks make of an instrument's readings; worked out interval by interval, and again by stretches.

use crate::record::Check;

fn passes(check: &Check) -> bool {
    (-499..=499).contains(&check.drift)
}

pub fn corrected(row: &[Option<u16>], checks: &[Check]) -> Vec<Option<u16>> {
    let correct = |(i, reading): (usize, &Option<u16>)| reading.map(|v| corrected_value(v, drift_at(checks, i)));
    row.iter().enumerate().map(correct).collect()
}

/// The greatest drift of the failed checks in the interval's stretch: both ways up to the next passed check.
fn drift_at(checks: &[Check], interval: usize) -> Option<i32> {
    let before = checks.iter().rev().filter(|check| check.at as usize <= interval);
    let after = checks.iter().filter(|check| check.at as usize > interval);
    let failed_before = before.take_while(|check| !passes(check));
    let failed_after = after.take_while(|check| !passes(check));
    failed_before.chain(failed_after).map(|check| check.drift).max()
}

pub fn corrected_value(value: u16, drift: Option<i32>) -> u16 {
    match drift {
        Some(d) if d > 0 => (value as i128 * 10_000 / (10_000 + d as i128)) as u16,
        _ => value,
    }
}

/// The same, the other way round: the cuts first, then what lies between two of them.
pub fn corrected_by_stretches(row: &[Option<u16>], checks: &[Check]) -> Vec<Option<u16>> {
    let end = row.len();
    let mut cuts = vec![0];
    cuts.extend(checks.iter().filter(|check| passes(check)).map(|check| check.at as usize));
    cuts.push(end);
    let mut values = row.to_vec();
    for pair in cuts.windows(2) {
        let (from, to) = (pair[0], pair[1]);
        let inside = |at: usize| (from <= at && at < to) || (at == end && to == end);
        let failed = checks.iter().filter(|check| !passes(check) && inside(check.at as usize));
        let drift = failed.map(|check| check.drift).max();
        for value in values[from..to].iter_mut() {
            *value = value.map(|v| corrected_value(v, drift));
        }
    }
    values
}
