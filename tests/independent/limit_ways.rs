//! The own ways of working out a lower limit held to each other, and to the earlier rule, which divided by n, on drawn
//! windows and on made ones.

use crate::border_windows::LEVELS;
use crate::compare::Judged;
use crate::gaps::{gaps, limit_asked, lower_limit, lower_limit_by_fractions, lower_limit_by_root, statistics};
use crate::{limit_kinds, limit_rows};
use std::sync::atomic::{AtomicU16, Ordering};

pub fn three_ways(values: &[u16], z2: i128) -> [u16; 3] {
    [lower_limit, lower_limit_by_root, lower_limit_by_fractions].map(|limit| limit(values, z2))
}

/// The limit while the condition had n in the place of n - 1.
pub fn earlier_limit(values: &[u16], z2: i128) -> u16 {
    let (n, sum, spread) = statistics(values);
    let allowed = |l: &i128| z2 * spread <= 100 * n * (sum - n * l) * (sum - n * l);
    (0..=sum / n).rev().find(allowed).unwrap_or(0) as u16
}

/// The most that a limit has been below the earlier one, for each number of values.
#[derive(Default)]
pub struct Farthest([AtomicU16; 2]);

impl Farthest {
    pub fn text(self) -> String {
        let [of_192, of_576] = self.0.map(AtomicU16::into_inner);
        format!("below the earlier limit by at most {of_192} (192 values) and {of_576} (576 values)")
    }
}

/// All windows of the call with this number.
pub fn judge(seed: u64, number: usize, farthest: &Farthest) -> Judged {
    let record = limit_rows::generate(seed, number);
    let rows = record.devices.iter().flat_map(|device| [&device.flow, &device.ch4]);
    let windows = rows.flat_map(|row| gaps(row).into_iter().filter_map(|gap| limit_asked(row, gap)));
    // Every window is looked at, also after a difference.
    let troubles: Vec<String> = windows.filter_map(|(values, z2)| trouble(&values, z2, farthest)).collect();
    let difference = troubles.into_iter().next();
    Judged { class: "rows of gaps", kinds: limit_kinds::of_record(&record), difference }
}

/// What is wrong with the limits of a window, if anything is.
fn trouble(values: &[u16], z2: i128, farthest: &Farthest) -> Option<String> {
    let ways = three_ways(values, z2);
    let earlier = earlier_limit(values, z2);
    if ways != [ways[0]; 3] {
        return Some(format!("{ways:?} by the three ways of {values:?}"));
    }
    if earlier < ways[0] {
        return Some(format!("{} is above the earlier limit {earlier} of {values:?}", ways[0]));
    }
    farthest.0[(z2 == LEVELS[1].z2) as usize].fetch_max(earlier - ways[0], Ordering::Relaxed);
    None
}
