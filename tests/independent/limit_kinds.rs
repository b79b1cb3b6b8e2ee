//! What the windows of a row show of the lower limit's rule, for the summary of a run and for what a long run must have
//! met.

use crate::border_windows::{Level, LEVELS};
use crate::draw::{CH4_MAX, FLOW_MAX};
use crate::gaps::{gaps, limit_asked, lower_limit_by_root, statistics};
use crate::record::{Device, Record};

/// Beside the border: L is the limit, and 0 where no whole number is allowed.
const BESIDE: [&str; 12] = [
    "on the border",
    "inside by a step",
    "outside by a step",
    "nearest of all inside",
    "nearest of all outside",
    "nearest of its sum inside",
    "nearest of its sum outside",
    "limit 0 found by less than a step",
    "limit 0 not found by less than a step",
    "limit 1 by less than a step",
    "limit 0 and not 1 by less than a step",
    "on or beside the border that n would have",
];

const DIVISORS: [&str; 3] = ["other limit with n", "other limit with n - 2", "other limit with n + 1"];

const DRAWN: [&str; 10] = [
    "all equal", "all 0", "all the greatest", "spread over 20 or less", "values of 3 or less", "0 and the greatest",
    "half 0, half the greatest", "limit 0 found", "limit 0 not found", "limit far below the mean",
];

/// One value of the window before is one higher or lower here.
const CHANGED: [&str; 4] = [
    "one higher, limit one higher", "one higher, limit one lower", "one lower, limit one higher",
    "one lower, limit one lower",
];

const SERIES: [(&str, u16); 2] = [("flow", FLOW_MAX), ("CH4", CH4_MAX)];

fn of(series: &str, n: i128, kind: &str) -> String {
    format!("{series}, {n}: {kind}")
}

fn of_gap(length: usize) -> String {
    format!("gap of {length}")
}

/// Kinds that any long run must meet.
pub fn wanted() -> Vec<String> {
    let ends = [[24, 95], [96, 672]];
    let mut kinds = vec![];
    for (series, _) in SERIES {
        for (level, ends) in LEVELS.iter().zip(ends) {
            let names = [&BESIDE[..], &DIVISORS, &DRAWN, &CHANGED].concat();
            kinds.extend(names.iter().map(|kind| of(series, level.n, kind)));
            kinds.extend(ends.map(|length| of(series, level.n, &of_gap(length))));
        }
    }
    kinds
}

/// A window with its sums and its limit.
struct Window {
    values: Vec<u16>,
    level: Level,
    max: u16,
    sum: i128,
    spread: i128,
    limit: i128,
}

/// Of each window of a record whose instruments have no checks: the windows hold the readings as they are.
pub fn of_record(record: &Record) -> Vec<String> {
    let of_device = |device: &Device| [of_row(0, &device.flow), of_row(1, &device.ch4)].concat();
    record.devices.iter().flat_map(of_device).collect()
}

/// Flow is 0, CH4 is 1.
fn of_row(which: usize, row: &[Option<u16>]) -> Vec<String> {
    let (series, max) = SERIES[which];
    let mut kinds = vec![];
    let mut earlier: Option<Window> = None;
    for gap in gaps(row) {
        let Some((values, z2)) = limit_asked(row, gap) else {
            continue;
        };
        let window = Window::new(values, z2, max);
        let mut own = [window.beside(), window.other_divisors(), window.drawn()].concat();
        own.extend(earlier.and_then(|earlier| window.changed(&earlier)));
        kinds.extend(own.iter().map(|kind| of(series, window.level.n, kind)));
        kinds.push(of(series, window.level.n, &of_gap(gap.end - gap.start)));
        earlier = Some(window);
    }
    kinds
}

fn that_hold(names: &[&'static str], hold: &[bool]) -> Vec<&'static str> {
    assert!(names.len() == hold.len());
    names.iter().zip(hold).filter(|(_, holds)| **holds).map(|(name, _)| *name).collect()
}

impl Window {
    fn new(values: Vec<u16>, z2: i128, max: u16) -> Window {
        let level = LEVELS[(z2 == LEVELS[1].z2) as usize];
        let (_, sum, spread) = statistics(&values);
        let limit = lower_limit_by_root(&values, z2) as i128;
        Window { values, level, max, sum, spread, limit }
    }

    /// What the condition leaves to spare for this L; nothing where the mean is lower.
    fn spare(&self, divisor: i128, l: i128) -> Option<i128> {
        let distance = self.sum - self.level.n * l;
        (distance >= 0).then(|| self.level.spare(divisor, distance, self.spread))
    }

    fn limit_with(&self, divisor: i128) -> i128 {
        let is_allowed = |l: &i128| self.spare(divisor, *l).is_some_and(|spare| spare >= 0);
        // A few at most from the limit, and if there is none below, 0.
        (0..=self.limit + 9).rev().find(is_allowed).unwrap_or(0)
    }

    fn beside(&self) -> Vec<&'static str> {
        let (n, limit, step) = (self.level.n, self.limit, self.level.step());
        let (least_spared, least_lacking) = self.level.least();
        let at = |l| self.spare(n - 1, l).filter(|_| self.spread > 0);
        let lacking = |l: i128| at(l).map(|spare| -spare);
        let less = |amount: Option<i128>| amount.is_some_and(|amount| 0 < amount && amount < step);
        let earlier = self.limit_with(n);
        let hold = [
            at(limit) == Some(0),
            at(limit) == Some(step),
            lacking(limit + 1) == Some(step),
            at(limit) == Some(least_spared),
            lacking(limit + 1) == Some(least_lacking),
            less(at(limit)),
            less(lacking(limit + 1)),
            limit == 0 && less(at(0)),
            limit == 0 && less(lacking(0)),
            limit == 1 && less(at(1)),
            limit == 0 && less(lacking(1)),
            earlier != limit && self.spare(n, earlier).is_some_and(|spare| spare < step),
        ];
        that_hold(&BESIDE, &hold)
    }

    fn other_divisors(&self) -> Vec<&'static str> {
        let n = self.level.n;
        that_hold(&DIVISORS, &[n, n - 2, n + 1].map(|divisor| self.limit_with(divisor) != self.limit))
    }

    fn drawn(&self) -> Vec<&'static str> {
        let (low, high) = (*self.values.iter().min().unwrap(), *self.values.iter().max().unwrap());
        let count = |value: u16| self.values.iter().filter(|&&other| other == value).count();
        let extremes = (count(0), count(self.max));
        let is_found = self.spare(self.level.n - 1, 0).is_some_and(|spare| spare >= 0);
        let hold = [
            low == high,
            high == 0,
            low == self.max,
            low < high && high - low <= 20,
            0 < high && high <= 3,
            extremes.0 > 0 && extremes.1 > 0,
            extremes == (self.values.len() / 2, self.values.len() / 2),
            self.limit == 0 && high > 0 && is_found,
            self.limit == 0 && !is_found,
            (self.sum - self.level.n * self.limit) * 30 > self.level.n * self.max as i128,
        ];
        that_hold(&DRAWN, &hold)
    }

    /// The windows share a half, and the other halves differ by one in one value.
    fn changed(&self, earlier: &Window) -> Option<&'static str> {
        let half = self.values.len() / 2;
        if earlier.values.len() != self.values.len() || earlier.values[half..] != self.values[..half] {
            return None;
        }
        let sorted = |values: &[u16]| {
            let mut sorted: Vec<i32> = values.iter().map(|&value| value as i32).collect();
            sorted.sort();
            sorted
        };
        let (before, after) = (sorted(&earlier.values[..half]), sorted(&self.values[half..]));
        let changes: Vec<i32> = before.iter().zip(after).map(|(a, b)| b - a).filter(|change| *change != 0).collect();
        match (&changes[..], self.limit - earlier.limit) {
            ([1], 1) => Some(CHANGED[0]),
            ([1], -1) => Some(CHANGED[1]),
            ([-1], 1) => Some(CHANGED[2]),
            ([-1], -1) => Some(CHANGED[3]),
            _ => None,
        }
    }
}
