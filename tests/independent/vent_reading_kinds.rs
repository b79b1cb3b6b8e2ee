//! What a refusal of ventilation air shows of the order in which readings are looked at, for the summary of a run and
//! for what a long run must have met. Here a reading is wrong by a table of ranges, a second time.

use crate::refusal::Refusal;
use crate::vent_call::{Interval, VentCall, SERIES, SLICES, STATUS};
use crate::vent_refusals::fuels;
use std::collections::BTreeSet;

/// Least, most and missing mark of each series; no status is outside its range and right.
pub const RANGES: [(i64, i64, Option<i64>); SERIES] = [
    (0, 30_000, Some(65_535)),
    (0, 20_000, Some(65_535)),
    (-4_000, 10_000, Some(-32_768)),
    (50_000, 300_000, Some(0)),
    (0, 30_000, Some(65_535)),
    (0, 20_000, Some(65_535)),
    (-4_000, 10_000, Some(-32_768)),
    (50_000, 300_000, Some(0)),
    (0, 3, None),
];

/// The number that a wrong reading of the series gives.
pub fn number_of(series: usize) -> u32 {
    [22, 22, 22, 22, 23, 23, 23, 23, 21][series]
}

pub fn is_wrong(series: usize, value: i64) -> bool {
    let (least, most, mark) = RANGES[series];
    !(least..=most).contains(&value) && Some(value) != mark
}

/// Those of an interval's series that are wrong, in the order in which they are looked at.
pub fn wrong_series(interval: Interval) -> impl Iterator<Item = usize> {
    (0..SERIES).filter(move |&series| is_wrong(series, interval.value(series)))
}

/// Who looks at readings in blocks may err where two of them meet.
pub const BLOCKS: [usize; 2] = [1_024, 64];

/// A number and one that comes before it inside an interval, which does not decide where it is wrong later.
pub const NUMBER_PAIRS: [(u32, u32); 3] = [(23, 22), (21, 22), (21, 23)];

/// A series and one that comes before it.
pub fn pairs() -> Vec<(usize, usize)> {
    (0..SERIES).flat_map(|series| (0..series).map(move |earlier| (series, earlier))).collect()
}

/// The same of series with different numbers.
pub fn number_pairs() -> Vec<(usize, usize)> {
    pairs().into_iter().filter(|&(one, other)| number_of(one) != number_of(other)).collect()
}

const PLACES: [&str; 3] = ["first", "between", "last"];

/// Where an earlier series is wrong too.
const LATER: [&str; 2] = ["the same device", "a later device"];

/// A device that is not quantified then is looked at all the same.
const IDLE: [(u8, &str); 2] = [(0, "stopped"), (3, "unrecorded")];

/// Who goes by intervals first, and then by devices, meets that one first.
const EARLIER_INTERVAL: &str = "a later device's earlier interval is wrong too";

const ALL_THREE: &str = "inlet, exhaust and status wrong in one interval";

fn of(series: usize, what: &str) -> String {
    format!("{} wrong, {what}", SLICES[series])
}

fn together(series: usize, earlier: usize) -> String {
    format!("{} and {} wrong in one interval", SLICES[earlier], SLICES[series])
}

fn before(series: usize, earlier: usize, later: &str) -> String {
    of(series, &format!("before {} of {later}", SLICES[earlier]))
}

/// Both sides of a border between blocks, and one further.
fn beside_border(block: usize, beside: usize) -> String {
    format!("{block} k {}", ["- 1", "", "+ 1"][beside]).trim().to_string()
}

fn at_entry(series: usize, beside: &str) -> String {
    of(series, &format!("entry {beside}"))
}

fn at_end_of_row(number: u32, beside: &str) -> String {
    format!("refusal {number}, end of a row of {beside}")
}

fn over_border(number: u32, other: u32, block: usize) -> String {
    format!("refusal {number}, before {other} of a later block of {block}")
}

fn in_later_row(beside: &str) -> String {
    format!("wrong in a later device's interval {beside}")
}

/// Kinds that any long run must meet.
pub fn wanted() -> Vec<String> {
    let mut kinds: Vec<String> = number_pairs().into_iter().map(|(one, other)| together(one, other)).collect();
    for series in 0..SERIES {
        kinds.extend(PLACES.map(|place| of(series, place)));
        kinds.push(of(series, "before 9"));
        kinds.extend(IDLE.iter().filter(|_| series < STATUS).map(|(_, idle)| of(series, idle)));
    }
    for (series, earlier) in pairs() {
        kinds.extend(LATER.map(|later| before(series, earlier, later)));
    }
    kinds.extend([EARLIER_INTERVAL, ALL_THREE].map(str::to_string));
    kinds
}

/// Kinds besides that come in longer rows.
pub fn wanted_of_blocks() -> Vec<String> {
    let mut kinds = vec![];
    for block in BLOCKS {
        kinds.extend(NUMBER_PAIRS.map(|(number, other)| over_border(number, other, block)));
        for beside in (0..3).map(|beside| beside_border(block, beside)) {
            kinds.extend((0..SERIES).map(|series| at_entry(series, &beside)));
            kinds.extend([21, 22, 23].map(|number| at_end_of_row(number, &beside)));
            kinds.push(in_later_row(&beside));
        }
    }
    kinds
}

/// Of a call that is refused so.
pub fn of_call(call: &VentCall, refusal: &Refusal) -> Vec<String> {
    if !matches!(refusal.number, 21..=23) {
        return vec![];
    }
    let (n, device, interval) = (call.intervals as usize, refusal.device as usize, refusal.place as usize);
    let entry = device * n + interval;
    let wrong: Vec<usize> = wrong_series(call.interval(entry)).collect();
    let mut kinds = of_interval(call, entry, &wrong);
    for block in BLOCKS {
        kinds.extend(beside(entry, block).map(|beside| at_entry(wrong[0], &beside)));
        let end = beside(n, block).filter(|_| interval == n - 1);
        kinds.extend(end.map(|beside| at_end_of_row(refusal.number, &beside)));
        kinds.extend(beside(interval, block).filter(|_| device > 0).map(|beside| in_later_row(&beside)));
    }
    kinds.extend(of_later_ones(call, wrong[0], entry));
    kinds
}

fn of_interval(call: &VentCall, entry: usize, wrong: &[usize]) -> Vec<String> {
    let (first, last, status) = (wrong[0], call.entries() - 1, call.interval(entry).status);
    let places = [entry == 0 && last > 0, 0 < entry && entry < last, entry == last && last > 0];
    let mut kinds: Vec<String> =
        PLACES.iter().zip(places).filter(|(_, holds)| *holds).map(|(place, _)| of(first, place)).collect();
    kinds.extend(fuels(call).map(|_| of(first, "before 9")));
    kinds.extend(IDLE.iter().filter(|(code, _)| *code == status).map(|(_, idle)| of(first, idle)));
    kinds.extend(wrong[1..].iter().map(|&other| together(other, first)));
    let numbers: BTreeSet<u32> = wrong.iter().map(|&series| number_of(series)).collect();
    kinds.extend((numbers.len() == 3).then(|| ALL_THREE.to_string()));
    kinds
}

fn beside(count: usize, block: usize) -> Option<String> {
    let beside = (count + 1) % block;
    (count > 1 && beside < 3).then(|| beside_border(block, beside))
}

/// The earlier series that are wrong after the entry that decides.
fn of_later_ones(call: &VentCall, series: usize, entry: usize) -> BTreeSet<String> {
    let n = call.intervals as usize;
    let mut kinds = BTreeSet::new();
    for later in entry + 1..call.entries() {
        for earlier in wrong_series(call.interval(later)) {
            let (number, other) = (number_of(series), number_of(earlier));
            if earlier < series {
                kinds.insert(before(series, earlier, LATER[(later / n > entry / n) as usize]));
            }
            if NUMBER_PAIRS.contains(&(number, other)) {
                let passed = BLOCKS.iter().filter(|block| later / **block > entry / **block);
                kinds.extend(passed.map(|&block| over_border(number, other, block)));
            }
            if later % n < entry % n {
                kinds.insert(EARLIER_INTERVAL.to_string());
            }
        }
    }
    kinds
}
