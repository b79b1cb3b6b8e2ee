//! What a refusal shows of the order in which readings are looked at, for the summary of a run and for what a long run
//! must have met.

use crate::call::Call;
use crate::quantify::Quantified;
use crate::record_reader::read_record;
use crate::refusal::Refusal;
use crate::refusals::{fuels, wrong_readings, READINGS};
use std::collections::BTreeSet;

/// Who looks at readings in blocks may err where two of them meet.
pub const BLOCK: usize = 1_024;

/// A series' number and a lower one, which does not decide where it is wrong later.
pub const PAIRS: [(u32, u32); 10] =
    [(18, 17), (19, 17), (19, 18), (20, 17), (20, 18), (20, 19), (21, 17), (21, 18), (21, 19), (21, 20)];

/// Every set of series that can be wrong in one interval.
pub fn sets() -> Vec<Vec<u32>> {
    let members = |set: u32| READINGS.into_iter().filter(move |number| set >> (number - 17) & 1 == 1);
    (1..32).map(|set| members(set).collect()).collect()
}

const PLACES: [&str; 3] = ["first", "between", "last"];

/// Both sides of a border between blocks, and one further.
const BESIDE: [&str; 3] = ["1,024 k - 1", "1,024 k", "1,024 k + 1"];

/// Where a lower number is wrong too.
const LATER: [&str; 3] = ["the same device", "a later device", "a later block"];

/// Who goes by intervals first, and then by devices, meets that one first.
const EARLIER_INTERVAL: &str = "a later device's earlier interval is wrong too";

fn of(number: u32, what: &str) -> String {
    format!("refusal {number:2}, {what}")
}

fn together(numbers: &[u32]) -> String {
    let numbers: Vec<String> = numbers.iter().map(|number| number.to_string()).collect();
    format!("wrong in one interval: {}", numbers.join(" "))
}

fn before(number: u32, other: u32) -> String {
    of(number, &format!("before {other:2}"))
}

fn before_lower(number: u32, lower: u32, later: &str) -> String {
    of(number, &format!("before {lower} of {later}"))
}

fn at_entry(number: u32, beside: &str) -> String {
    of(number, &format!("entry {beside}"))
}

fn at_end_of_row(number: u32, beside: &str) -> String {
    of(number, &format!("end of a row of {beside}"))
}

fn in_later_row(beside: &str) -> String {
    format!("wrong in a later device's interval {beside}")
}

/// Kinds that any long run must meet, of files or of calls.
pub fn wanted() -> Vec<String> {
    let mut kinds: Vec<String> = sets().iter().map(|set| together(set)).collect();
    for number in READINGS {
        kinds.extend(PLACES.map(|place| of(number, place)));
        kinds.extend([before(7, number), before(number, 9)]);
    }
    for (number, lower) in PAIRS {
        kinds.extend(LATER[..2].iter().map(|later| before_lower(number, lower, later)));
    }
    kinds.push(EARLIER_INTERVAL.to_string());
    kinds
}

/// Kinds that a long run of calls must meet besides: no file is made that long for it.
pub fn wanted_of_blocks() -> Vec<String> {
    let mut kinds: Vec<String> = PAIRS.map(|(number, lower)| before_lower(number, lower, LATER[2])).to_vec();
    for number in READINGS {
        kinds.extend(BESIDE.map(|beside| at_entry(number, beside)));
        kinds.extend(BESIDE.map(|beside| at_end_of_row(number, beside)));
    }
    kinds.extend(BESIDE.map(in_later_row));
    kinds
}

/// Of a file with this answer.
pub fn of_file(bytes: &[u8], row: u64, answer: &Result<Quantified, Refusal>) -> Vec<String> {
    match answer {
        Err(refusal) if matches!(refusal.number, 7 | 17..=21) => {
            read_record(bytes, row).map_or(vec![], |record| of_call(&Call::of(&record), refusal))
        }
        _ => vec![],
    }
}

/// Of a call that is refused so. Its lengths are right if the number is 7 or a reading's.
pub fn of_call(call: &Call, refusal: &Refusal) -> Vec<String> {
    match refusal.number {
        7 => {
            let wrong: BTreeSet<u32> = (0..call.flow.len()).flat_map(|entry| wrong_readings(call, entry)).collect();
            wrong.into_iter().map(|number| before(7, number)).collect()
        }
        17..=21 => of_reading(call, refusal),
        _ => vec![],
    }
}

fn of_reading(call: &Call, refusal: &Refusal) -> Vec<String> {
    let number = refusal.number;
    let (n, device, interval) = (call.intervals as usize, refusal.device as usize, refusal.place as usize);
    let entry = device * n + interval;
    let last = call.flow.len() - 1;
    let mut kinds = vec![together(&wrong_readings(call, entry))];
    let places = [entry == 0 && last > 0, 0 < entry && entry < last, entry == last && last > 0];
    kinds.extend(PLACES.iter().zip(places).filter(|(_, holds)| *holds).map(|(place, _)| of(number, place)));
    kinds.extend(fuels(call).map(|_| before(number, 9)));
    kinds.extend(beside(entry).map(|beside| at_entry(number, beside)));
    kinds.extend(beside(n).filter(|_| interval == n - 1).map(|beside| at_end_of_row(number, beside)));
    kinds.extend(beside(interval).filter(|_| device > 0).map(in_later_row));
    kinds.extend(of_later_ones(call, number, entry));
    kinds
}

fn beside(count: usize) -> Option<&'static str> {
    let beside = (count + 1) % BLOCK;
    (count > 1 && beside < 3).then(|| BESIDE[beside])
}

/// The lower numbers that are wrong after the entry that decides.
fn of_later_ones(call: &Call, number: u32, entry: usize) -> BTreeSet<String> {
    let n = call.intervals as usize;
    let mut kinds = BTreeSet::new();
    for later in entry + 1..call.flow.len() {
        for lower in wrong_readings(call, later).into_iter().filter(|&other| other < number) {
            let is_same = later / n == entry / n;
            kinds.insert(before_lower(number, lower, if is_same { LATER[0] } else { LATER[1] }));
            if later / BLOCK > entry / BLOCK {
                kinds.insert(before_lower(number, lower, LATER[2]));
            }
            if later % n < entry % n {
                kinds.insert(EARLIER_INTERVAL.to_string());
            }
        }
    }
    kinds
}
