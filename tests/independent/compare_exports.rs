//! `cmm_read_flow` called directly: number and place, the row, and every other byte of what is lent, against the own
//! answer.

use crate::compare::{keep, other_number, Judged};
use crate::exports::{self, Export};
use crate::historian::{entry, flow, is_right_length, pattern, read_export, samples, SAMPLE};
use crate::image::{Array, Image};
use crate::library::{Function, Library};
use crate::refusal::Refusal;
use crate::rng::Rng;
use crate::samples::{of_tenths, INFINITY, MINUS, MOST};
use std::sync::atomic::{AtomicUsize, Ordering};

type Answer = Result<Vec<u16>, Refusal>;

/// What a row that is read can have in it.
const IN_ROWS: [&str; 9] = [
    "row of 0", "row, minus zero", "row, E = 0", "row, 3,000", "row, next below 3,000", "row, uncertain", "row, bad",
    "row, NaN not looked at", "row, lower than its tenth",
];

const LENGTHS: [&str; 6] = ["shorter", "longer", "no bytes", "row of 0", "multiple of 5", "only told"];

const READINGS: [&str; 10] = [
    "next above 3,000", "above 3,000", "infinity", "next below 0", "below 0, E = 0", "below 0", "minus infinity",
    "quiet NaN", "signalling NaN", "NaN with a sign",
];

const PLACES: [&str; 4] = ["first", "between", "last", "only one"];

/// Kinds of answer that any long run must meet.
pub fn wanted() -> Vec<String> {
    let mut kinds: Vec<String> = IN_ROWS.iter().map(|kind| kind.to_string()).collect();
    kinds.extend((0..8).map(of_blocks));
    kinds.extend(LENGTHS.iter().map(|kind| format!("refusal 14, {kind}")));
    kinds.extend(READINGS.iter().map(|kind| format!("refusal 16, {kind}")));
    for number in [15, 16] {
        kinds.extend(PLACES.iter().map(|kind| format!("refusal {number}, {kind}")));
        kinds.extend((0..8).map(|place| in_block(number, place)));
        kinds.push(before_another(number, 31 - number));
    }
    kinds.push(NOT_LOOKED_AT.to_string());
    kinds
}

const NOT_LOOKED_AT: &str = "refusal 15, NaN not looked at";

fn of_blocks(entries: usize) -> String {
    format!("row, 8 k + {}", entries % 8)
}

fn in_block(number: u32, place: usize) -> String {
    format!("refusal {number}, at 8 k + {}", place % 8)
}

fn before_another(number: u32, other: u32) -> String {
    format!("refusal {number}, before {other}")
}

/// `count` grows by the samples that the library has looked at, or had to.
pub fn judge(seed: u64, number: usize, library: &Library, count: &AtomicUsize) -> Judged {
    let generated = exports::generate(seed, number);
    let export = &generated.export;
    let answer = own_answer(export);
    // Another stream than the export's own.
    let before = lent(export, &Rng::new(!seed, number as u64));
    let difference = match library.call(Function::ReadFlow, &words(export, &before), &before.bytes) {
        Err(trouble) => Some(trouble),
        Ok((given, bytes)) => difference(&answer, &before, given, &before.with(bytes)),
    };
    count.fetch_add(looked_at(&answer), Ordering::Relaxed);
    let difference = difference.map(|difference| {
        let text = format!("{:?}: {answer:?}\n", export.lengths());
        format!("{difference}; {}", keep(number, &[("export", &export.bytes[..]), ("expected", text.as_bytes())]))
    });
    Judged { class: generated.class, kinds: kinds(export, &answer), difference }
}

fn own_answer(export: &Export) -> Answer {
    let (bytes, entries) = export.lengths();
    if !is_right_length(bytes, entries) {
        return Err(Refusal::new(14, 0, 0));
    }
    read_export(&export.bytes, export.entries)
}

fn looked_at(answer: &Answer) -> usize {
    match answer {
        Ok(row) => row.len(),
        Err(refusal) if refusal.number == 14 => 0,
        Err(refusal) => refusal.place as usize + 1,
    }
}

/// What the call may write holds something drawn.
fn lent(export: &Export, rng: &Rng) -> Image {
    let arrays = vec![
        Array::of("t", &export.bytes),
        Array::drawn::<u16>(rng, "flow", export.entries),
        Array::drawn::<u64>(rng, "place", 1),
    ];
    Image::new(rng, arrays)
}

/// The arguments, as tests/library/serve.c takes them.
fn words(export: &Export, image: &Image) -> [u64; 5] {
    let (bytes, entries) = export.lengths();
    [image.start("t"), bytes as u64, image.start("flow"), entries as u64, image.start("place")]
}

fn difference(answer: &Answer, before: &Image, given: u64, after: &Image) -> Option<String> {
    let mut expected = before.clone();
    let (number, place) = answer.as_ref().err().map_or((0, 0), |refusal| (refusal.number as u64, refusal.place));
    if given != number {
        return Some(other_number(given, number));
    }
    expected.write("place", &[place]);
    if let Ok(row) = answer {
        expected.write("flow", row);
    }
    expected.difference(after)
}

fn kinds(export: &Export, answer: &Answer) -> Vec<String> {
    match answer {
        Ok(row) => row_kinds(export, row),
        Err(refusal) if refusal.number == 14 => length_kinds(export),
        Err(refusal) => sample_kinds(export, refusal.number, refusal.place as usize),
    }
}

/// Those of the names whose condition holds.
fn that_hold(names: &[&str], hold: &[bool]) -> Vec<String> {
    assert!(names.len() == hold.len());
    names.iter().zip(hold).filter(|(_, holds)| **holds).map(|(name, _)| name.to_string()).collect()
}

fn is_nan(pattern: u32) -> bool {
    pattern & !MINUS > INFINITY
}

/// As 0.7 is, which becomes 6.
fn is_lower_than_its_tenth(pattern: u32) -> bool {
    flow(pattern).is_some_and(|flow| of_tenths(flow as usize + 1) == pattern)
}

fn row_kinds(export: &Export, row: &[u16]) -> Vec<String> {
    let has = |quality: u8, holds: &dyn Fn(u32) -> bool| {
        samples(&export.bytes).any(|sample| sample[0] == quality && holds(pattern(&sample)))
    };
    let hold = [
        row.is_empty(),
        has(0, &|pattern| pattern == MINUS),
        has(0, &|pattern| (1..=0x7f_ffff).contains(&pattern)),
        has(0, &|pattern| pattern == MOST),
        has(0, &|pattern| pattern == MOST - 1),
        has(1, &|_| true),
        has(2, &|_| true),
        has(1, &is_nan) || has(2, &is_nan),
        has(0, &is_lower_than_its_tenth),
    ];
    [that_hold(&IN_ROWS, &hold), vec![of_blocks(row.len())]].concat()
}

fn length_kinds(export: &Export) -> Vec<String> {
    let (bytes, entries) = export.lengths();
    let right = SAMPLE as u128 * entries as u128;
    let hold = [
        (bytes as u128) < right,
        bytes as u128 > right,
        bytes == 0,
        entries == 0,
        bytes > 0 && bytes % SAMPLE == 0,
        export.told.is_some(),
    ];
    that_hold(&LENGTHS, &hold).iter().map(|kind| format!("refusal 14, {kind}")).collect()
}

fn sample_kinds(export: &Export, number: u32, place: usize) -> Vec<String> {
    let last = export.entries - 1;
    let refused = samples(&export.bytes).nth(place).map_or(0, |sample| pattern(&sample));
    let hold = [place == 0 && last > 0, 0 < place && place < last, place == last && last > 0, last == 0];
    let mut kinds = that_hold(&PLACES, &hold);
    if number == 16 {
        kinds.extend(reading_kinds(refused));
    }
    let mut kinds: Vec<String> = kinds.iter().map(|kind| format!("refusal {number}, {kind}")).collect();
    kinds.push(in_block(number, place));
    if samples(&export.bytes).skip(place).any(|sample| entry(&sample) == Err(31 - number)) {
        kinds.push(before_another(number, 31 - number));
    }
    if number == 15 && is_nan(refused) {
        kinds.push(NOT_LOOKED_AT.to_string());
    }
    kinds
}

fn reading_kinds(pattern: u32) -> Vec<String> {
    let below_zero = pattern & MINUS != 0;
    let without_sign = pattern & !MINUS;
    let is_number = without_sign < INFINITY;
    let hold = [
        pattern == MOST + 1,
        !below_zero && is_number,
        pattern == INFINITY,
        pattern == MINUS + 1,
        below_zero && without_sign <= 0x7f_ffff,
        below_zero && is_number,
        pattern == MINUS + INFINITY,
        is_nan(pattern) && without_sign >= INFINITY + 0x40_0000,
        is_nan(pattern) && without_sign < INFINITY + 0x40_0000,
        is_nan(pattern) && below_zero,
    ];
    that_hold(&READINGS, &hold)
}
