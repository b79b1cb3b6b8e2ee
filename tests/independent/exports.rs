//! The generator of a historian's exports and of the rows that are lent for them: classes in fixed shares, and one for
//! each seed and number.

use crate::generate::{class, turn, Class};
use crate::historian::{is_right_length, SAMPLE};
use crate::rng::Rng;
use crate::samples::{self, good, right_samples, sample, Sample};

#[derive(Clone, Debug)]
pub struct Export {
    pub bytes: Vec<u8>,
    /// Entries of the row that is lent.
    pub entries: usize,
    /// What is told of the export's length and of the row's, if not the truth. Nothing of either may be read then.
    pub told: Option<(usize, usize)>,
}

pub struct Generated {
    pub class: &'static str,
    pub export: Export,
}

/// Takes the random source and the export's number in its class.
#[derive(Clone, Copy)]
enum Maker {
    Samples(fn(&Rng, usize) -> Vec<Sample>),
    Lengths(fn(&Rng, usize) -> Export),
}

use Maker::{Lengths, Samples};

const CLASSES: [Class<Maker>; 17] = [
    class("right readings", 12, Samples(right_readings)),
    class("every exponent", 6, Samples(every_exponent)),
    class("borders", 10, Samples(borders)),
    class("patterns in a row", 8, Samples(patterns_in_a_row)),
    class("without a reading", 8, Samples(without_a_reading)),
    class("every length", 16, Samples(every_length)),
    class("one refused", 32, Samples(one_refused)),
    class("two refused", 20, Samples(two_refused)),
    class("unknown qualities", 12, Samples(unknown_qualities)),
    class("refused readings", 16, Samples(refused_readings)),
    class("long", 10, Samples(long)),
    class("long, refused", 16, Samples(long_refused)),
    class("real", 3, Samples(real)),
    class("damaged", 14, Lengths(damaged)),
    class("any bytes", 6, Samples(any_bytes)),
    class("lengths", 20, Lengths(lengths)),
    class("told lengths", 8, Lengths(told_lengths)),
];

impl Export {
    pub fn of(samples: &[Sample]) -> Export {
        Export { bytes: samples.concat(), entries: samples.len(), told: None }
    }

    /// The lengths as the call has them.
    pub fn lengths(&self) -> (usize, usize) {
        self.told.unwrap_or((self.bytes.len(), self.entries))
    }
}

/// The export with this number, from 0.
pub fn generate(seed: u64, number: usize) -> Generated {
    let (class, case) = turn(&CLASSES, number);
    let rng = Rng::new(seed, number as u64);
    let export = match class.make {
        Samples(make) => Export::of(&make(&rng, case)),
        Lengths(make) => make(&rng, case),
    };
    Generated { class: class.name, export }
}

fn right_readings(rng: &Rng, _case: usize) -> Vec<Sample> {
    (0..rng.size(1, 200)).map(|_| good(samples::right_reading(rng))).collect()
}

/// Each exponent that a right reading can have, from a drawn one on.
fn every_exponent(rng: &Rng, _case: usize) -> Vec<Sample> {
    let (count, first) = (samples::MOST_EXPONENT + 1, rng.size(0, 138) as u32);
    let exponents = (0..3 * count).map(|k| (first + k) % count);
    exponents.map(|exponent| good(samples::with_exponent(rng, exponent).min(samples::MOST))).collect()
}

/// Tenths with their neighbours on both sides; at the ends of the range these are refused.
fn borders(rng: &Rng, case: usize) -> Vec<Sample> {
    let tenths = |k: usize| if case % 4 == 0 { rng.pick(&[0, 1, 30_000]) } else { (case * 40 + k * 7) % 30_000 + 1 };
    let around = |k: usize| (-2..=2).map(move |beside| samples::of_tenths(tenths(k)).wrapping_add(beside as u32));
    let patterns: Vec<u32> = (0..rng.size(1, 40)).flat_map(around).collect();
    let is_kept = |pattern: &u32| case % 4 == 0 || *pattern <= samples::MOST;
    patterns.into_iter().filter(is_kept).map(good).collect()
}

/// Over a border of the exponent, or of the whole range, or anywhere.
fn patterns_in_a_row(rng: &Rng, case: usize) -> Vec<Sample> {
    let border = match case % 6 {
        0..=2 => (rng.size(0, 139) as u32) << 23,
        3 => rng.pick(&[0, samples::MINUS, samples::MOST, samples::INFINITY]),
        4 => samples::of_tenths(rng.size(0, 30_000)),
        _ => rng.size(0, samples::MOST as usize) as u32,
    };
    let first = border.wrapping_sub(rng.size(0, 200) as u32);
    (0..rng.size(150, 700)).map(|k| good(first.wrapping_add(k as u32))).collect()
}

fn without_a_reading(rng: &Rng, case: usize) -> Vec<Sample> {
    let one_in = rng.pick(&[1, 2, 10]);
    let other = |rng: &Rng| if case % 2 == 0 { good(samples::right_reading(rng)) } else { samples::missing(rng) };
    (0..rng.size(1, 150)).map(|_| if rng.chance(one_in) { samples::missing(rng) } else { other(rng) }).collect()
}

/// Rows of 0 to 72 entries, in turn.
fn every_length(rng: &Rng, case: usize) -> Vec<Sample> {
    right_samples(rng, case % 73)
}

/// A sample that is refused, by its quality or by its reading.
fn offender(rng: &Rng, by_quality: bool) -> Sample {
    if by_quality {
        samples::unknown(rng, rng.below(253))
    } else {
        good(samples::wrong_reading(rng, rng.below(samples::WRONG_WAYS)))
    }
}

/// Each place of two blocks of eight, in rows that end with it, soon after it or later.
fn one_refused(rng: &Rng, case: usize) -> Vec<Sample> {
    let place = case / 2 % 24;
    let mut samples = right_samples(rng, place + 1 + rng.pick(&[0, 0, rng.below(8), rng.below(60)]));
    samples[place] = offender(rng, case % 2 == 0);
    samples
}

/// Of each pair of kinds, near each other and far apart.
fn two_refused(rng: &Rng, case: usize) -> Vec<Sample> {
    let first = case / 4 % 17;
    let second = first + 1 + rng.pick(&[0, rng.below(8), rng.below(100)]);
    let mut samples = right_samples(rng, second + 1 + rng.pick(&[0, rng.below(20)]));
    samples[first] = offender(rng, case % 2 == 0);
    samples[second] = offender(rng, case / 2 % 2 == 0);
    samples
}

/// First, last or in between.
fn some_place(rng: &Rng, count: usize) -> usize {
    rng.pick(&[0, count - 1, count / 2, rng.below(count)])
}

fn unknown_qualities(rng: &Rng, case: usize) -> Vec<Sample> {
    let mut samples = right_samples(rng, rng.size(1, 40));
    let place = some_place(rng, samples.len());
    samples[place] = samples::unknown(rng, case);
    samples
}

fn refused_readings(rng: &Rng, case: usize) -> Vec<Sample> {
    let mut samples = right_samples(rng, rng.size(1, 40));
    let place = some_place(rng, samples.len());
    samples[place] = good(samples::wrong_reading(rng, case));
    samples
}

fn long(rng: &Rng, _case: usize) -> Vec<Sample> {
    right_samples(rng, rng.size(1_000, 5_000))
}

/// Refused at its first sample, in the middle, at its last; or by one kind from some place on.
fn long_refused(rng: &Rng, case: usize) -> Vec<Sample> {
    let mut samples = right_samples(rng, rng.size(1_000, 5_000));
    let last = samples.len() - 1;
    let place = [0, last / 2, last, rng.below(last), last - rng.below(16)][case % 5];
    samples[place] = offender(rng, case / 5 % 2 == 0);
    if case % 3 == 0 {
        let later = rng.size(place, last);
        samples[later] = offender(rng, rng.chance(2));
    }
    if case % 11 == 0 {
        let kind = rng.chance(2);
        samples[place..].fill_with(|| offender(rng, kind));
    }
    samples
}

fn real(rng: &Rng, _case: usize) -> Vec<Sample> {
    samples::real(rng, rng.pick(&[96, 672, 2_976]))
}

/// Qualities 0 to 2 or any, and any 32 bits.
fn any_bytes(rng: &Rng, case: usize) -> Vec<Sample> {
    let qualities = rng.pick(&[1, 3, 3, 256]);
    let pattern = |rng: &Rng| rng.next() as u32 & if case % 2 == 0 { u32::MAX } else { 0x3fff_ffff };
    (0..rng.size(1, 60)).map(|_| sample(rng.below(qualities) as u8, pattern(rng))).collect()
}

/// A real export after what happens to files: bits, bytes or samples changed, lost, doubled, moved or in another order.
fn damaged(rng: &Rng, case: usize) -> Export {
    let Export { mut bytes, entries, .. } = Export::of(&samples::real(rng, rng.pick(&[1, 8, 96, 200, 672])));
    let at = rng.below(bytes.len());
    match case % 14 {
        0 | 1 => bytes[at] ^= 1 << rng.below(8),
        2 => bytes[at] = rng.next() as u8,
        3 => drop(bytes.remove(at)),
        4 => bytes.insert(at, rng.next() as u8),
        5 => bytes.truncate(at),
        6 => drop(bytes.drain(at / SAMPLE * SAMPLE..at / SAMPLE * SAMPLE + SAMPLE)),
        7 => bytes.extend(rng.bytes(SAMPLE)),
        // one byte on, one byte back
        8 => bytes.rotate_left(1),
        9 => bytes.rotate_right(1),
        10 => bytes.chunks_exact_mut(SAMPLE).for_each(|sample| sample[1..].reverse()),
        11 => bytes.chunks_exact_mut(SAMPLE).for_each(|sample| sample.rotate_left(1)),
        // a piece of text in place of samples, as the header that some exports have
        12 => bytes.iter_mut().zip(b"time;quality;value\r\n".iter()).for_each(|(byte, letter)| *byte = *letter),
        _ => bytes[at..].fill(rng.pick(&[0, 255])),
    }
    Export { bytes, entries, told: None }
}

/// Too short and too long by 1 to 5 bytes, nothing at all, of another row, a row of 0 entries, rows as long as bytes.
fn lengths(rng: &Rng, case: usize) -> Export {
    let mut samples = right_samples(rng, rng.pick(&[1, 2, 7, 8, 9, rng.size(1, 100)]));
    if rng.chance(3) {
        let place = some_place(rng, samples.len());
        samples[place] = offender(rng, rng.chance(2));
    }
    let Export { mut bytes, mut entries, .. } = Export::of(&samples);
    let by = case / 12 % 5 + 1;
    match case % 12 {
        0..=1 => bytes.truncate(bytes.len() - by),
        2..=3 => bytes.extend(rng.bytes(by)),
        4 => bytes.clear(),
        5 => entries = 0,
        6 => entries += by,
        7 => entries -= by.min(entries),
        8 => entries = bytes.len(),
        9 => bytes.truncate(entries),
        10 => bytes.truncate(bytes.len() / 2),
        _ => bytes.extend(rng.bytes(SAMPLE * by)),
    }
    Export { bytes, entries, told: None }
}

/// Lengths that no memory has; among them those whose product by five wraps to the length of the other.
fn told_lengths(rng: &Rng, case: usize) -> Export {
    let mut export = Export::of(&right_samples(rng, rng.size(1, 30)));
    let (bytes, entries) = (export.bytes.len(), export.entries);
    // 5 times this is 1 more than a multiple of 2^64.
    let fifth = 0xcccc_cccc_cccc_cccd_usize;
    let told = match case % 8 {
        0 => (bytes, entries + rng.pick(&[1 << 16, 1 << 32, 1 << 40])),
        1 => (bytes + rng.pick(&[1 << 16, 1 << 32, 1 << 40]), entries),
        2 => (bytes, rng.pick(&[1 << 63, usize::MAX, usize::MAX / 5, 1 << 62])),
        3 => (rng.pick(&[1 << 63, usize::MAX, usize::MAX - 1]), entries),
        4 => (bytes - 1, (bytes - 1).wrapping_mul(fifth)),
        5 => (bytes - rng.size(1, 4), (bytes - 1).wrapping_mul(fifth)),
        6 => (usize::MAX, usize::MAX),
        _ => (bytes, entries.wrapping_neg()),
    };
    assert!(!is_right_length(told.0, told.1));
    export.told = Some(told);
    export
}
