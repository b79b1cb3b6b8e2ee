//! The part of the self-check about a historian's export: docs/RULES.md's own numbers, which refusal comes first, the
//! decoding a second time and beside the processor's own numbers, and what the generator reaches.

use crate::exports;
use crate::historian::{entry, flow, flow_by_multiples, pattern, read_export, samples, SAMPLE};
use crate::pattern_sums;
use crate::protocol::FLOW_MISSING;
use crate::rng::Rng;
use crate::samples::{good, near_border, of_tenths, right_reading, sample, wrong_reading, Sample, INFINITY, MOST};
use crate::selfcheck::Checks;

pub fn run(checks: &mut Checks) {
    rules_table(checks);
    tenths(checks);
    orders(checks);
    qualities(checks);
    lengths(checks);
    two_ways(checks);
    sums(checks);
    generator(checks);
}

/// The row, or the refusal's number and place.
fn answer(samples: &[Sample]) -> Result<Vec<u16>, (u32, u64)> {
    read_export(&samples.concat(), samples.len()).map_err(|refusal| (refusal.number, refusal.place))
}

/// Rule 18.10, row by row.
fn rules_table(checks: &mut Checks) {
    for (pattern, wanted) in [
        (0x0000_0000, Some(0)),
        (0x8000_0000, Some(0)),
        (0x0000_0001, Some(0)),
        (0x007f_ffff, Some(0)),
        (0x3dcc_cccd, Some(1)),
        (0x3f33_3333, Some(6)),
        (0x3f80_0000, Some(10)),
        (0x453b_7fff, Some(29_999)),
        (0x453b_8000, Some(30_000)),
        (0x453b_8001, None),
        (0x8000_0001, None),
        (0xff7f_ffff, None),
        (0x7f80_0000, None),
        (0xff80_0000, None),
        (0x7f80_0001, None),
        (0x7fbf_ffff, None),
        (0x7fc0_0000, None),
        (0x7fff_ffff, None),
        (0xff80_0001, None),
        (0xffc0_0000, None),
        (0xffff_ffff, None),
    ] {
        let name = format!("reading {pattern:#010x}");
        checks.same(&name, flow(pattern), wanted);
        checks.same(&name, flow_by_multiples(pattern), wanted);
        checks.same(&name, answer(&[good(pattern)]), wanted.map(|flow| vec![flow]).ok_or((16, 0)));
    }
    checks.same("low byte first", answer(&[[0, 0x00, 0x80, 0x3b, 0x45]]), Ok(vec![30_000]));
    checks.same("quality first", answer(&[[1, 0x00, 0x80, 0x3b, 0x45]]), Ok(vec![FLOW_MISSING]));
}

/// Rule 18.11.
fn tenths(checks: &mut Checks) {
    let mut lower = 0;
    for tenths in 0..=30_000 {
        let text = format!("{}.{}", tenths / 10, tenths % 10);
        let stored = text.parse::<f32>().unwrap().to_bits();
        checks.same(&text, of_tenths(tenths), stored);
        let below = tenths as u16 - flow(stored).unwrap();
        checks.same(&text, below <= 1, true);
        lower += below;
    }
    checks.same("tenths that come out lower", lower, 11_998);
}

/// The first wrong sample decides between 15 and 16, and the length comes before all samples.
fn orders(checks: &mut Checks) {
    let (right, unknown, above) = (good(0x3f80_0000), sample(3, 0), good(MOST + 1));
    for (samples, wanted) in [
        (vec![right, unknown, above], (15, 1)),
        (vec![right, above, unknown], (16, 1)),
        (vec![unknown, right, right], (15, 0)),
        (vec![right, right, above], (16, 2)),
        (vec![above, above, above], (16, 0)),
        (vec![sample(255, INFINITY + 1)], (15, 0)),
        (vec![right, sample(4, MOST + 1), right], (15, 1)),
    ] {
        checks.same("the first wrong sample", answer(&samples), Err(wanted));
        let bytes = samples.concat();
        for (length, entries) in [
            (bytes.len() - 1, samples.len()),
            (bytes.len(), samples.len() + 1),
            (bytes.len(), 0),
            (bytes.len() - SAMPLE, samples.len()),
        ] {
            let refusal = read_export(&bytes[..length], entries).unwrap_err();
            checks.same("14 before all", (refusal.number, refusal.device, refusal.place), (14, 0, 0));
        }
    }
}

/// Uncertain and bad samples with any bytes are missing; any other quality but 0 is refused, with any bytes.
fn qualities(checks: &mut Checks) {
    let rng = Rng::new(3, 0);
    for quality in 1..=255 {
        let wanted = if quality <= 2 { Ok(FLOW_MISSING) } else { Err(15) };
        let drawn = (0..100).map(|_| rng.next() as u32);
        for pattern in [0, 1, MOST, MOST + 1, INFINITY, INFINITY + 1, u32::MAX, 1 << 31].into_iter().chain(drawn) {
            checks.same("a quality", entry(&sample(quality, pattern)), wanted);
        }
    }
}

fn lengths(checks: &mut Checks) {
    let number = |bytes: usize, entries: usize| read_export(&vec![1; bytes], entries).err().map(|told| told.number);
    checks.same("a row of 0", answer(&[]), Ok(vec![]));
    for (bytes, entries) in [(1, 0), (5, 0), (0, 1), (4, 1), (6, 1), (1, 1), (10, 1), (5, 2), (9, 2), (11, 2)] {
        checks.same("a wrong length", number(bytes, entries), Some(14));
    }
    for entries in [usize::MAX, 1 << 63, usize::MAX / 5, 7_usize.wrapping_mul(0xcccc_cccc_cccc_cccd)] {
        checks.same("no length overflows", number(7, entries), Some(14));
    }
    for entries in 0..20 {
        checks.same("a right length", number(5 * entries, entries), None);
    }
}

/// What the processor's own numbers give.
fn by_processor(pattern: u32) -> Option<u16> {
    let reading = f32::from_bits(pattern);
    let is_right = reading.is_finite() && (0.0..=3_000.0).contains(&reading);
    is_right.then(|| (reading as f64 * 10.0).floor() as u16)
}

fn two_ways(checks: &mut Checks) {
    let rng = Rng::new(4, 0);
    for case in 0..400_000 {
        let pattern = match case % 4 {
            0 => rng.next() as u32,
            1 => right_reading(&rng),
            2 => near_border(&rng),
            _ => wrong_reading(&rng, case / 4),
        };
        checks.same("a reading, by the processor", flow(pattern), by_processor(pattern));
        checks.same("a right reading is drawn", case % 4 != 1 || flow(pattern).is_some(), true);
        checks.same("a wrong reading is drawn", case % 4 != 3 || flow(pattern).is_none(), true);
    }
    for pattern in (0..1 << 32).step_by(1_000_003).map(|pattern: u64| pattern as u32) {
        checks.same("a reading, by multiples", flow(pattern), flow_by_multiples(pattern));
        checks.same("a reading, by the processor", flow(pattern), by_processor(pattern));
    }
    for number in 0..4_000 {
        let pattern = near_border(&Rng::new(5, number));
        checks.same("a reading, by multiples", flow(pattern), flow_by_multiples(pattern));
    }
}

/// Blocks whose patterns all have one answer, and FNV-1a's own value for three bytes.
fn sums(checks: &mut Checks) {
    let same = |bytes: [u8; 3]| {
        let all = (0..1 << 20).flat_map(|_| bytes);
        all.fold(0xcbf2_9ce4_8422_2325_u64, |sum, byte| (sum ^ byte as u64).wrapping_mul(0x100_0000_01b3))
    };
    checks.same("block 0: all become 0", pattern_sums::sum(0), same([0, 0, 0]));
    checks.same("block 4,095: all are NaNs", pattern_sums::sum(4_095), same([16, 0, 0]));
    let foo = b"foo".iter().fold(pattern_sums::BASIS, |sum, &byte| pattern_sums::with_byte(sum, byte));
    checks.same("FNV-1a of foo", foo, 0xdcb2_7518_fed9_d577);
}

/// A run of 4,000 has every exponent that is right, every quality, and more than a million samples.
fn generator(checks: &mut Checks) {
    let (mut exponents, mut unknown, mut count) = ([false; 256], [false; 256], 0);
    for number in 0..4_000 {
        let export = exports::generate(20_150_616, number).export;
        count += export.entries;
        for sample in samples(&export.bytes) {
            unknown[sample[0] as usize] = true;
            if entry(&sample).is_ok() && sample[0] == 0 {
                exponents[(pattern(&sample) >> 23 & 255) as usize] = true;
            }
        }
    }
    checks.same("each right exponent is drawn", exponents[..139].iter().all(|&met| met), true);
    checks.same("each quality is drawn", unknown.iter().all(|&met| met), true);
    checks.same("a million samples", count > 1_000_000, true);
}
