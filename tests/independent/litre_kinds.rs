//! What the counted intervals of a sheet show of the litres, for the summary of a run and for what a long run must have
//! met: which borders they lie on, which wrong programs would have other litres, and how far the tonnes fall short.

use crate::exact::{Claim, Counted};
use crate::litre_borders::{common, LARGE};
use crate::litre_reading::{Reading, HUNDREDTHS, LITRES, WHOLE};
use crate::quantify::Quantified;
use crate::wrong_litres::PROGRAMS;

/// With P and F of `litre_reading`. One hundredth more or fewer, as may be, shows in the litres of methane.
const BORDERS: [&str; 13] = [
    "P by F, remainder 0",
    "P by F, remainder 1 to 9",
    "P by F, remainder F - 9 to F - 1",
    "P by F, 10^7 or more, remainder F - 5 to F - 1",
    "100 P by F, remainder 0, no whole litre",
    "100 P by F, remainder 1 to 9",
    "100 P by F, remainder F - 9 to F - 1",
    "100 P by F, 10^9 or more, remainder F - 5 to F - 1",
    "methane, 0 millionths, no whole litre of gas",
    "methane, 1 millionth",
    "methane, 999,999 millionths",
    "methane, as near above as CH4 allows",
    "methane, as near below as CH4 allows",
];

const ONCE_A_DEVICE: &str = "not as by one rounding a device";

const BEYOND_12_G: &str = "short by more than 1 t, 12 g an interval and 13 g a device";

fn not_as_by(name: &str) -> String {
    format!("not as by {name}")
}

/// Kinds that any long run must meet, of files or of calls.
pub fn wanted() -> Vec<String> {
    let programs = PROGRAMS.iter().map(|program| not_as_by(program.name));
    let others = [ONCE_A_DEVICE, BEYOND_12_G].map(str::to_string);
    BORDERS.map(str::to_string).into_iter().chain(programs).chain(others).collect()
}

/// Which borders a reading lies on. Flow 0 is no litre at any pressure, and shows nothing.
fn borders(one: Reading) -> [bool; 13] {
    let [litre, hundredth] = [LITRES, HUNDREDTHS].map(|unit| one.remainder(unit));
    let (after_litre, after_hundredth) = (one.lacking(LITRES), one.lacking(HUNDREDTHS));
    let is_large = one.volume(LITRES) >= LARGE;
    let (fewer, more) = (one.shows_one_fewer(), one.shows_one_more());
    let (rest, part) = (one.methane_rest(), common(one.ch4 as u64, WHOLE).0);
    [
        fewer && litre == 0,
        fewer && (1..=9).contains(&litre),
        more && after_litre <= 9,
        more && after_litre <= 5 && is_large,
        fewer && hundredth == 0 && litre > 0,
        fewer && (1..=9).contains(&hundredth),
        more && after_hundredth <= 9,
        more && after_hundredth <= 5 && is_large,
        one.methane() > 0 && rest == 0 && one.hundredths() % 100 > 0,
        rest == 1,
        rest == WHOLE - 1,
        part > 1 && part < WHOLE && rest == part,
        part > 1 && part < WHOLE && rest == WHOLE - part,
    ]
}

/// Every counted interval's readings, with the values that are used, replaced and corrected ones too.
fn counted(quantified: &Quantified) -> Vec<Vec<Reading>> {
    let rows = quantified.devices.iter().zip(&quantified.rows);
    let own = rows.map(|(device, row)| {
        let reading = |i: usize| match (row.outcome[i], device.temp[i], device.press[i]) {
            (0..=2, Some(temp), Some(press)) => Some(Reading { flow: row.flow[i], ch4: row.ch4[i], temp, press }),
            _ => None,
        };
        (0..row.outcome.len()).filter_map(reading).collect()
    });
    own.collect()
}

/// Wrong programs that have other litres in all: no comparison of sheets could miss them here.
fn told_from(readings: &[Vec<Reading>]) -> Vec<String> {
    let all = || readings.iter().flatten().copied();
    let other = PROGRAMS.iter().filter(|program| all().map(|one| program.apart(one)).sum::<i64>() != 0);
    let mut kinds: Vec<String> = other.map(|program| not_as_by(program.name)).collect();
    let rests = |own: &Vec<Reading>| own.iter().map(|one| one.methane_rest()).sum::<u64>();
    if readings.iter().any(|own| rests(own) >= WHOLE) {
        kinds.push(ONCE_A_DEVICE.to_string());
    }
    kinds
}

/// Would 12 g for each counted interval not be enough? It is worked out in fractions where it may be so.
fn is_beyond_12_g(quantified: &Quantified, readings: &[Vec<Reading>]) -> bool {
    let figures = &quantified.figures;
    let rest = figures.reduction_mg - figures.tonnes * 1_000_000_000;
    if rest + 13_000 * figures.counted < 1_000_000_000 || figures.counted < 50 {
        return false;
    }
    let mut counted = vec![];
    for (device, own) in quantified.devices.iter().zip(readings) {
        counted.extend(own.iter().map(|&reading| Counted { kind: device.kind, reading }));
    }
    Claim::new(&counted, figures.devices, figures.tonnes, figures.fuel_mg).loses_more_than(12_000)
}

pub fn of_sheet(quantified: &Quantified) -> Vec<String> {
    let readings = counted(quantified);
    let mut met = [false; 13];
    for &one in readings.iter().flatten().filter(|one| one.flow > 0) {
        met.iter_mut().zip(borders(one)).for_each(|(met, own)| *met |= own);
    }
    let mut kinds: Vec<String> =
        BORDERS.iter().zip(met).filter(|(_, met)| *met).map(|(kind, _)| kind.to_string()).collect();
    kinds.extend(told_from(&readings));
    kinds.extend(is_beyond_12_g(quantified, &readings).then(|| BEYOND_12_G.to_string()));
    kinds
}
