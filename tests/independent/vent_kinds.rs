//! What an accepted call about ventilation air shows, for the summary of a run and for what a long run must have met:
//! outcomes, borders of roundings, of methane and of tonnes, missing readings, wrong programs that are told, and how
//! far the tonnes fall short.

use crate::vent_borders::{BORDERS, CHANGES};
use crate::vent_call::{Interval, VentCall};
use crate::vent_exact::claim;
use crate::vent_program::Given;
use crate::vent_quantify::VentQuantified;
use crate::vent_wrong_programs::{programs, told_from};
use crate::{vent_methane, vent_missing};
use std::collections::BTreeSet;

/// Where a reduction lies beside a whole tonne, in mg from the last one on.
const TONNES: [(i128, &str); 3] =
    [(0, "a whole tonne"), (1, "1 mg above a tonne"), (999_999_999, "1 mg below a tonne")];

const SIGNS: [&str; 2] = ["positive", "negative"];

/// Of mg for each counted interval that are not enough.
const BEYOND: [(i128, &str); 2] = [
    (24_000, "short by more than 1 t and 24 g an interval"),
    (24_800, "short by more than 1 t and 24.8 g an interval"),
];

const CALLS: [&str; 4] = ["a year", "a year of 16 devices", "none counted", "all counted"];

fn border_of_tonne(name: &str, sign: &str) -> String {
    format!("reduction {name}, {sign}")
}

pub fn not_as_by(name: &str) -> String {
    format!("not as by {name}")
}

/// Kinds that any long run must meet.
pub fn wanted() -> Vec<String> {
    let mut kinds: Vec<String> = [0, 3, 4, 5, 6].map(|outcome| format!("sheet, outcome {outcome}")).to_vec();
    kinds.extend(TONNES.iter().flat_map(|(_, name)| SIGNS.map(|sign| border_of_tonne(name, sign))));
    kinds.extend(BEYOND.iter().map(|(_, name)| name.to_string()));
    kinds.extend(CALLS.map(str::to_string));
    kinds.extend((0..CHANGES.len()).flat_map(|change| BORDERS.iter().map(move |border| border.name(change))));
    kinds.extend([vent_methane::wanted(), vent_missing::wanted()].concat());
    kinds.extend(programs().map(|wrong| not_as_by(wrong.name)));
    kinds
}

/// Longer calls are made for other things than single intervals.
const LONGEST: usize = 256;

fn is_running(one: &Interval) -> bool {
    (one.status == 1 || one.status == 2) && one.inlet.is_whole() && one.exhaust.is_whole()
}

fn of_intervals(call: &VentCall) -> BTreeSet<String> {
    let mut kinds = BTreeSet::new();
    if call.entries() > LONGEST {
        return kinds;
    }
    kinds.extend(call.all().filter_map(vent_missing::of_interval));
    for one in call.all().filter(is_running) {
        kinds.extend(vent_methane::of_interval(one));
        kinds.extend(BORDERS.iter().filter_map(|border| border.shown(one).map(|change| border.name(change))));
    }
    kinds
}

fn of_tonnes(quantified: &VentQuantified) -> Option<String> {
    let mg = quantified.figures.reduction_mg;
    let (_, name) = TONNES.iter().find(|(beside, _)| mg.rem_euclid(1_000_000_000) == *beside)?;
    (mg != 0).then(|| border_of_tonne(name, SIGNS[(mg < 0) as usize]))
}

/// It is worked out in fractions where it may be so.
fn beyond(call: &VentCall, quantified: &VentQuantified) -> Vec<String> {
    let figures = &quantified.figures;
    let rest = figures.reduction_mg - figures.tonnes * 1_000_000_000;
    if figures.counted == 0 || rest + 1_000 * figures.counted < 1_000_000_000 || call.entries() > LONGEST {
        return vec![];
    }
    let claim = claim(call, &quantified.outcome, figures.tonnes);
    BEYOND.iter().filter(|(mg, _)| claim.loses_more_than(*mg)).map(|(_, name)| name.to_string()).collect()
}

fn of_size(call: &VentCall, quantified: &VentQuantified) -> Vec<String> {
    let (is_year, figures) = (call.intervals >= 35_135, &quantified.figures);
    let holds =
        [is_year, is_year && call.devices == 16, figures.counted == 0, figures.excluded == 0 && figures.counted > 0];
    CALLS.iter().zip(holds).filter(|(_, holds)| *holds).map(|(name, _)| name.to_string()).collect()
}

pub fn of_sheet(call: &VentCall, quantified: &VentQuantified) -> Vec<String> {
    let mut kinds = vec!["sheet".to_string()];
    let met = (0..10).filter(|&outcome| quantified.accounts.iter().any(|account| account.counts[outcome] > 0));
    kinds.extend(met.map(|outcome| format!("sheet, outcome {outcome}")));
    kinds.extend(of_tonnes(quantified));
    kinds.extend(of_intervals(call));
    kinds.extend(told_from(call, &Given::of(quantified)).into_iter().map(not_as_by));
    kinds.extend(beyond(call, quantified));
    kinds.extend(of_size(call, quantified));
    kinds
}
