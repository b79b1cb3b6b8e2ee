//! Wrong programs for accepted calls about ventilation air, each of which a long run must have told from the right one:
//! outcomes, accounts or figures of some call must have been others. One that no call could tell is none.

use crate::vent_borders::Border;
use crate::vent_call::{Interval, VentCall};
use crate::vent_program::{co2_of, destroyed, fuel_mg, Given, Program, RIGHT};
use crate::vent_wrong_above as above;
use crate::vent_wrong_litres as litres;

pub struct WrongProgram {
    pub name: &'static str,
    pub program: Program,
    /// The borders of roundings that tell it, where hardly any other call does.
    pub at: Option<fn(&Border) -> bool>,
}

const fn wrong(name: &'static str, program: Program) -> WrongProgram {
    WrongProgram { name, program, at: None }
}

const fn states(name: &'static str, states: [u8; 4]) -> WrongProgram {
    wrong(name, Program { states, ..RIGHT })
}

const fn order(name: &'static str, order: [u8; 4]) -> WrongProgram {
    wrong(name, Program { order, ..RIGHT })
}

const fn lacks(name: &'static str, lacks: fn(Interval) -> bool) -> WrongProgram {
    wrong(name, Program { lacks, ..RIGHT })
}

const fn filled(name: &'static str, filled: fn(Interval, Interval) -> Interval) -> WrongProgram {
    wrong(name, Program { filled, ..RIGHT })
}

const fn co2(name: &'static str, co2_mg: fn(&[Vec<(i64, i64)>]) -> i64) -> WrongProgram {
    wrong(name, Program { co2_mg, ..RIGHT })
}

const fn fuel(name: &'static str, fuel_mg: fn(&VentCall) -> i64) -> WrongProgram {
    wrong(name, Program { fuel_mg, ..RIGHT })
}

const fn reduction(name: &'static str, reduction_mg: fn([i64; 4]) -> i64) -> WrongProgram {
    wrong(name, Program { reduction_mg, ..RIGHT })
}

const fn tonnes(name: &'static str, tonnes: fn(i64) -> i64) -> WrongProgram {
    wrong(name, Program { tonnes, ..RIGHT })
}

const OTHERS: [WrongProgram; 45] = [
    states("status 2 stopped", [3, 0, 3, 4]),
    states("status 2 unrecorded", [3, 0, 4, 4]),
    states("attested intervals only", [3, 3, 0, 4]),
    states("status 3 stopped", [3, 0, 0, 3]),
    states("status 3 running", [3, 0, 0, 0]),
    states("status 0 running", [0, 0, 0, 4]),
    states("status 0 and 3 for each other", [4, 0, 0, 3]),
    order("5 before 3", [5, 3, 4, 6]),
    order("5 before 4", [3, 5, 4, 6]),
    order("6 before 5", [3, 4, 6, 5]),
    order("6 before 4", [3, 6, 4, 5]),
    order("6 before 3", [6, 3, 4, 5]),
    lacks("a missing inlet_flow is none", unseen::<0>),
    lacks("a missing inlet_ppm is none", unseen::<1>),
    lacks("a missing inlet_temp is none", unseen::<2>),
    lacks("a missing inlet_press is none", unseen::<3>),
    lacks("a missing exhaust_flow is none", unseen::<4>),
    lacks("a missing exhaust_ppm is none", unseen::<5>),
    lacks("a missing exhaust_temp is none", unseen::<6>),
    lacks("a missing exhaust_press is none", unseen::<7>),
    lacks("a missing exhaust taken for 0", |one| !one.inlet.is_whole()),
    lacks("a missing inlet taken for 0", |one| !one.exhaust.is_whole()),
    lacks("5 for temperature and pressure only", |one| unseen::<0x10>(one)),
    lacks("5 where a whole stream is missing only", |one| !one.inlet.is_whole() && !one.exhaust.is_whole()),
    filled("missing conditions taken as standard", standard),
    filled("the reading before in place of a missing one", before),
    filled("the other stream's conditions in place of missing ones", other_stream),
    wrong("6 with its litres", Program { is_counted: |outcome| outcome == 0 || outcome == 6, ..RIGHT }),
    wrong("5 with its litres", Program { is_counted: |outcome| outcome == 0 || outcome == 5, ..RIGHT }),
    wrong("3 with its litres", Program { is_counted: |outcome| outcome == 0 || outcome == 3, ..RIGHT }),
    wrong("4 with its litres", Program { is_counted: |outcome| outcome == 0 || outcome == 4, ..RIGHT }),
    co2("CO2 of the inlet", |devices| devices.iter().map(|own| co2_of(own.iter().map(|one| one.0).sum())).sum()),
    co2("CO2 once over all devices", |devices| co2_of(devices.iter().map(|own| destroyed(own)).sum())),
    co2("CO2 for each interval", |devices| devices.iter().flatten().map(|one| co2_of(one.0 - one.1)).sum()),
    co2("CO2 rounded down", |devices| devices.iter().map(|own| 7_337 * destroyed(own) / 4).sum()),
    co2("CO2 to the nearest", |devices| devices.iter().map(|own| (7_337 * destroyed(own) + 2) / 4).sum()),
    co2("CO2 of 1,834 mg a litre", |devices| devices.iter().map(|own| 1_834 * destroyed(own)).sum()),
    co2("CO2 of inlet and exhaust apart", |devices| devices.iter().map(|own| apart(own)).sum()),
    fuel("no fuel", |_| 0),
    fuel("fuel of each device", |call| fuel_mg(call) * call.devices as i64),
    fuel("the first fuel line only", |call| {
        call.quantity.first().map_or(0, |&quantity| quantity as i64 * call.factor[0] as i64)
    }),
    reduction("fuel on the sheet only", |[baseline, co2, uncombusted, _]| baseline - co2 - uncombusted),
    reduction("the exhaust not taken off", |[baseline, co2, _, fuel]| baseline - co2 - fuel),
    tonnes("tonnes towards zero", |mg| mg / 1_000_000_000),
    tonnes("tonnes to the nearest", |mg| (mg + 500_000_000).div_euclid(1_000_000_000)),
];

/// The readings of an interval that are looked at; those of one series are not, or (16) those of flow and ppm.
fn unseen<const SERIES: usize>(mut one: Interval) -> bool {
    let hidden: &[usize] = if SERIES == 0x10 { &[0, 1, 4, 5] } else { &[SERIES] };
    hidden.iter().for_each(|&series| one.put(series, 60_000));
    !one.inlet.is_whole() || !one.exhaust.is_whole()
}

fn standard(mut one: Interval, _before: Interval) -> Interval {
    for (series, value) in [(2, 2_000), (3, 101_325), (6, 2_000), (7, 101_325)] {
        fill(&mut one, series, value);
    }
    one
}

fn before(mut one: Interval, before: Interval) -> Interval {
    (0..8).for_each(|series| fill(&mut one, series, before.value(series)));
    one
}

fn other_stream(mut one: Interval, _before: Interval) -> Interval {
    for (series, other) in [(2, 6), (3, 7), (6, 2), (7, 3)] {
        let value = one.value(other);
        fill(&mut one, series, value);
    }
    one
}

fn fill(one: &mut Interval, series: usize, value: i64) {
    if one.value(series) == crate::vent_draw::MARKS[series] {
        one.put(series, value);
    }
}

/// The CO2 of the inlet, rounded up, less the CO2 of the exhaust, rounded down.
fn apart(own: &[(i64, i64)]) -> i64 {
    let sums = own.iter().fold((0, 0), |sums, one| (sums.0 + one.0, sums.1 + one.1));
    co2_of(sums.0) - 7_337 * sums.1 / 4
}

/// All of them.
pub fn programs() -> impl Iterator<Item = &'static WrongProgram> {
    litres::PROGRAMS.iter().chain(&above::PROGRAMS).chain(&OTHERS)
}

/// Longer calls are not asked: every program is told in short ones.
const LONGEST: usize = 256;

/// Those that would give something else than this: no comparison could miss them here.
pub fn told_from(call: &VentCall, given: &Given) -> Vec<&'static str> {
    if call.entries() > LONGEST {
        return vec![];
    }
    programs().filter(|wrong| wrong.program.given(call) != *given).map(|wrong| wrong.name).collect()
}
