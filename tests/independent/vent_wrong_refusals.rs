//! Wrong programs for the refusals of a call about ventilation air whose N, D and lengths are right. A long run must
//! have told each of them: by another number, device or place, by a refusal where there is none, or by none.

use crate::refusal::Refusal;
use crate::vent_call::{Interval, VentCall, SERIES, STATUS};
use crate::vent_draw::MARKS;
use crate::vent_reading_kinds::{is_wrong, number_of, wrong_series};
use crate::vent_refusals::fuels;

pub struct WrongRefusals {
    pub name: &'static str,
    pub refusal: fn(&VentCall) -> Option<Refusal>,
}

const fn wrong(name: &'static str, refusal: fn(&VentCall) -> Option<Refusal>) -> WrongRefusals {
    WrongRefusals { name, refusal }
}

pub const PROGRAMS: [WrongRefusals; 40] = [
    wrong("exhaust before inlet", |call| in_order(call, [4, 5, 6, 7, 0, 1, 2, 3, 8])),
    wrong("status before the readings", |call| in_order(call, [8, 0, 1, 2, 3, 4, 5, 6, 7])),
    wrong("status before the exhaust", |call| in_order(call, [0, 1, 2, 3, 8, 4, 5, 6, 7])),
    wrong("flows, then ppm, then the rest", |call| in_order(call, [0, 4, 1, 5, 2, 6, 3, 7, 8])),
    wrong("the lowest number", lowest_number),
    wrong("series by series", |call| all_wrong(call).min_by_key(|&(entry, series)| (series, entry)).map(of(call))),
    wrong("inlet, then exhaust, then status", stream_by_stream),
    wrong("intervals before devices", intervals_first),
    wrong("the last offender", |call| all_wrong(call).last().map(of(call)).or_else(|| fuels(call))),
    wrong("fuel before the readings", |call| fuels(call).or_else(|| first(call, looked_at))),
    wrong("no fuel line", |call| first(call, looked_at)),
    wrong("the first device only", first_device),
    wrong("place over all devices", place_over_all),
    wrong("device 0 always", |call| with_fuels(call, looked_at).map(|one| Refusal { device: 0, ..one })),
    wrong("drainage's numbers", drainage_numbers),
    wrong("one number for both streams", |call| with_fuels(call, looked_at).map(one_number)),
    wrong("stopped intervals not looked at", |call| {
        with_fuels(call, |one| (one.status != 0).then(|| looked_at(one))?)
    }),
    wrong("unrecorded ones not looked at", |call| with_fuels(call, |one| (one.status != 3).then(|| looked_at(one))?)),
    wrong("ones that lack a reading not looked at", |call| {
        with_fuels(call, |one| (!lacks(one)).then(|| looked_at(one))?)
    }),
    wrong("status 2 refused", |call| with_fuels(call, |one| looked_at(one).or((one.status == 2).then_some(STATUS)))),
    wrong("status 3 refused", |call| with_fuels(call, |one| looked_at(one).or((one.status == 3).then_some(STATUS)))),
    wrong("any status", |call| with_fuels(call, |one| but_for(one, STATUS))),
    wrong("inlet_flow not looked at", |call| with_fuels(call, |one| but_for(one, 0))),
    wrong("inlet_ppm not looked at", |call| with_fuels(call, |one| but_for(one, 1))),
    wrong("inlet_temp not looked at", |call| with_fuels(call, |one| but_for(one, 2))),
    wrong("inlet_press not looked at", |call| with_fuels(call, |one| but_for(one, 3))),
    wrong("exhaust_flow not looked at", |call| with_fuels(call, |one| but_for(one, 4))),
    wrong("exhaust_ppm not looked at", |call| with_fuels(call, |one| but_for(one, 5))),
    wrong("exhaust_temp not looked at", |call| with_fuels(call, |one| but_for(one, 6))),
    wrong("exhaust_press not looked at", |call| with_fuels(call, |one| but_for(one, 7))),
    wrong("a missing flow refused", |call| with_fuels(call, |one| or_marks(one, [0, 4]))),
    wrong("a missing ppm refused", |call| with_fuels(call, |one| or_marks(one, [1, 5]))),
    wrong("a missing temperature refused", |call| with_fuels(call, |one| or_marks(one, [2, 6]))),
    wrong("a missing pressure refused", |call| with_fuels(call, |one| or_marks(one, [3, 7]))),
    wrong("ppm up to 10,000", |call| with_ranges(call, [1, 5], (0, 10_000))),
    wrong("ppm up to 30,000", |call| with_ranges(call, [1, 5], (0, 30_000))),
    wrong("ppm below 20,000", |call| with_ranges(call, [1, 5], (0, 19_999))),
    wrong("flow below 30,000", |call| with_ranges(call, [0, 4], (0, 29_999))),
    wrong("temperatures from above -40 C", |call| with_ranges(call, [2, 6], (-3_999, 10_000))),
    wrong("pressures below 300,000 Pa", |call| with_ranges(call, [3, 7], (50_000, 299_999))),
];

/// The first series that is wrong.
fn looked_at(one: Interval) -> Option<usize> {
    wrong_series(one).next()
}

fn but_for(one: Interval, hidden: usize) -> Option<usize> {
    wrong_series(one).find(|&series| series != hidden)
}

fn lacks(one: Interval) -> bool {
    !one.inlet.is_whole() || !one.exhaust.is_whole()
}

fn or_marks(one: Interval, refused: [usize; 2]) -> Option<usize> {
    let is_mark = |series: &usize| refused.contains(series) && one.value(*series) == MARKS[*series];
    wrong_series(one).chain((0..SERIES).filter(is_mark)).min()
}

fn of(call: &VentCall) -> impl Fn((usize, usize)) -> Refusal + '_ {
    let n = call.intervals as usize;
    move |(entry, series)| Refusal::new(number_of(series), entry / n, entry % n)
}

/// Entry and series of every wrong reading.
fn all_wrong(call: &VentCall) -> impl Iterator<Item = (usize, usize)> + '_ {
    (0..call.entries()).flat_map(|entry| wrong_series(call.interval(entry)).map(move |series| (entry, series)))
}

/// By device and interval; which series of an interval, the function says.
fn first(call: &VentCall, wrong: impl Fn(Interval) -> Option<usize>) -> Option<Refusal> {
    let mut all = (0..call.entries()).filter_map(|entry| wrong(call.interval(entry)).map(|series| (entry, series)));
    all.next().map(of(call))
}

fn with_fuels(call: &VentCall, wrong: impl Fn(Interval) -> Option<usize>) -> Option<Refusal> {
    first(call, wrong).or_else(|| fuels(call))
}

fn with_ranges(call: &VentCall, changed: [usize; 2], (least, most): (i64, i64)) -> Option<Refusal> {
    let is_wrong = |series: usize, value: i64| match changed.contains(&series) {
        true => !(least..=most).contains(&value) && value != MARKS[series],
        false => is_wrong(series, value),
    };
    with_fuels(call, |one| (0..SERIES).find(|&series| is_wrong(series, one.value(series))))
}

fn in_order(call: &VentCall, order: [usize; SERIES]) -> Option<Refusal> {
    with_fuels(call, |one| order.into_iter().find(|&series| is_wrong(series, one.value(series))))
}

fn lowest_number(call: &VentCall) -> Option<Refusal> {
    let lowest = all_wrong(call).min_by_key(|&(entry, series)| (number_of(series), entry));
    lowest.map(of(call)).or_else(|| fuels(call))
}

fn stream_by_stream(call: &VentCall) -> Option<Refusal> {
    let first = all_wrong(call).min_by_key(|&(entry, series)| (series / 4, entry));
    first.map(of(call)).or_else(|| fuels(call))
}

fn intervals_first(call: &VentCall) -> Option<Refusal> {
    let n = call.intervals as usize;
    let first = all_wrong(call).min_by_key(|&(entry, series)| (entry % n, entry / n, series));
    first.map(of(call)).or_else(|| fuels(call))
}

fn first_device(call: &VentCall) -> Option<Refusal> {
    with_fuels(call, looked_at).filter(|one| one.device == 0)
}

fn place_over_all(call: &VentCall) -> Option<Refusal> {
    let over_all = |one: Refusal| Refusal { place: one.device * call.intervals as u64 + one.place, ..one };
    with_fuels(call, looked_at).map(over_all)
}

/// 17 to 20 for flow, CH4, temperature and pressure of either stream.
fn drainage_numbers(call: &VentCall) -> Option<Refusal> {
    let n = call.intervals as usize;
    let (entry, series) = all_wrong(call).next()?;
    let number = if series == STATUS { 21 } else { 17 + series as u32 % 4 };
    Some(Refusal::new(number, entry / n, entry % n))
}

fn one_number(one: Refusal) -> Refusal {
    Refusal { number: if one.number == 23 { 22 } else { one.number }, ..one }
}

/// Those that would answer otherwise to a call with right sizes and lengths.
pub fn told_from(call: &VentCall, right: Option<Refusal>) -> Vec<&'static str> {
    PROGRAMS.iter().filter(|wrong| (wrong.refusal)(call) != right).map(|wrong| wrong.name).collect()
}
