//! The own implementation held to document 01: its worked example, its numbers on both sides of a limit, the largest
//! numbers, and wherever something is worked out in two ways, the two against each other.

use crate::call::Call;
use crate::drift::{corrected, corrected_by_stretches, corrected_value};
use crate::gaps::{lower_limit, mean};
use crate::outcomes::device_rows;
use crate::plain_files::longest_record;
use crate::quantify::quantify;
use crate::record::{Check, Device, Fuel, Record};
use crate::rng::Rng;
use crate::tonnes::{balance, credits, hundredths, methane_litres, tonnes};
use crate::{compare, draw, sheet};
use crate::{selfcheck_calls, selfcheck_correction, selfcheck_flow, selfcheck_historian};
use crate::{selfcheck_limits, selfcheck_litres, selfcheck_readings, selfcheck_texts, selfcheck_words};
use crate::{selfcheck_vent, selfcheck_vent_calls};
use std::fmt::Debug;

#[derive(Default)]
pub struct Checks {
    passed: usize,
    failed: usize,
}

impl Checks {
    pub fn same<T: PartialEq + Debug>(&mut self, what: &str, got: T, wanted: T) {
        if got == wanted {
            self.passed += 1;
        } else {
            self.failed += 1;
            println!("FAILED: {what}: got {got:?}, wanted {wanted:?}");
        }
    }
}

pub fn run() -> bool {
    let mut checks = Checks::default();
    volumes(&mut checks);
    drifts(&mut checks);
    means(&mut checks);
    balances(&mut checks);
    gap_borders(&mut checks);
    outcome_order(&mut checks);
    largest_numbers(&mut checks);
    longest_texts(&mut checks);
    selfcheck_texts::run(&mut checks);
    selfcheck_limits::run(&mut checks);
    selfcheck_calls::run(&mut checks);
    selfcheck_correction::run(&mut checks);
    selfcheck_litres::run(&mut checks);
    selfcheck_readings::run(&mut checks);
    selfcheck_words::run(&mut checks);
    selfcheck_historian::run(&mut checks);
    selfcheck_flow::run(&mut checks);
    selfcheck_vent::run(&mut checks);
    selfcheck_vent_calls::run(&mut checks);
    two_ways(&mut checks);
    println!("selfcheck: {} passed, {} failed", checks.passed, checks.failed);
    checks.failed == 0 && checks.passed > 0
}

fn volumes(checks: &mut Checks) {
    checks.same("flow 1000 at 20 C", hundredths(1_000, 2_000, 101_325), 10_000_000);
    checks.same("flow 1000 at 0 C", hundredths(1_000, 0, 101_325), 10_732_198);
    checks.same("flow 1 at 100 C", hundredths(1, 10_000, 50_000), 3_876);
    checks.same("300 hundredths at 4,999", methane_litres(300, 4_999), 1);
    let most = hundredths(30_000, -4_000, 300_000);
    checks.same("the most, and as methane", (most, methane_litres(most, 10_000)), (1_116_812_781, 11_168_127));
}

fn drifts(checks: &mut Checks) {
    let after = |drift: i32| corrected(&[Some(1_000)], &[Check { at: 0, drift }])[0];
    checks.same("drift 499", after(499), Some(1_000));
    checks.same("drift 500", after(500), Some(952));
    checks.same("drift -600", after(-600), Some(1_000));
    checks.same("drift 20000", corrected_value(30_000, Some(20_000)), 10_000);
    let row = [Some(1_000); 4];
    let check = |at, drift| Check { at, drift };
    let both = corrected(&row, &[check(0, -9_000), check(4, 500)]);
    checks.same("greatest is the signed one", both, vec![Some(952); 4]);
    let kept_apart = corrected(&row, &[check(0, 500), check(2, 499), check(4, -500)]);
    checks.same("a passed check cuts", kept_apart, vec![Some(952), Some(952), Some(1_000), Some(1_000)]);
    let at_ends = corrected(&row, &[check(0, 0), check(2, 500), check(4, 0)]);
    checks.same("passed checks at the ends cut nothing off", at_ends, vec![Some(952); 4]);
    let at_end = corrected(&[Some(1_000), None], &[check(2, 500)]);
    checks.same("missing stays missing", at_end, vec![Some(952), None]);
}

fn means(checks: &mut Checks) {
    checks.same("mean", mean(&[[100; 16], [101; 16]].concat()), 100);
}

fn balances(checks: &mut Checks) {
    checks.same("tonnes below 0", tonnes(-94_405_688), -1);
    checks.same("credits below 0", credits(-1), 0);
    checks.same("tonnes of a whole", [tonnes(-1_000_000_000), tonnes(999_999_999), tonnes(1_000_000_000)], [-1, 0, 1]);
    let part = balance(50_000, 2);
    checks.same("Q 50,000, kind 2", (part.destroyed, part.uncombusted, part.co2_mg), (49_750, 250, 91_253_938));
}

/// A device that measured 5,000 everywhere but 1,000 in just the windows of its flow gap.
fn with_gap(before: usize, length: usize, after: usize, window: usize) -> Device {
    let n = before + length + after;
    let mut flow = vec![Some(5_000); n];
    flow[before.saturating_sub(window)..(before + length + window).min(n)].fill(Some(1_000));
    draw::cut(&mut flow, before, length);
    Device {
        kind: 2,
        flow,
        ch4: vec![Some(10_000); n],
        temp: vec![Some(2_000); n],
        press: vec![Some(101_325); n],
        status: vec![2; n],
        ..Device::default()
    }
}

fn gap_borders(checks: &mut Checks) {
    let first = |device: &Device, at: usize| {
        let rows = device_rows(device, lower_limit);
        (rows.outcome[at], rows.flow[at], rows.ch4[at])
    };
    for (length, window) in [(1, 16), (23, 16), (24, 96), (95, 96), (96, 288), (672, 288)] {
        let name = format!("gap of {length}");
        let (found, excluded) = ((1, 1_000, 10_000), (9, 0, 0));
        checks.same(&name, first(&with_gap(window, length, window, window), window), found);
        checks.same(&name, first(&with_gap(window + 9, length, window + 9, window), window + 9), found);
        checks.same(&name, first(&with_gap(window - 1, length, window, window), window - 1), excluded);
        checks.same(&name, first(&with_gap(window, length, window - 1, window), window), excluded);
        checks.same(&name, first(&with_gap(0, length, window, window), 0), excluded);
        checks.same(&name, first(&with_gap(window, length, 0, window), window), excluded);
    }
    checks.same("gap of 673", first(&with_gap(288, 673, 288, 288), 288), (8, 0, 0));
    checks.same("15 intervals from the end", first(&with_gap(40, 5, 15, 16), 40), (9, 0, 0));
    checks.same("16 intervals from the end", first(&with_gap(40, 5, 16, 16), 40), (1, 1_000, 10_000));
    let next_row = Record {
        intervals: 60,
        mine: 0,
        fuels: vec![],
        devices: vec![with_gap(40, 5, 15, 16), with_gap(20, 5, 35, 16)],
    };
    let rows = quantify(&Call::of(&next_row)).unwrap().rows;
    checks.same("no window runs into the next row", (rows[0].outcome[40], rows[1].outcome[20]), (9, 1));
}

fn outcome_order(checks: &mut Checks) {
    let mut device = with_gap(20, 10, 20, 16);
    device.status[20] = 0;
    device.status[21] = 3;
    device.temp[22] = None;
    device.press[23] = None;
    device.ch4[24] = None;
    device.status[25] = 1;
    device.status[0] = 0;
    device.status[1] = 1;
    device.press[45] = None;
    let outcomes = device_rows(&device, lower_limit).outcome;
    checks.same("outcomes in the gap", outcomes[20..30].to_vec(), vec![3, 4, 5, 5, 6, 7, 1, 1, 1, 1]);
    checks.same("outcomes beside it", [outcomes[0], outcomes[1], outcomes[2], outcomes[45]], [3, 0, 0, 5]);
}

/// Every reading the same, for the longest record of sixteen devices.
fn full_record(kind: u32, flow: u16, fuels: usize) -> Record {
    let n = 35_136;
    let device = Device {
        kind,
        flow: vec![Some(flow); n],
        ch4: vec![Some(10_000); n],
        temp: vec![Some(-4_000); n],
        press: vec![Some(300_000); n],
        status: vec![1; n],
        ..Device::default()
    };
    let fuel = Fuel { quantity: 1_000_000_000, factor: 4_000_000 };
    Record { intervals: n as u32, mine: 0, fuels: vec![fuel; fuels], devices: vec![device; 16] }
}

fn largest_numbers(checks: &mut Checks) {
    let figures = |kind, flow, fuels| quantify(&Call::of(&full_record(kind, flow, fuels))).unwrap().figures;
    let most = figures(2, 30_000, 0);
    checks.same("Q of a device", most.methane_l, 16 * 392_403_310_272);
    checks.same("baseline_mg", most.baseline_mg, 87_942_290_671_678_464);
    checks.same("co2_mg", most.co2_mg, 11_458_671_088_094_560);
    checks.same("reduction_mg", most.reduction_mg, 76_043_908_130_082_080);
    checks.same("uncombusted_mg", figures(3, 30_000, 0).uncombusted_mg, 5_628_306_603_120_096);
    let least = figures(2, 0, 64);
    checks.same("fuel_mg", least.fuel_mg, 256_000_000_000_000_000);
    checks.same("least reduction_mg", least.reduction_mg, -256_000_000_000_000_000);
    checks.same("least tonnes", (least.tonnes, least.credits), (-256_000_000, 0));
}

fn longest_texts(checks: &mut Checks) {
    checks.same("shortest sheet", sheet::sheet_text(&[0; 15]).len(), 180);
    let longest = sheet::LINES.map(|(_, signed)| if signed { i64::MIN as i128 } else { u64::MAX as i128 });
    checks.same("longest sheet", sheet::sheet_text(&longest).len(), 465);
    let record = longest_record(true);
    checks.same("longest record file", (record.lines().len(), record.text().len()), (17_108, 217_506));
}

fn two_ways(checks: &mut Checks) {
    let rng = Rng::new(1, 0);
    for _ in 0..300 {
        let row = draw::readings(&rng, rng.size(1, 60), 30_000, draw::Style::Uniform);
        let field_checks = draw::checks(&rng, row.len(), rng.size(0, 32));
        checks.same("drift, two ways", corrected(&row, &field_checks), corrected_by_stretches(&row, &field_checks));
    }
    for number in 0..2_000 {
        checks.same("sheet's offset, two ways", compare::ask_sheet(1, number).doubt, false);
    }
    for number in 0..400 {
        checks.same("record file's wrong line, two ways", compare::ask_record(2, number, 2_976).doubt, false);
    }
}
