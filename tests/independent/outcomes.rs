//! One device: the outcome of each interval, the values used, the ten counts.

use crate::drift::corrected;
use crate::gaps::{gaps, replacement, Limit, Replacement};
use crate::record::Device;

pub struct DeviceRows {
    pub outcome: Vec<u8>,
    pub flow: Vec<u16>,
    pub ch4: Vec<u16>,
}

/// A series as it is used: the corrected reading, or what stands in a gap's place.
#[derive(Clone, Copy)]
enum Used {
    Measured(u16),
    Missing(Replacement),
}

pub fn device_rows(device: &Device, limit: Limit) -> DeviceRows {
    let flow = used(&corrected(&device.flow, &device.flow_checks), limit);
    let ch4 = used(&corrected(&device.ch4, &device.ch4_checks), limit);
    let mut rows = DeviceRows { outcome: Vec::new(), flow: Vec::new(), ch4: Vec::new() };
    for i in 0..device.status.len() {
        let measured = device.temp[i].is_some() && device.press[i].is_some();
        let (outcome, flow_used, ch4_used) = outcome(device.status[i], measured, flow[i], ch4[i]);
        rows.outcome.push(outcome);
        rows.flow.push(flow_used);
        rows.ch4.push(ch4_used);
    }
    rows
}

fn used(row: &[Option<u16>], limit: Limit) -> Vec<Used> {
    let keep = |reading: &Option<u16>| Used::Measured(reading.unwrap_or(0));
    let mut used: Vec<Used> = row.iter().map(keep).collect();
    for gap in gaps(row) {
        let answer = replacement(row, gap, limit);
        used[gap.start..gap.end].fill(Used::Missing(answer));
    }
    used
}

/// The first outcome that applies, with flow and CH4 used.
fn outcome(status: u8, conditions_measured: bool, flow: Used, ch4: Used) -> (u8, u16, u16) {
    if status == 0 {
        return (3, 0, 0);
    }
    if status == 3 {
        return (4, 0, 0);
    }
    if !conditions_measured {
        return (5, 0, 0);
    }
    match (flow, ch4) {
        (Used::Measured(flow), Used::Measured(ch4)) => (0, flow, ch4),
        (Used::Missing(_), Used::Missing(_)) => (6, 0, 0),
        _ if status == 1 => (7, 0, 0),
        (Used::Missing(Replacement::GapTooLong), _) | (_, Used::Missing(Replacement::GapTooLong)) => (8, 0, 0),
        (Used::Missing(Replacement::WindowNotWhole), _) | (_, Used::Missing(Replacement::WindowNotWhole)) => (9, 0, 0),
        (Used::Missing(Replacement::Value(flow)), Used::Measured(ch4)) => (1, flow, ch4),
        (Used::Measured(flow), Used::Missing(Replacement::Value(ch4))) => (2, flow, ch4),
    }
}

pub fn counts(outcomes: &[u8]) -> [u64; 10] {
    let mut counts = [0; 10];
    for &outcome in outcomes {
        counts[outcome as usize] += 1;
    }
    counts
}
