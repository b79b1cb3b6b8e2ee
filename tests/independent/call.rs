//! A call of quantification as a host makes it: numbers, and arrays lent with a length each (cmm_quantify in
//! include/cmm.h).

use crate::protocol::{CH4_MISSING, FLOW_MISSING, MOST_CHECKS, PRESS_MISSING, TEMP_MISSING};
use crate::record::{Check, Device, Fuel, Record};

/// The lent slices, in the order of the parameters.
pub const SLICES: [&str; 14] = [
    "kinds", "counts", "positions", "drifts", "flow", "content", "temp", "press", "status", "quantity", "factor",
    "outcome", "flow_used", "content_used",
];

pub const QUANTITY: usize = 9;
pub const FACTOR: usize = 10;

#[derive(Clone, Debug, Default, PartialEq, Eq)]
pub struct Call {
    pub intervals: u32,
    pub devices: u32,
    pub mine: u32,
    pub kinds: Vec<u32>,
    pub counts: Vec<u32>,
    pub positions: Vec<u32>,
    pub drifts: Vec<i32>,
    pub flow: Vec<u16>,
    pub content: Vec<u16>,
    pub temp: Vec<i16>,
    pub press: Vec<u32>,
    pub status: Vec<u8>,
    pub quantity: Vec<u32>,
    pub factor: Vec<u32>,
    /// Lengths of the three result rows: outcome, flow used, CH4 used.
    pub rows: [usize; 3],
    /// Slices whose length is told wrong: which one, and what is told.
    pub told: Vec<(usize, usize)>,
}

impl Call {
    /// The record's arrays, each as long as it should be.
    pub fn of(record: &Record) -> Call {
        let mut call = Call { intervals: record.intervals, mine: record.mine, ..Call::default() };
        call.devices = record.devices.len() as u32;
        for device in &record.devices {
            call.kinds.push(device.kind);
            call.lend_checks(&device.flow_checks);
            call.lend_checks(&device.ch4_checks);
            call.flow.extend(device.flow.iter().map(|reading| reading.unwrap_or(FLOW_MISSING)));
            call.content.extend(device.ch4.iter().map(|reading| reading.unwrap_or(CH4_MISSING)));
            call.temp.extend(device.temp.iter().map(|reading| reading.unwrap_or(TEMP_MISSING)));
            call.press.extend(device.press.iter().map(|reading| reading.unwrap_or(PRESS_MISSING)));
            call.status.extend(&device.status);
        }
        for Fuel { quantity, factor } in &record.fuels {
            call.quantity.push(*quantity);
            call.factor.push(*factor);
        }
        call.rows = [call.flow.len(); 3];
        call
    }

    /// The next instrument's count and its 32 entries, of which those past the count are 0.
    fn lend_checks(&mut self, checks: &[Check]) {
        self.counts.push(checks.len() as u32);
        for k in 0..MOST_CHECKS {
            let check = checks.get(k).copied().unwrap_or(Check { at: 0, drift: 0 });
            self.positions.push(check.at);
            self.drifts.push(check.drift);
        }
    }

    /// What is told of each slice's length.
    pub fn lengths(&self) -> [usize; 14] {
        let [outcome, flow_used, content_used] = self.rows;
        let mut lengths = [
            self.kinds.len(),
            self.counts.len(),
            self.positions.len(),
            self.drifts.len(),
            self.flow.len(),
            self.content.len(),
            self.temp.len(),
            self.press.len(),
            self.status.len(),
            self.quantity.len(),
            self.factor.len(),
            outcome,
            flow_used,
            content_used,
        ];
        for &(slice, length) in &self.told {
            lengths[slice] = length;
        }
        lengths
    }

    /// The entries that count, of flow (2 d) or CH4 (2 d + 1) of device d. The count is not wrong.
    pub fn checks(&self, instrument: usize) -> Vec<Check> {
        let entries = MOST_CHECKS * instrument..MOST_CHECKS * instrument + self.counts[instrument] as usize;
        entries.map(|k| Check { at: self.positions[k], drift: self.drifts[k] }).collect()
    }

    /// A device's records. No length is wrong.
    pub fn device(&self, number: usize) -> Device {
        let n = self.intervals as usize;
        let own = number * n..(number + 1) * n;
        Device {
            kind: self.kinds[number],
            flow_checks: self.checks(2 * number),
            ch4_checks: self.checks(2 * number + 1),
            flow: readings(&self.flow[own.clone()], FLOW_MISSING),
            ch4: readings(&self.content[own.clone()], CH4_MISSING),
            temp: readings(&self.temp[own.clone()], TEMP_MISSING),
            press: readings(&self.press[own.clone()], PRESS_MISSING),
            status: self.status[own].to_vec(),
        }
    }
}

fn readings<T: Copy + PartialEq>(entries: &[T], missing: T) -> Vec<Option<T>> {
    entries.iter().map(|&entry| (entry != missing).then_some(entry)).collect()
}
