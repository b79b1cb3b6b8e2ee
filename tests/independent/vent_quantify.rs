//! The whole quantification of ventilation air: refusals first, then each device's outcomes and account and the sheet's
//! figures.

use crate::outcomes::counts;
use crate::protocol::{BASELINE_MG, CO2_MG_TIMES_4};
use crate::refusal::Refusal;
use crate::sheet::Figures;
use crate::tonnes::{credits, rounded_up, tonnes};
use crate::vent_call::{Interval, VentCall};
use crate::vent_litres::{exhaust_methane, inlet_methane};
use crate::vent_refusals::refusal;

pub struct VentQuantified {
    pub figures: Figures,
    /// The result row, of all devices.
    pub outcome: Vec<u8>,
    pub accounts: Vec<VentAccount>,
}

/// What is told of one device: how many of its intervals have each outcome, and litres of methane in those counted.
pub struct VentAccount {
    pub counts: [u64; 10],
    pub inlet: i128,
    pub exhaust: i128,
}

pub fn quantify_ventilation(call: &VentCall) -> Result<VentQuantified, Refusal> {
    if let Some(refusal) = refusal(call) {
        return Err(refusal);
    }
    let intervals: Vec<Interval> = call.all().collect();
    let outcome: Vec<u8> = intervals.iter().map(outcome).collect();
    let n = call.intervals as usize;
    let rows = intervals.chunks_exact(n).zip(outcome.chunks_exact(n));
    let accounts: Vec<VentAccount> = rows.map(|(intervals, outcome)| account(intervals, outcome)).collect();
    Ok(VentQuantified { figures: figures(call, &accounts), outcome, accounts })
}

/// The first that applies.
pub fn outcome(interval: &Interval) -> u8 {
    if interval.status == 0 {
        return 3;
    }
    if interval.status == 3 {
        return 4;
    }
    if !interval.inlet.is_whole() || !interval.exhaust.is_whole() {
        return 5;
    }
    if exhaust_methane(interval.exhaust) > inlet_methane(interval.inlet) {
        return 6;
    }
    0
}

fn account(intervals: &[Interval], outcome: &[u8]) -> VentAccount {
    let mut account = VentAccount { counts: counts(outcome), inlet: 0, exhaust: 0 };
    for (interval, outcome) in intervals.iter().zip(outcome) {
        if *outcome == 0 {
            account.inlet += inlet_methane(interval.inlet);
            account.exhaust += exhaust_methane(interval.exhaust);
        }
    }
    account
}

fn figures(call: &VentCall, accounts: &[VentAccount]) -> Figures {
    let mut f = Figures::default();
    f.intervals = call.intervals as i128;
    f.devices = call.devices as i128;
    for account in accounts {
        f.counted += account.counts[0] as i128;
        f.excluded += account.counts[1..].iter().sum::<u64>() as i128;
        f.methane_l += account.inlet;
        f.destroyed_l += account.destroyed();
        f.uncombusted_l += account.exhaust;
        f.baseline_mg += BASELINE_MG * account.inlet;
        f.co2_mg += rounded_up(CO2_MG_TIMES_4 * account.destroyed(), 4);
        f.uncombusted_mg += BASELINE_MG * account.exhaust;
    }
    f.fuel_mg = call.fuel_mg();
    f.reduction_mg = f.baseline_mg - f.co2_mg - f.uncombusted_mg - f.fuel_mg;
    f.tonnes = tonnes(f.reduction_mg);
    f.credits = credits(f.tonnes);
    f
}

impl VentAccount {
    /// Methane supplied less methane in the exhaust.
    pub fn destroyed(&self) -> i128 {
        self.inlet - self.exhaust
    }

    /// The ten counts, then inlet, destroyed and exhaust litres.
    pub fn numbers(&self) -> [u64; 13] {
        let litres = [self.inlet, self.destroyed(), self.exhaust].map(|litres| litres as u64);
        [&self.counts[..], &litres].concat().try_into().unwrap()
    }
}
