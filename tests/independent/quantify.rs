//! The whole quantification: refusals first, then each device's rows and account and the sheet's figures.

use crate::call::Call;
use crate::gaps::{lower_limit, Limit};
use crate::outcomes::{counts, device_rows, DeviceRows};
use crate::record::Device;
use crate::refusal::Refusal;
use crate::refusals::refusal;
use crate::sheet::Figures;
use crate::tonnes::{balance, credits, hundredths, methane_litres, tonnes, Balance};

pub struct Quantified {
    pub figures: Figures,
    pub devices: Vec<Device>,
    pub rows: Vec<DeviceRows>,
    pub accounts: Vec<Account>,
}

/// What is told of one device: how many of its intervals have each outcome, and its litres.
pub struct Account {
    pub counts: [u64; 10],
    pub methane: i128,
    pub balance: Balance,
}

pub fn quantify(call: &Call) -> Result<Quantified, Refusal> {
    quantify_by(call, lower_limit)
}

/// The same by this way of working out lower limits.
pub fn quantify_by(call: &Call, limit: Limit) -> Result<Quantified, Refusal> {
    if let Some(refusal) = refusal(call) {
        return Err(refusal);
    }
    let devices: Vec<Device> = (0..call.devices as usize).map(|number| call.device(number)).collect();
    let rows: Vec<DeviceRows> = devices.iter().map(|device| device_rows(device, limit)).collect();
    let accounts: Vec<Account> = devices.iter().zip(&rows).map(|(device, row)| account(device, row)).collect();
    Ok(Quantified { figures: figures(call, &accounts), devices, rows, accounts })
}

fn account(device: &Device, row: &DeviceRows) -> Account {
    let methane = device_methane(device, row);
    Account { counts: counts(&row.outcome), methane, balance: balance(methane, device.kind) }
}

fn figures(call: &Call, accounts: &[Account]) -> Figures {
    let mut f = Figures::default();
    f.intervals = call.intervals as i128;
    f.devices = call.devices as i128;
    for Account { counts, methane, balance } in accounts {
        f.counted += (counts[0] + counts[1] + counts[2]) as i128;
        f.replaced += (counts[1] + counts[2]) as i128;
        f.excluded += counts[3..].iter().sum::<u64>() as i128;
        f.methane_l += methane;
        f.destroyed_l += balance.destroyed;
        f.uncombusted_l += balance.uncombusted;
        f.baseline_mg += balance.baseline_mg;
        f.co2_mg += balance.co2_mg;
        f.uncombusted_mg += balance.uncombusted_mg;
    }
    f.fuel_mg =
        call.quantity.iter().zip(&call.factor).map(|(&quantity, &factor)| quantity as i128 * factor as i128).sum();
    f.reduction_mg = f.baseline_mg - f.co2_mg - f.uncombusted_mg - f.fuel_mg;
    f.tonnes = tonnes(f.reduction_mg);
    f.credits = credits(f.tonnes);
    f
}

fn device_methane(device: &Device, row: &DeviceRows) -> i128 {
    let mut sum = 0;
    for i in 0..row.outcome.len() {
        if let (0..=2, Some(temp), Some(press)) = (row.outcome[i], device.temp[i], device.press[i]) {
            sum += methane_litres(hundredths(row.flow[i], temp, press), row.ch4[i]);
        }
    }
    sum
}

impl Quantified {
    /// How many intervals of all devices have this outcome.
    pub fn with_outcome(&self, outcome: usize) -> u64 {
        self.accounts.iter().map(|account| account.counts[outcome]).sum()
    }
}

impl Account {
    /// The ten counts, then methane, destroyed and uncombusted litres.
    pub fn numbers(&self) -> [u64; 13] {
        let litres = [self.methane, self.balance.destroyed, self.balance.uncombusted].map(|litres| litres as u64);
        [&self.counts[..], &litres].concat().try_into().unwrap()
    }
}
