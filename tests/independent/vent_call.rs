//! A call about ventilation air as a host makes it: numbers, and arrays lent with a length each
//! (cmm_quantify_ventilation in include/cmm.h).

use crate::record::Fuel;
use crate::vent_air::Air;

/// The lent slices, in the order of the parameters. The first nine are series of D × N readings.
pub const SLICES: [&str; 12] = [
    "inlet_flow", "inlet_ppm", "inlet_temp", "inlet_press", "exhaust_flow", "exhaust_ppm", "exhaust_temp",
    "exhaust_press", "status", "quantity", "factor", "outcome",
];

pub const SERIES: usize = 9;
pub const STATUS: usize = 8;
pub const QUANTITY: usize = 9;
pub const FACTOR: usize = 10;
pub const OUTCOME: usize = 11;

/// All readings of one interval of a device.
#[derive(Clone, Copy, Debug, PartialEq, Eq)]
pub struct Interval {
    pub inlet: Air,
    pub exhaust: Air,
    pub status: u8,
}

impl Interval {
    fn stream(&mut self, series: usize) -> &mut Air {
        if series < 4 {
            &mut self.inlet
        } else {
            &mut self.exhaust
        }
    }

    /// The reading of the series with this number, in the order of the parameters.
    pub fn value(mut self, series: usize) -> i64 {
        let status = self.status;
        let air = self.stream(series);
        match (series, series % 4) {
            (STATUS, _) => status as i64,
            (_, 0) => air.flow as i64,
            (_, 1) => air.ppm as i64,
            (_, 2) => air.temp as i64,
            _ => air.press as i64,
        }
    }

    pub fn put(&mut self, series: usize, value: i64) {
        if series == STATUS {
            self.status = value as u8;
            return;
        }
        let air = self.stream(series);
        match series % 4 {
            0 => air.flow = value as u16,
            1 => air.ppm = value as u16,
            2 => air.temp = value as i16,
            _ => air.press = value as u32,
        }
    }
}

/// One stream's four series.
#[derive(Clone, Debug, Default, PartialEq, Eq)]
pub struct Stream {
    pub flow: Vec<u16>,
    pub ppm: Vec<u16>,
    pub temp: Vec<i16>,
    pub press: Vec<u32>,
}

impl Stream {
    fn push(&mut self, air: Air) {
        self.flow.push(air.flow);
        self.ppm.push(air.ppm);
        self.temp.push(air.temp);
        self.press.push(air.press);
    }

    fn air(&self, i: usize) -> Air {
        Air { flow: self.flow[i], ppm: self.ppm[i], temp: self.temp[i], press: self.press[i] }
    }

    fn put(&mut self, i: usize, air: Air) {
        (self.flow[i], self.ppm[i], self.temp[i], self.press[i]) = (air.flow, air.ppm, air.temp, air.press);
    }

    fn lengths(&self) -> [usize; 4] {
        [self.flow.len(), self.ppm.len(), self.temp.len(), self.press.len()]
    }
}

#[derive(Clone, Debug, Default, PartialEq, Eq)]
pub struct VentCall {
    pub intervals: u32,
    pub devices: u32,
    pub inlet: Stream,
    pub exhaust: Stream,
    pub status: Vec<u8>,
    pub quantity: Vec<u32>,
    pub factor: Vec<u32>,
    /// Length of the result row.
    pub row: usize,
    /// Slices whose length is told wrong: which one, and what is told.
    pub told: Vec<(usize, usize)>,
}

impl VentCall {
    /// These intervals, device 0 first, in so many devices: each array is as long as it should be.
    pub fn of(devices: usize, intervals: &[Interval], fuels: &[Fuel]) -> VentCall {
        let n = intervals.len() / devices;
        let mut call =
            VentCall { intervals: n as u32, devices: devices as u32, row: n * devices, ..VentCall::default() };
        for interval in intervals {
            call.inlet.push(interval.inlet);
            call.exhaust.push(interval.exhaust);
            call.status.push(interval.status);
        }
        call.set_fuels(fuels);
        call
    }

    pub fn set_fuels(&mut self, fuels: &[Fuel]) {
        self.quantity = fuels.iter().map(|fuel| fuel.quantity).collect();
        self.factor = fuels.iter().map(|fuel| fuel.factor).collect();
    }

    /// What is told of each slice's length.
    pub fn lengths(&self) -> [usize; 12] {
        let [inlet, exhaust] = [self.inlet.lengths(), self.exhaust.lengths()];
        let others = [self.status.len(), self.quantity.len(), self.factor.len(), self.row];
        let mut lengths: [usize; 12] = [inlet, exhaust, others].concat().try_into().unwrap();
        for &(slice, length) in &self.told {
            lengths[slice] = length;
        }
        lengths
    }

    /// How many device-intervals there are. No length is wrong.
    pub fn entries(&self) -> usize {
        self.status.len()
    }

    pub fn interval(&self, i: usize) -> Interval {
        Interval { inlet: self.inlet.air(i), exhaust: self.exhaust.air(i), status: self.status[i] }
    }

    pub fn all(&self) -> impl Iterator<Item = Interval> + '_ {
        (0..self.entries()).map(|i| self.interval(i))
    }

    pub fn put(&mut self, i: usize, interval: Interval) {
        self.inlet.put(i, interval.inlet);
        self.exhaust.put(i, interval.exhaust);
        self.status[i] = interval.status;
    }

    /// Puts a value into one entry of the series with this number.
    pub fn put_value(&mut self, i: usize, series: usize, value: i64) {
        let mut interval = self.interval(i);
        interval.put(series, value);
        self.put(i, interval);
    }

    pub fn fuel_mg(&self) -> i128 {
        self.quantity.iter().zip(&self.factor).map(|(&quantity, &factor)| quantity as i128 * factor as i128).sum()
    }
}
