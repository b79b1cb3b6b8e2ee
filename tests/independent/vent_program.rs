//! Programs for ventilation air that are accepted calls' answers in parts that can be put together otherwise: the right
//! one, another way to the own answer, and wrong ones that differ from it in one part (`vent_wrong_programs`).

use crate::vent_air::{Air, Round};
use crate::vent_call::{Interval, VentCall};
use crate::vent_quantify::VentQuantified;

/// Litres of methane of inlet and exhaust.
pub type Litres = (i64, i64);

#[derive(Clone, Copy)]
pub struct Program {
    /// What each status decides by itself: outcome 3 or 4, or none of them.
    pub states: [u8; 4],
    /// In which order the outcomes are asked for.
    pub order: [u8; 4],
    /// What is done to an interval, given the one before, ahead of everything else.
    pub filled: fn(Interval, Interval) -> Interval,
    /// Is a reading missing?
    pub lacks: fn(Interval) -> bool,
    /// Of two streams with whole readings; where one lacks something it counts as no air.
    pub litres: fn(Air, Air) -> Litres,
    pub is_above: fn(Air, Air, Litres) -> bool,
    /// Are the litres of an interval with this outcome added up?
    pub is_counted: fn(u8) -> bool,
    /// From each device's intervals.
    pub co2_mg: fn(&[Vec<Litres>]) -> i64,
    pub fuel_mg: fn(&VentCall) -> i64,
    /// From baseline, CO2, uncombusted and fuel.
    pub reduction_mg: fn([i64; 4]) -> i64,
    pub tonnes: fn(i64) -> i64,
}

pub const RIGHT: Program = Program {
    states: [3, 0, 0, 4],
    order: [3, 4, 5, 6],
    filled: |one, _| one,
    lacks: |one| !one.inlet.is_whole() || !one.exhaust.is_whole(),
    litres: right_litres,
    is_above: |_, _, (inlet, exhaust)| exhaust > inlet,
    is_counted: |outcome| outcome == 0,
    co2_mg: |devices| devices.iter().map(|own| co2_of(destroyed(own))).sum(),
    fuel_mg,
    reduction_mg: |[baseline, co2, uncombusted, fuel]| baseline - co2 - uncombusted - fuel,
    tonnes: |mg| mg.div_euclid(1_000_000_000),
};

pub fn right_litres(inlet: Air, exhaust: Air) -> Litres {
    (inlet.methane(Round::Down) as i64, exhaust.methane(Round::Up) as i64)
}

pub fn destroyed(own: &[Litres]) -> i64 {
    own.iter().map(|(inlet, exhaust)| inlet - exhaust).sum()
}

/// 7,337 / 4 mg a litre, rounded up.
pub fn co2_of(destroyed: i64) -> i64 {
    -(-7_337 * destroyed).div_euclid(4)
}

pub fn fuel_mg(call: &VentCall) -> i64 {
    call.quantity.iter().zip(&call.factor).map(|(&quantity, &factor)| quantity as i64 * factor as i64).sum()
}

/// All that an accepted call gives.
#[derive(Debug, PartialEq, Eq)]
pub struct Given {
    pub outcome: Vec<u8>,
    pub accounts: Vec<[i64; 13]>,
    pub figures: [i64; 15],
}

impl Given {
    pub fn of(quantified: &VentQuantified) -> Given {
        Given {
            outcome: quantified.outcome.clone(),
            accounts: quantified.accounts.iter().map(|own| own.numbers().map(|number| number as i64)).collect(),
            figures: quantified.figures.numbers().map(|number| number as i64),
        }
    }
}

const NO_AIR: Air = Air { flow: 0, ppm: 0, temp: 0, press: 50_000 };

fn or_none(air: Air) -> Air {
    if air.is_whole() {
        air
    } else {
        NO_AIR
    }
}

impl Program {
    fn interval(&self, one: Interval) -> (u8, Litres) {
        let (inlet, exhaust) = (or_none(one.inlet), or_none(one.exhaust));
        let litres = (self.litres)(inlet, exhaust);
        let applies = |outcome: &u8| match outcome {
            5 => (self.lacks)(one),
            6 => (self.is_above)(inlet, exhaust, litres),
            _ => self.states[one.status as usize] == *outcome,
        };
        (self.order.into_iter().find(applies).unwrap_or(0), litres)
    }

    /// Of a call that is accepted.
    pub fn given(&self, call: &VentCall) -> Given {
        let (mut outcome, mut accounts, mut devices) = (vec![], vec![], vec![]);
        for device in 0..call.devices as usize {
            let (mut counts, mut own, n) = ([0; 10], vec![], call.intervals as usize);
            for i in device * n..(device + 1) * n {
                let before = call.interval(if i > device * n { i - 1 } else { i });
                let (number, litres) = self.interval((self.filled)(call.interval(i), before));
                outcome.push(number);
                counts[number as usize] += 1;
                own.extend((self.is_counted)(number).then_some(litres));
            }
            let (inlet, exhaust) = own.iter().fold((0, 0), |sums, one| (sums.0 + one.0, sums.1 + one.1));
            let numbers = [&counts[..], &[inlet, inlet - exhaust, exhaust]].concat();
            accounts.push(numbers.try_into().unwrap());
            devices.push(own);
        }
        let figures = self.figures(call, &accounts, &devices);
        Given { outcome, accounts, figures }
    }

    fn figures(&self, call: &VentCall, accounts: &[[i64; 13]], devices: &[Vec<Litres>]) -> [i64; 15] {
        let sum = |k: usize| accounts.iter().map(|account| account[k]).sum::<i64>();
        let (counted, all) = (sum(0), call.intervals as i64 * call.devices as i64);
        let (inlet, destroyed, exhaust) = (sum(10), sum(11), sum(12));
        let (baseline, co2, uncombusted) = (14_007 * inlet, (self.co2_mg)(devices), 14_007 * exhaust);
        let fuel = (self.fuel_mg)(call);
        let reduction = (self.reduction_mg)([baseline, co2, uncombusted, fuel]);
        let tonnes = (self.tonnes)(reduction);
        let (n, d) = (call.intervals as i64, call.devices as i64);
        let counts = [n, d, counted, 0, all - counted];
        let amounts = [inlet, destroyed, exhaust, baseline, co2, uncombusted, fuel, reduction, tonnes, tonnes.max(0)];
        [&counts[..], &amounts].concat().try_into().unwrap()
    }
}
