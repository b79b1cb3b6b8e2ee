//! Classes of records that are accepted: small ones, all outcomes, months, many devices, extremes, tonne borders.

use crate::call::Call;
use crate::draw::{self, cut, CH4_MAX, FLOW_MAX};
use crate::protocol::{MG_PER_TONNE, MOST_DEVICES, MOST_INTERVALS, PROGRAM_ROW};
use crate::quantify::quantify;
use crate::record::{Check, Device, Fuel, Record};
use crate::rng::Rng;

pub fn small(rng: &Rng, case: usize, _row: u64) -> Record {
    let n = if case % 4 == 0 { rng.size(1, 3) } else { rng.size(1, 30) };
    let mut record = draw::record(rng, n, rng.size(1, 4));
    for device in &mut record.devices {
        for which in 0..2 {
            *device.checks(which) = draw::checks(rng, n, rng.pick(&[0, 0, 1, 2, 3]));
        }
        spoil(rng, device, 12);
    }
    record
}

/// About one in `one_in` intervals gets another status and loses some of its readings.
pub fn spoil(rng: &Rng, device: &mut Device, one_in: usize) {
    for i in 0..device.status.len() {
        if rng.chance(one_in) {
            device.status[i] = rng.below(4) as u8;
        }
        if rng.chance(one_in) {
            device.flow[i] = None;
        }
        if rng.chance(one_in) {
            device.ch4[i] = None;
        }
        if rng.chance(2 * one_in) {
            device.temp[i] = None;
        }
        if rng.chance(2 * one_in) {
            device.press[i] = None;
        }
    }
}

/// Every outcome: short gaps with whole windows and without, other statuses, lost conditions; sometimes a very long
/// gap.
pub fn outcomes(rng: &Rng, case: usize, _row: u64) -> Record {
    let long = case % 8 == 0;
    let n = if long { rng.size(720, 800) } else { rng.size(40, 160) };
    let devices = rng.size(1, if long { 2 } else { 3 });
    let mut record = draw::record(rng, n, devices);
    for device in &mut record.devices {
        for _ in 0..rng.size(1, 4) {
            let (which, start) = (rng.below(2), rng.below(n));
            let length = rng.size(1, 8).min(n - start);
            cut(device.series(which), start, length);
        }
        if long {
            let (which, start) = (rng.below(2), rng.below(n - 680));
            cut(device.series(which), start, 673 + rng.below(3));
        }
        for i in 0..n {
            if rng.chance(10) {
                device.status[i] = rng.below(4) as u8;
            }
            if rng.chance(25) {
                device.temp[i] = None;
            }
            if rng.chance(25) {
                device.press[i] = None;
            }
        }
    }
    record
}

/// One device's month: slow swings, weekly checks, some gaps of every length, some stops.
pub fn month(rng: &Rng, _case: usize, row: u64) -> Record {
    let n = row.min(2_976) as usize;
    let mut record = draw::record(rng, n, 1);
    let device = &mut record.devices[0];
    let (flow, ch4) = (rng.between(3_000, 20_000), rng.between(2_500, 7_000));
    for i in 0..n {
        let swing = ((i % 96) as i64 - 48).abs();
        device.flow[i] = Some((flow + swing * 20 + rng.between(-600, 600)) as u16);
        device.ch4[i] = Some((ch4 - swing * 5 + rng.between(-150, 150)) as u16);
        device.temp[i] = Some((1_500 + swing * 20 + rng.between(-100, 100)) as i16);
        device.press[i] = Some((101_000 + rng.between(-2_000, 6_000)) as u32);
    }
    for which in 0..2 {
        *device.checks(which) = draw::checks_at(rng, vec![0, n / 4, n / 2, 3 * n / 4, n]);
        for _ in 0..6 {
            let length = rng.pick(&[1, 2, 4, 8, 23, 24, 30, 95, 96, 100]);
            let start = rng.below(n - length);
            cut(device.series(which), start, length);
        }
    }
    for _ in 0..5 {
        let (from, status) = (rng.below(n - 50), rng.pick(&[0, 0, 1, 3]));
        device.status[from..from + rng.size(1, 50)].fill(status);
    }
    record
}

/// As many intervals as the reader's rows hold for so many devices; of longer rows mostly only the program's part.
pub fn row_length(rng: &Rng, devices: usize, row: u64) -> usize {
    let used = if rng.chance(8) { row } else { row.min(PROGRAM_ROW) };
    (used as usize / devices).min(MOST_INTERVALS as usize)
}

/// Rows as long as the reader is lent, for every number of devices.
pub fn several_devices(rng: &Rng, case: usize, row: u64) -> Record {
    let devices = [16, 2, 12, 8, 3, 6, 4, 5, 7, 9, 10, 11, 13, 14, 15][case % 15];
    let n = row_length(rng, devices, row) - rng.pick(&[0, 0, 0, 1, 20]);
    let mut record = draw::record(rng, n, devices);
    for device in &mut record.devices {
        for which in 0..2 {
            *device.checks(which) = draw::checks(rng, n, rng.size(0, 6));
            let length = rng.pick(&[1, 3, 23, 24, 40]);
            let start = rng.pick(&[0, 15, 16, rng.below(n - length), n - length - 16, n - length - 15, n - length]);
            cut(device.series(which), start, length);
        }
        spoil(rng, device, 150);
    }
    record
}

/// The longest files: of accepted values, and of any values that the reader takes; whole and with a damaged end.
pub fn longest(rng: &Rng, case: usize, _row: u64) -> Vec<u8> {
    let mut text = if case % 2 == 0 { longest_record(false).text() } else { longest_record(true).text() };
    let extra = rng.pick(&[1, 2, 10, 1_000, 100_000]);
    match case % 12 / 2 {
        1 => text.truncate(text.len() - 1),
        2 => text.push(b'\n'),
        3 => text.extend(b"status=1\n".repeat(extra)),
        4 => text.extend(rng.bytes(extra)),
        5 => *text.iter_mut().last().unwrap() = b'0',
        _ => {}
    }
    text
}

/// Sixteen devices of 186 intervals where every line is as long as it can be.
pub fn longest_record(any_width: bool) -> Record {
    let n = 186;
    let check = |k: u32| Check { at: 155 + k, drift: -9_000 };
    let wide_check = Check { at: u32::MAX, drift: i32::MIN };
    let device = Device {
        kind: if any_width { u32::MAX } else { 6 },
        flow_checks: (0..32).map(|k| if any_width { wide_check } else { check(k) }).collect(),
        ch4_checks: (0..32).map(|k| if any_width { wide_check } else { check(k) }).collect(),
        flow: vec![Some(if any_width { 65_534 } else { FLOW_MAX }); n],
        ch4: vec![Some(if any_width { 65_534 } else { CH4_MAX }); n],
        temp: vec![Some(if any_width { -32_767 } else { 10_000 }); n],
        press: vec![Some(if any_width { u32::MAX } else { 300_000 }); n],
        status: vec![if any_width { 255 } else { 2 }; n],
    };
    let wide_fuel = Fuel { quantity: u32::MAX, factor: u32::MAX };
    let fuel = Fuel { quantity: 1_000_000_000, factor: 4_000_000 };
    Record {
        intervals: n as u32,
        mine: if any_width { u32::MAX } else { 1 },
        fuels: vec![if any_width { wide_fuel } else { fuel }; 64],
        devices: vec![device; MOST_DEVICES as usize],
    }
}

/// One value of each series for every interval, at the ends of its range.
pub fn extremes(rng: &Rng, case: usize, row: u64) -> Record {
    let devices = rng.pick(&[1, 1, 2, 16]);
    let n = if case % 20 == 0 { row_length(rng, devices, row) } else { rng.size(1, 12) };
    let mut record = draw::record(rng, n, devices);
    for device in &mut record.devices {
        let count = device.flow.len();
        device.kind = (case % if record.mine == 1 { 6 } else { 5 }) as u32 + 1;
        device.flow = vec![rng.pick(&[None, Some(0), Some(1), Some(29_999), Some(FLOW_MAX), Some(FLOW_MAX)]); count];
        device.ch4 = vec![rng.pick(&[None, Some(0), Some(1), Some(9_999), Some(CH4_MAX), Some(CH4_MAX)]); count];
        device.temp = vec![rng.pick(&[None, Some(-4_000), Some(-4_000), Some(-1), Some(0), Some(10_000)]); count];
        device.press = vec![rng.pick(&[None, Some(50_000), Some(101_325), Some(300_000), Some(300_000)]); count];
        device.status = vec![rng.pick(&[1, 1, 2, 2, 3, 0]); count];
    }
    let fuel = Fuel { quantity: 1_000_000_000, factor: 4_000_000 };
    match case % 4 {
        0 => record.fuels = vec![],
        1 => record.fuels = vec![fuel; rng.pick(&[1, 2, 63, 64])],
        2 => record.fuels = (0..64).map(|_| draw::fuel(rng)).collect(),
        _ => {}
    }
    record
}

/// Fuel chosen so that the reduction lies on, just under or just over a whole tonne, above or below 0.
pub fn tonne_borders(rng: &Rng, case: usize, _row: u64) -> Record {
    let n = rng.size(1, 20);
    let mut record = draw::record(rng, n, 1 + case % 3);
    for device in &mut record.devices {
        spoil(rng, device, 15);
    }
    to_tonne_border(rng, case, &mut record);
    record
}

/// Replaces the record's fuel, if any will do.
pub fn to_tonne_border(rng: &Rng, case: usize, record: &mut Record) {
    record.fuels.clear();
    let Ok(quantified) = quantify(&Call::of(record)) else {
        return;
    };
    let reduction = quantified.figures.reduction_mg;
    let whole = reduction / MG_PER_TONNE;
    let tonnes = if case % 2 == 0 { whole - rng.between(1, 4) as i128 } else { 1 - rng.between(1, 5) as i128 };
    let beside = [0, -1, 1, rng.between(-999, 999) as i128][case % 4];
    let fuel_mg = reduction - tonnes * MG_PER_TONNE - beside;
    if (0..MG_PER_TONNE * 4_000_000).contains(&fuel_mg) {
        let whole_tonnes = (fuel_mg / MG_PER_TONNE) as u32;
        record.fuels.push(Fuel { quantity: 1_000_000_000, factor: whole_tonnes });
        record.fuels.push(Fuel { quantity: (fuel_mg % MG_PER_TONNE) as u32, factor: 1 });
    }
}
