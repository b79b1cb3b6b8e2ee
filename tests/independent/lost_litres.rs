//! Records that lose nearly all that rounding can lose, for files and for calls: where demand 3 comes nearest to its
//! limit. An interval loses less than 1.01 litres of methane. It nearly does where CH4 is just below 100 %, hundredths
//! × CH4 one millionth below a whole litre, and the volume just below the next hundredth.

use crate::call::Call;
use crate::draw;
use crate::exact::{Claim, Counted};
use crate::litre_borders::{any_temp, common, put, OF_FLOW_1};
use crate::litre_reading::{divisor, times_pressure, Reading, HUNDREDTHS, PRESSURES, TEMPS, WHOLE};
use crate::plain_files::to_tonne_border;
use crate::protocol::MG_PER_TONNE;
use crate::quantify::quantify;
use crate::record::{Fuel, Record};
use crate::rng::Rng;

/// The greatest pressure at which such a flow and temperature have so many hundredths, if there is one.
fn last_with(hundredths: u64, flow: u16, ch4: u16, temp: i16) -> Option<Reading> {
    let press = ((hundredths + 1) * divisor(temp) - 1) / (HUNDREDTHS * times_pressure(flow));
    let one = Reading { flow, ch4, temp, press: press as u32 };
    ((PRESSURES.0..=PRESSURES.1).contains(&press) && one.hundredths() == hundredths).then_some(one)
}

/// The least hundredths that there can be with which this CH4 leaves 999,999, which no factor of 1,000,000 divides.
fn hundredths_before_whole(ch4: u16) -> u64 {
    let rest = WHOLE - common(ch4 as u64, WHOLE).1;
    if rest < OF_FLOW_1.0 {
        rest + WHOLE
    } else {
        rest
    }
}

/// At most one part in a hundred is lacking to the next hundredth.
fn is_nearly_next(one: &Reading) -> bool {
    100 * one.lacking(HUNDREDTHS) <= one.divisor()
}

/// A reading that loses 1.0098 litres or more.
pub fn lost(rng: &Rng) -> Reading {
    let ch4 = rng.pick(&[9_999, 9_999, 9_999, 9_997, 9_993, 9_991, 9_989, 9_907, 9_901]);
    let hundredths = hundredths_before_whole(ch4);
    let flows = (hundredths.div_ceil(OF_FLOW_1.1) as usize, (hundredths / OF_FLOW_1.0) as usize);
    let draw = || last_with(hundredths, rng.size(flows.0, flows.1) as u16, ch4, any_temp(rng));
    std::iter::repeat_with(draw).flatten().find(is_nearly_next).unwrap()
}

/// Of all readings with CH4 9,999 and so little gas the one that loses the most.
pub fn worst() -> Reading {
    let hundredths = hundredths_before_whole(9_999);
    let temps = (TEMPS.0..=TEMPS.1).map(|temp| temp as i16);
    let all = temps.flat_map(|temp| [1, 2].map(|flow| last_with(hundredths, flow, 9_999, temp)));
    let lost = |one: &Reading| one.lost() as f64 / one.divisor() as f64;
    all.flatten().max_by(|a, b| lost(a).total_cmp(&lost(b))).unwrap()
}

/// Fuel such that the reduction is 1 mg below a whole tonne: the tonnes lose as much as they can.
pub fn before_next_tonne(record: &mut Record) {
    record.fuels.clear();
    let reduction = quantify(&Call::of(record)).map_or(0, |quantified| quantified.figures.reduction_mg);
    let fuel_mg = (reduction + 1).rem_euclid(MG_PER_TONNE);
    record.fuels.push(Fuel { quantity: fuel_mg as u32, factor: 1 });
}

/// So many intervals of one device for which 1 t, 12 g for each of them and 13 g for it are not enough.
const BEYOND_12_G: [usize; 3] = [64, 80, 100];

/// Every third case goes beyond 12 g. The others have every kind of device, and any fuel.
pub fn lost_by_rounding(rng: &Rng, case: usize, _row: u64) -> Record {
    let (n, devices, kind) = match case % 3 {
        0 => (rng.pick(&BEYOND_12_G), 1, rng.pick(&[2, 5])),
        _ => (rng.pick(&[1, 2, 40]), rng.pick(&[1, 1, 3, 16]), (case / 3 % 6) as u32 + 1),
    };
    let mut record = draw::record(rng, n, devices);
    record.mine = 1;
    for device in &mut record.devices {
        device.kind = kind;
        (0..n).for_each(|i| put(device, i, lost(rng)));
    }
    match case % 3 {
        0 => before_next_tonne(&mut record),
        1 => to_tonne_border(rng, case, &mut record),
        _ => {}
    }
    record
}

/// The tonnes of a call that is nothing but the worst reading, with the fuel that loses most.
pub fn worst_claim(n: usize, devices: usize, kind: u32) -> Claim {
    let (reading, mut record) = (worst(), draw::record(&Rng::new(0, 0), n, devices));
    record.mine = 1;
    for device in &mut record.devices {
        device.kind = kind;
        (0..n).for_each(|i| put(device, i, reading));
    }
    before_next_tonne(&mut record);
    let figures = quantify(&Call::of(&record)).unwrap().figures;
    let counted: Vec<Counted> = (0..n * devices).map(|_| Counted { kind, reading }).collect();
    Claim::new(&counted, figures.devices, figures.tonnes, figures.fuel_mg)
}

/// How far such calls of kind 2 fall short, beyond the tonne.
pub fn worst_text() -> String {
    let one = |n: usize| {
        let beyond = worst_claim(n, 1, 2).shortfall_mg() - MG_PER_TONNE;
        format!(
            "{n} of the worst readings: short by 1 t and {beyond} mg, {:.3} mg each, the device's part among them",
            beyond as f64 / n as f64
        )
    };
    [64, 2_976, 35_136].map(one).join("\n")
}
