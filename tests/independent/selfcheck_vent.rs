//! The part of the self-check about ventilation air that is accepted: document 02's numbers, litres in all ways, the
//! order of outcomes, accounts and figures, exact arithmetic and demand 3, what is lost.

use crate::protocol::MG_PER_TONNE;
use crate::record::Fuel;
use crate::rng::Rng;
use crate::selfcheck::Checks;
use crate::selfcheck_calls::FUEL;
use crate::tonnes::hundredths;
use crate::vent_air::{Air, Round};
use crate::vent_call::{Interval, VentCall};
use crate::vent_draw::{any_air, MARKS};
use crate::vent_exact::{claim, unfair};
use crate::vent_litres::{exhaust_methane, exhaust_volume, inlet_methane, inlet_volume};
use crate::vent_lost::{claim_of, lost, lost_mg, worst};
use crate::vent_program::{Given, RIGHT};
use crate::vent_quantify::{outcome, quantify_ventilation};
use crate::vent_ways::{drawn, three_ways, Tally};
use crate::{vent_plain, vent_told};

use Round::{Down, Up};

pub fn run(checks: &mut Checks) {
    volumes(checks);
    methane(checks);
    ways(checks, 20_000);
    both_streams_alike(checks);
    outcome_order(checks);
    example(checks);
    accounts(checks);
    largest_numbers(checks);
    fairness(checks);
    short_by(checks);
    worst_calls(checks);
    programs(checks);
}

fn air(flow: u16, ppm: u16, temp: i16, press: u32) -> Air {
    Air { flow, ppm, temp, press }
}

/// At 20 C and 101,325 Pa nothing is rounded.
pub fn standard(flow: u16, ppm: u16) -> Air {
    air(flow, ppm, 2_000, 101_325)
}

/// Document 02's numbers for hundredths of a litre of a tenth of a m3 are those for litres of ten m3.
fn volumes(checks: &mut Checks) {
    let both = |air: Air| (inlet_volume(air), exhaust_volume(air));
    checks.same("flow 1000 at 20 C", both(standard(1_000, 0)), (10_000_000, 10_000_000));
    checks.same("flow 1000 at 0 C", both(air(1_000, 0, 0, 101_325)), (10_732_198, 10_732_199));
    checks.same("flow 1 at 100 C", both(air(1, 0, 10_000, 50_000)), (3_876, 3_877));
    checks.same("no flow", both(air(0, 20_000, -4_000, 300_000)), (0, 0));
    let most = air(30_000, 20_000, -4_000, 300_000);
    checks.same("the most", both(most), (1_116_812_781, 1_116_812_782));
    checks.same("the most methane", (inlet_methane(most), exhaust_methane(most)), (22_336_255, 22_336_256));
    let rng = Rng::new(20, 0);
    for _ in 0..20_000 {
        let one = any_air(&rng);
        checks.same("as drainage's hundredths", inlet_volume(one), hundredths(one.flow, one.temp, one.press));
    }
}

/// 50 litres with 20,000 ppm are one litre of methane; 500,000 with 2 ppm too.
fn methane(checks: &mut Checks) {
    for (volume, ppm, inlet, exhaust) in [
        (50, 20_000, 1, 1),
        (49, 20_000, 0, 1),
        (51, 20_000, 1, 2),
        (500_000, 2, 1, 1),
        (499_999, 2, 0, 1),
        (1_000_000, 1, 1, 1),
        (1, 1, 0, 1),
        (7, 0, 0, 0),
        (0, 20_000, 0, 0),
    ] {
        let name = format!("{volume} litres, {ppm} ppm");
        checks.same(&name, (Down.methane(volume, ppm), Up.methane(volume, ppm)), (inlet, exhaust));
    }
    checks.same("of 10,000 m3", (inlet_methane(standard(1_000, 50)), exhaust_methane(standard(1_000, 50))), (500, 500));
    let warm = air(1_000, 50, 0, 101_325);
    checks.same("of the same at 0 C", (inlet_methane(warm), exhaust_methane(warm)), (536, 537));
}

fn ways(checks: &mut Checks, count: usize) {
    let (rng, mut tally) = (Rng::new(21, 0), Tally::default());
    for number in 0..count {
        checks.same("litres", tally.add(drawn(&rng, number)), None);
    }
    checks.same("all sorts of intervals", tally.is_whole(), true);
    let one = air(1_000, 20_000, 0, 101_325);
    checks.same("inlet", three_ways(one, Down), [(10_732_198, 214_643); 3]);
    checks.same("exhaust", three_ways(one, Up), [(10_732_199, 214_644); 3]);
}

/// The same readings in both streams are outcome 6 in nearly every case; where nothing is rounded they are counted.
fn both_streams_alike(checks: &mut Checks) {
    let alike = |air: Air| outcome(&Interval { inlet: air, exhaust: air, status: 1 });
    let rng = Rng::new(22, 0);
    let counted = (0..10_000).filter(|_| alike(any_air(&rng)) == 0).count();
    checks.same("hardly any is counted", counted < 10, true);
    checks.same("none rounded", [alike(standard(1_000, 50)), alike(standard(30_000, 20_000))], [0, 0]);
    checks.same("no methane", [alike(air(9, 0, 1, 99_999)), alike(air(0, 9, 1, 99_999))], [0, 0]);
    checks.same("the most", alike(air(30_000, 20_000, -4_000, 300_000)), 6);
}

/// The first of stopped, unrecorded, missing and above that applies: every status, every set of missing readings.
fn outcome_order(checks: &mut Checks) {
    for (exhaust_ppm, is_above) in [(49, false), (50, false), (51, true)] {
        for status in 0..4 {
            for missing in 0..256_u32 {
                let mut one = Interval { inlet: standard(1_000, 50), exhaust: standard(1_000, exhaust_ppm), status };
                (0..8).filter(|k| missing >> k & 1 == 1).for_each(|k| one.put(k, MARKS[k]));
                let wanted = match (status, missing, is_above) {
                    (0, ..) => 3,
                    (3, ..) => 4,
                    (_, 1.., _) => 5,
                    (.., true) => 6,
                    _ => 0,
                };
                checks.same("outcome", outcome(&one), wanted);
            }
        }
    }
}

/// 300,000 m3 of air with 2 % of methane, of which 100 ppm are left: worked out by hand.
pub fn worked(n: usize, devices: usize, fuels: &[Fuel]) -> VentCall {
    let one = Interval { inlet: standard(30_000, 20_000), exhaust: standard(30_000, 100), status: 1 };
    VentCall::of(devices, &vec![one; n * devices], fuels)
}

fn example(checks: &mut Checks) {
    let quantified = quantify_ventilation(&worked(1, 1, &[FUEL])).unwrap();
    let litres = [6_000_000, 5_970_000, 30_000];
    let mg = [84_042_000_000, 10_950_472_500, 420_210_000, 700_000_000, 71_971_317_500];
    let wanted = [&[1, 1, 1, 0, 0], &litres[..], &mg[..], &[71, 71]].concat();
    checks.same("worked by hand", quantified.figures.numbers().to_vec(), wanted);
    checks.same("its row", quantified.outcome, vec![0]);
}

/// CO2 is rounded up for each device: 7,337 / 4 mg of one litre is 1,834.25.
fn accounts(checks: &mut Checks) {
    let one =
        |exhaust: u16, status: u8| Interval { inlet: standard(1_000, 50), exhaust: standard(1_000, exhaust), status };
    let mut lacking = one(0, 1);
    lacking.put(6, MARKS[6]);
    // 500 litres are supplied: 10, 500 and 510 are left.
    let mut all = vec![one(1, 1), one(50, 2), one(51, 1), one(0, 0), one(0, 3), lacking];
    let small = |inlet, exhaust| Interval { inlet: standard(1, inlet), exhaust: standard(1, exhaust), status: 2 };
    all.extend([small(200, 100), small(0, 0), small(99, 1), small(100, 0), small(100, 100), small(20_000, 0)]);
    let quantified = quantify_ventilation(&VentCall::of(2, &all, &[])).unwrap();
    checks.same("the row", quantified.outcome, vec![0, 0, 6, 3, 4, 5, 0, 0, 6, 0, 0, 0]);
    let numbers: Vec<[u64; 13]> = quantified.accounts.iter().map(|account| account.numbers()).collect();
    let first = [2, 0, 0, 1, 1, 1, 1, 0, 0, 0, 1_000, 490, 510];
    let second = [5, 0, 0, 0, 0, 0, 1, 0, 0, 0, 204, 202, 2];
    checks.same("accounts", numbers, vec![first, second]);
    let figures = quantified.figures;
    checks.same("counted and excluded", (figures.counted, figures.replaced, figures.excluded), (7, 0, 5));
    checks.same("CO2", figures.co2_mg, 898_783 + 370_519);
    checks.same("litres", (figures.methane_l, figures.destroyed_l, figures.uncombusted_l), (1_204, 692, 512));
    checks.same("reduction", figures.reduction_mg, 14_007 * 692 - 898_783 - 370_519);
    checks.same("tonnes", (figures.tonnes, figures.credits), (0, 0));
}

fn largest_numbers(checks: &mut Checks) {
    let figures = |case: usize, n: usize| {
        let one = vent_plain::most_and_least(&Rng::new(0, 0), case).interval(0);
        let fuel = Fuel { quantity: 1_000_000_000, factor: 4_000_000 };
        let call = VentCall::of(16, &vec![one; n * 16], &vec![fuel; if case < 12 { 0 } else { 64 }]);
        quantify_ventilation(&call).unwrap().figures
    };
    let most = figures(0, 35_136);
    checks.same("inlet", most.methane_l, 16 * 35_136 * 22_336_255);
    checks.same("baseline_mg", most.baseline_mg, 175_884_589_217_756_160);
    checks.same("co2_mg", most.co2_mg, 23_032_505_730_896_640);
    checks.same("reduction_mg", most.reduction_mg, 175_884_589_217_756_160 - 23_032_505_730_896_640);
    let with_exhaust = figures(4, 35_136);
    checks.same("exhaust", with_exhaust.uncombusted_l, 16 * 35_136 * 22_336_182);
    checks.same("destroyed", with_exhaust.destroyed_l, 16 * 35_136 * 73);
    let least = figures(20, 1);
    checks.same("least reduction_mg", least.reduction_mg, -256_000_000_000_000_000);
    checks.same("least tonnes", (least.tonnes, least.credits), (-256_000_000, 0));
}

/// Nothing is rounded in the worked interval: without fuel it reduces 72,671,317,500 mg exactly. 25 g are allowed for
/// each counted interval, and nothing for a device.
fn fairness(checks: &mut Checks) {
    let verdict = |n: usize, devices: usize, reduction: i128, tonnes: i128| {
        let fuel_mg = (n * devices) as i128 * 72_671_317_500 - reduction;
        let fuels = [(MG_PER_TONNE, fuel_mg / MG_PER_TONNE), (fuel_mg % MG_PER_TONNE, 1)];
        let call = worked(n, devices, &fuels.map(|(q, f)| Fuel { quantity: q as u32, factor: f as u32 }));
        unfair(&call, &vec![0; n * devices], tonnes).is_none()
    };
    for (n, devices, reduction, tonnes, wanted) in [
        (1, 1, 71_971_317_500, 71, true),
        (1, 1, 71_971_317_500, 72, false),
        (1, 1, 71_971_317_500, 70, false),
        (1, 1, 71_000_000_000, 71, true),
        (1, 1, 70_999_999_999, 71, false),
        (1, 1, 72_000_024_999, 71, true),
        (1, 1, 72_000_025_000, 71, false),
        (2, 1, 72_000_049_999, 71, true),
        (1, 2, 72_000_050_000, 71, false),
        (1, 2, 72_000_049_999, 71, true),
        (1, 1, -1, 0, false),
        (1, 1, -1, -1, true),
        (1, 1, 0, 0, true),
        (1, 1, -999_975_001, -2, true),
        (1, 1, -999_975_000, -2, false),
    ] {
        checks.same(&format!("{tonnes} t of {reduction} mg"), verdict(n, devices, reduction, tonnes), wanted);
    }
    let idle = worked(1, 1, &[Fuel { quantity: 1, factor: 1 }]);
    checks.same("none counted", [-1, 0, -2].map(|tonnes| unfair(&idle, &[3], tonnes).is_none()), [true, false, false]);
}

/// One litre of exhaust too many, and how far that is off: 12,172.75 mg.
fn short_by(checks: &mut Checks) {
    let call = worked(1, 1, &[]);
    checks.same("mg", claim(&call, &[0], 72).shortfall_mg(), 671_317_500);
    checks.same("mg, negative", claim(&call, &[0], -1).shortfall_mg(), 73_671_317_500);
    let mut less = call.clone();
    less.exhaust.ppm[0] = 0;
    checks.same("30,000 litres", claim(&less, &[0], 72).shortfall_mg(), 671_317_500 + 30_000 * 12_172 + 22_500);
    // 4,999 ppm of 10,000 m3 at 0 C, which are 10,732,198 and 2,326 / 5,463 litres.
    less.put(0, Interval { inlet: air(1_000, 4_999, 0, 101_325), exhaust: standard(0, 9), status: 1 });
    checks.same("not whole", claim(&less, &[0], 0).shortfall_mg(), 653_071_201);
}

/// Calls that are nothing but the worst interval: 24 g for each are not enough, nor 24,832 mg; 24,833 are.
fn worst_calls(checks: &mut Checks) {
    let (rng, worst) = (Rng::new(23, 0), worst());
    for _ in 0..500 {
        let one = lost(&rng);
        checks.same("counted", outcome(&one), 0);
        checks.same("lost", (24_825.0..24_832.4).contains(&lost_mg(one)), true);
    }
    checks.same("the most that is lost", (24_832.35..24_832.362).contains(&lost_mg(worst)), true);
    for (n, devices) in [(1, 1), (1, 16), (64, 1), (2_976, 1), (35_136, 16)] {
        let claim = claim_of(worst, n, devices);
        let beyond = [24_000, 24_800, 24_832, 24_833, 25_000].map(|mg| claim.loses_more_than(mg));
        checks.same("beyond so many mg", beyond, [true, true, n * devices > 1, false, false]);
        checks.same("not above", claim.exceeds(), false);
    }
}

/// The program of parts is another way to the same answer.
fn programs(checks: &mut Checks) {
    let rng = Rng::new(24, 0);
    let any = (0..2_000).map(|_| vent_told::any(&rng));
    let small = (0..1_000).map(|case| vent_plain::small(&rng, case));
    for call in any.chain(small).collect::<Vec<VentCall>>() {
        let quantified = quantify_ventilation(&call).unwrap();
        checks.same("in parts", RIGHT.given(&call), Given::of(&quantified));
        checks.same("fair", unfair(&call, &quantified.outcome, quantified.figures.tonnes), None);
    }
}
