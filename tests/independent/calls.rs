//! The generator of calls of quantification: classes in fixed shares, and a call for each seed and number.

use crate::call::{Call, SLICES};
use crate::generate::{class, turn, Class};
use crate::protocol::MOST_CHECKS;
use crate::record::Record;
use crate::rng::Rng;
use crate::{gap_files, litre_borders, lost_litres, plain_files, sound_calls, wrong_calls};

/// Takes the random source, the call's number in its class, and how many entries a record may have.
#[derive(Clone, Copy)]
enum Maker {
    Sound(fn(&Rng, usize, u64) -> Record),
    Wrong(fn(&Rng, usize) -> Call),
    /// The case's own number also says which slice it is that gets a wrong length.
    Lengths,
}

use Maker::{Lengths, Sound, Wrong};

/// Enough for three devices with the longest gap that can be replaced, and its windows.
const ROW: u64 = 4_000;

const CLASSES: [Class<Maker>; 29] = [
    class("small", 20, Sound(plain_files::small)),
    class("outcomes", 8, Sound(plain_files::outcomes)),
    class("month", 1, Sound(plain_files::month)),
    class("several devices", 2, Sound(plain_files::several_devices)),
    class("extremes", 8, Sound(plain_files::extremes)),
    class("tonne borders", 8, Sound(plain_files::tonne_borders)),
    class("gap borders", 12, Sound(gap_files::borders)),
    class("gap neighbours", 6, Sound(gap_files::neighbours)),
    class("window values", 8, Sound(gap_files::window_values)),
    class("checks", 12, Sound(gap_files::checks)),
    class("drift and gaps", 6, Sound(gap_files::drift_and_gaps)),
    class("row borders", 12, Sound(sound_calls::row_borders)),
    class("many checks", 5, Sound(sound_calls::many_checks)),
    class("volumes", 6, Sound(sound_calls::volumes)),
    class("lost by rounding", 6, Sound(lost_litres::lost_by_rounding)),
    class("litre borders", 6, Sound(litre_borders::litre_borders)),
    class("most and least", 2, Sound(sound_calls::most_and_least)),
    class("years", 1, Sound(sound_calls::years)),
    class("sizes", 14, Wrong(wrong_calls::sizes)),
    class("lengths", 42, Lengths),
    class("one offence", 40, Wrong(wrong_calls::one)),
    class("pairs of offences", 24, Wrong(wrong_calls::pairs)),
    class("offences from one on", 6, Wrong(wrong_calls::from_one_on)),
    class("rival checks", 12, Wrong(wrong_calls::rival_checks)),
    class("rival readings", 6, Wrong(wrong_calls::rival_readings)),
    class("wrong readings", 12, Wrong(wrong_calls::wrong_readings)),
    class("readings in blocks", 8, Wrong(wrong_calls::readings_in_blocks)),
    class("rival fuels", 6, Wrong(wrong_calls::rival_fuels)),
    class("rival kinds", 6, Wrong(wrong_calls::rival_kinds)),
];

pub struct Generated {
    pub class: &'static str,
    pub call: Call,
    /// The slice whose length is wrong by the call's class.
    pub wrong_slice: Option<&'static str>,
}

/// The call with this number, from 0.
pub fn generate(seed: u64, number: usize) -> Generated {
    let (class, case) = turn(&CLASSES, number);
    let rng = Rng::new(seed, number as u64);
    let mut wrong_slice = None;
    let mut call = match class.make {
        Sound(make) => Call::of(&make(&rng, case, ROW)),
        Wrong(make) => make(&rng, case),
        Lengths => {
            wrong_slice = Some(SLICES[case % SLICES.len()]);
            wrong_calls::lengths(&rng, case)
        }
    };
    fill_unused(&rng, &mut call);
    Generated { class: class.name, call, wrong_slice }
}

/// Entries past an instrument's count are never looked at: some hold what no check could be, others what one could.
fn fill_unused(rng: &Rng, call: &mut Call) {
    for (instrument, &count) in call.counts.iter().enumerate() {
        for k in count as usize..MOST_CHECKS {
            let entry = MOST_CHECKS * instrument + k;
            if let Some(position) = call.positions.get_mut(entry) {
                *position = rng.pick(&[0, 1, k as u32, call.intervals, u32::MAX, rng.next() as u32]);
            }
            if let Some(drift) = call.drifts.get_mut(entry) {
                *drift = rng.pick(&[0, 499, 500, 20_000, -9_001, 20_001, i32::MIN, rng.next() as i32]);
            }
        }
    }
}
