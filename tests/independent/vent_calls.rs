//! The generator of calls about ventilation air: classes in fixed shares, and a call for each seed and number.

use crate::generate::{class, turn, Class};
use crate::rng::Rng;
use crate::vent_call::VentCall;
use crate::{vent_borders, vent_lost, vent_methane, vent_missing, vent_told};
use crate::{vent_plain, vent_wrong_calls, vent_wrong_readings};

/// Takes the random source and the call's number in its class.
type Maker = fn(&Rng, usize) -> VentCall;

/// The class in which the case's own number also says which slice it is that gets a wrong length.
const LENGTHS: &str = "lengths";

const CLASSES: [Class<Maker>; 22] = [
    class("small", 20, vent_plain::small as Maker),
    class("outcomes", 8, vent_plain::outcomes),
    class("month", 1, vent_plain::month),
    class("several devices", 2, vent_plain::several_devices),
    class("extremes", 8, vent_plain::extremes),
    class("tonne borders", 8, vent_plain::tonne_borders),
    class("methane borders", 8, vent_methane::methane_borders),
    class("rounding borders", 10, vent_borders::borders),
    class("lost by rounding", 5, vent_lost::lost_by_rounding),
    class("missing readings", 8, vent_missing::missing_readings),
    class("wrong programs", 11, vent_told::wrong_programs),
    class("most and least", 2, vent_plain::most_and_least),
    class("years", 1, vent_plain::years),
    class("sizes", 14, vent_wrong_calls::sizes),
    class(LENGTHS, 24, vent_wrong_calls::lengths),
    class("one offence", 20, vent_wrong_calls::one),
    class("pairs of offences", 6, vent_wrong_calls::pairs),
    class("offences from one on", 3, vent_wrong_calls::from_one_on),
    class("rival readings", 5, vent_wrong_calls::rival_readings),
    class("wrong readings", 13, vent_wrong_readings::few),
    class("readings in blocks", 9, vent_wrong_readings::blocks),
    class("rival fuels", 5, vent_wrong_calls::rival_fuels),
];

pub struct Generated {
    pub class: &'static str,
    pub call: VentCall,
    /// The slice whose length is wrong by the call's class.
    pub wrong_slice: Option<&'static str>,
}

/// The call with this number, from 0.
pub fn generate(seed: u64, number: usize) -> Generated {
    let (class, case) = turn(&CLASSES, number);
    let call = (class.make)(&Rng::new(seed, number as u64), case);
    let wrong_slice = (class.name == LENGTHS).then(|| vent_wrong_calls::wrong_slice(case));
    Generated { class: class.name, call, wrong_slice }
}
