//! The borders of every rounding of ventilation air, and calls that lie on them: readings whose volume or methane lies
//! on a whole litre or right beside one, where one litre more or fewer gives another sheet, or another outcome. They
//! are solved for and come in turn, whatever is drawn.

use crate::rng::Rng;
use crate::vent_air::{Air, Round, PPM_MAX, WHOLE};
use crate::vent_call::{Interval, VentCall};
use crate::vent_draw::{self, STYLES};
use crate::vent_solve::{large_with_rest, with_methane, with_methane_rest, with_rest, Rest, LARGE};

use Rest::{After, Before, Zero};
use Round::{Down, Up};

#[derive(Clone, Copy, Debug, PartialEq, Eq)]
pub enum Part {
    Volume,
    /// 1,000,000,000 litres or more, which 15 digits hardly tell from the next whole number.
    LargeVolume,
    Methane,
}

use Part::{LargeVolume, Methane, Volume};

/// What a wrong rounding would have there.
#[derive(Clone, Copy, Debug, PartialEq, Eq)]
pub enum Wrong {
    OneMore,
    OneFewer,
}

use Wrong::{OneFewer, OneMore};

#[derive(Clone, Copy, Debug)]
pub struct Border {
    /// Down is the inlet, up the exhaust.
    pub stream: Round,
    pub part: Part,
    /// Up to so many parts.
    pub rest: Rest,
    pub wrong: Wrong,
}

const fn border(stream: Round, part: Part, rest: Rest, wrong: Wrong) -> Border {
    Border { stream, part, rest, wrong }
}

pub const BORDERS: [Border; 18] = [
    border(Down, Volume, Zero, OneFewer),
    border(Down, Volume, After(1), OneFewer),
    border(Down, Volume, After(1), OneMore),
    border(Down, Volume, Before(1), OneMore),
    border(Down, LargeVolume, After(9), OneFewer),
    border(Down, LargeVolume, Before(9), OneMore),
    border(Down, Methane, Zero, OneFewer),
    border(Down, Methane, After(1), OneMore),
    border(Down, Methane, Before(1), OneMore),
    border(Up, Volume, Zero, OneMore),
    border(Up, Volume, After(1), OneFewer),
    border(Up, Volume, Before(1), OneFewer),
    border(Up, Volume, Before(1), OneMore),
    border(Up, LargeVolume, After(9), OneFewer),
    border(Up, LargeVolume, Before(9), OneMore),
    border(Up, Methane, Zero, OneMore),
    border(Up, Methane, After(1), OneFewer),
    border(Up, Methane, Before(1), OneFewer),
];

/// What a wrong rounding changes.
pub const CHANGES: [&str; 2] = ["sheet", "outcome"];

impl Border {
    /// Of another sheet, or of another outcome.
    pub fn name(&self, change: usize) -> String {
        let stream = if self.stream == Down { "inlet" } else { "exhaust" };
        let part = match self.part {
            Volume => "volume",
            LargeVolume => "volume of 10^9 or more",
            Methane => "methane",
        };
        let whole = if self.part == Methane { "10^6" } else { "F" };
        let rest = match self.rest {
            Zero => "0".to_string(),
            After(1) => "1".to_string(),
            Before(1) => format!("{whole} - 1"),
            After(most) => format!("1 to {most}"),
            Before(most) => format!("{whole} - {most} to {whole} - 1"),
        };
        let wrong = if self.wrong == OneMore { "one more" } else { "one fewer" };
        format!("{stream} {part}, remainder {rest}: {wrong} is another {}", CHANGES[change])
    }

    pub fn is_of(&self, stream: Round, part: Part) -> bool {
        self.stream == stream && self.part == part
    }

    fn air(&self, interval: Interval) -> Air {
        if self.stream == Down {
            interval.inlet
        } else {
            interval.exhaust
        }
    }

    /// Does the air lie there, so that the wrong rounding shows in the litres of methane?
    fn holds(&self, air: Air) -> bool {
        let (rest, whole) = match self.part {
            Methane => (air.methane_rest(self.stream), WHOLE),
            _ => (air.remainder(), air.divisor()),
        };
        let lies = match self.rest {
            Zero => rest == 0,
            After(most) => (1..=most).contains(&rest),
            Before(most) => whole - rest <= most,
        };
        let shows = match (self.part, self.wrong) {
            (Methane, _) => air.methane(self.stream) > 0,
            (_, OneMore) => air.shows_one_more(self.stream),
            (_, OneFewer) => air.shows_one_fewer(self.stream),
        };
        let is_large = self.part != LargeVolume || air.volume(self.stream) >= LARGE;
        air.flow > 0 && lies && is_large && shows
    }

    /// What changes if that stream has a litre more, or fewer: the sheet (0) of an interval that is counted either way,
    /// the outcome (1), or nothing.
    fn change(&self, inlet: u64, exhaust: u64) -> Option<usize> {
        let (wrong_inlet, wrong_exhaust) = match (self.stream, self.wrong) {
            (Down, OneMore) => (inlet + 1, exhaust),
            (Down, OneFewer) => (inlet - 1, exhaust),
            (Up, OneMore) => (inlet, exhaust + 1),
            (Up, OneFewer) => (inlet, exhaust - 1),
        };
        let counted = (exhaust <= inlet, wrong_exhaust <= wrong_inlet);
        match counted {
            (true, true) => Some(0),
            (false, false) => None,
            _ => Some(1),
        }
    }

    /// What a running interval with whole readings shows of this border.
    pub fn shown(&self, interval: Interval) -> Option<usize> {
        if !self.holds(self.air(interval)) {
            return None;
        }
        self.change(interval.inlet.methane(Down), interval.exhaust.methane(Up))
    }
}

/// With a ppm for which the litre next to the border makes other litres of methane, if there is one.
fn showing(rng: &Rng, border: &Border, air: Air) -> Option<Air> {
    let start = rng.below(PPM_MAX as usize) as u16;
    (0..PPM_MAX).map(|k| Air { ppm: (start + k) % PPM_MAX + 1, ..air }).find(|&air| border.holds(air))
}

fn one_stream(rng: &Rng, border: &Border) -> Option<Air> {
    let few = |most: u64| rng.size(1, most as usize) as u64;
    let rest = match border.rest {
        Zero => Zero,
        After(most) => After(few(most)),
        Before(most) => Before(few(most)),
    };
    match border.part {
        Volume => showing(rng, border, with_rest(rng, rest)),
        LargeVolume => showing(rng, border, large_with_rest(rng, rest)),
        Methane => Some(with_methane_rest(rng, border.stream, rest)).filter(|&air| border.holds(air)),
    }
}

/// The other stream's litres for which a wrong rounding changes the sheet or the outcome.
fn other_litres(rng: &Rng, border: &Border, own: u64, change: usize) -> u64 {
    let away = rng.pick(&[0, 1, rng.below(2_000), rng.below(own as usize + 1)]) as u64;
    match (border.stream, border.wrong, change) {
        (Down, OneMore, 0) => own.saturating_sub(away),
        (Down, OneFewer, 0) => (own - 1).saturating_sub(away),
        (Up, OneMore, 0) => own + 1 + away,
        (Up, OneFewer, 0) => own + away,
        (Down, OneMore, _) => own + 1,
        (Up, OneFewer, _) => own - 1,
        _ => own,
    }
}

/// An interval that shows this border by another sheet, or by another outcome.
pub fn solved(rng: &Rng, border: &Border, change: usize) -> Interval {
    let draw = || {
        let air = one_stream(rng, border)?;
        let litres = other_litres(rng, border, air.methane(border.stream), change);
        let status = rng.pick(&[1, 2]);
        match border.stream {
            Down => with_methane(rng, Up, litres).map(|exhaust| Interval { inlet: air, exhaust, status }),
            Up => with_methane(rng, Down, litres).map(|inlet| Interval { inlet, exhaust: air, status }),
        }
    };
    let all = std::iter::repeat_with(draw).flatten();
    all.into_iter().find(|&interval| border.shown(interval) == Some(change)).unwrap()
}

/// After so many cases all have had their turn.
pub const TURNS: usize = 2 * BORDERS.len();

/// At times among other intervals.
pub fn borders(rng: &Rng, case: usize) -> VentCall {
    let turn = case % TURNS;
    let one = solved(rng, &BORDERS[turn / 2], turn % 2);
    with_others(rng, one)
}

/// On some border of these.
pub fn some_border(rng: &Rng, is_wanted: fn(&Border) -> bool) -> VentCall {
    let turn = std::iter::repeat_with(|| rng.below(TURNS)).find(|turn| is_wanted(&BORDERS[turn / 2])).unwrap();
    borders(rng, turn)
}

/// One interval somewhere in a small call.
pub fn with_others(rng: &Rng, one: Interval) -> VentCall {
    let (n, devices) = rng.pick(&[(1, 1), (1, 1), (2, 1), (5, 1), (3, 2)]);
    let style = rng.pick(&STYLES);
    let mut all: Vec<Interval> = (0..n * devices).map(|_| vent_draw::interval(rng, style)).collect();
    all[rng.below(n * devices)] = one;
    VentCall::of(devices, &all, &vent_draw::fuels(rng))
}
