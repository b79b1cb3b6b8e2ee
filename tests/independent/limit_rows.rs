//! Records whose rows are full of gaps with a lower limit, in flow and in CH4. Between two gaps there is just half a
//! window, which serves both. What a long run must meet (`limit_kinds`) comes in turn, whatever is drawn.

use crate::border_windows::{apart, shuffle, together, window, with_outlier, Level, Side, Target, LEVELS};
use crate::draw::{self, cut, Style, CH4_MAX, FLOW_MAX, STYLES};
use crate::gaps::lower_limit_by_root;
use crate::protocol::MOST_INTERVALS;
use crate::record::{Device, Record};
use crate::rng::Rng;

type Halves = Vec<Vec<u16>>;

/// Both ends of each level's gaps, and what lies beside and between them; the shortest most often.
const GAPS: [[usize; 7]; 2] = [[24, 25, 24, 60, 24, 94, 95], [96, 97, 96, 300, 96, 671, 672]];

/// Where the gaps of a device's row lie.
#[derive(Clone, Copy)]
struct Layout {
    level: Level,
    gap: usize,
    n: usize,
}

impl Layout {
    fn half(self) -> usize {
        self.level.n as usize / 2
    }

    /// From a gap to the next one.
    fn period(self) -> usize {
        self.half() + self.gap
    }

    /// Where the first half begins: CH4's gaps are in the middle between those of flow, so that both are seen.
    fn start(self, which: usize) -> usize {
        which * self.period() / 2
    }

    fn gaps(self, which: usize) -> usize {
        (self.n - self.start(which) - self.half()) / self.period()
    }
}

/// The call's devices, by its number alone. The first one's flow fills its row from end to end.
fn layouts(number: usize) -> Vec<Layout> {
    let devices = [1, 2, 1, 3][number % 4];
    let is_year = number % 33 == 32;
    let length = if is_year { MOST_INTERVALS as usize } else { [4_000, 6_000, 9_000][number / 4 % 3] };
    let layout = |device: usize, n: usize| {
        let level = (number + device) % 2;
        Layout { level: LEVELS[level], gap: GAPS[level][(number / 2 + device) % 7], n }
    };
    let first = layout(0, length);
    let n = first.half() + first.gaps(0) * first.period();
    (0..if is_year { 1 } else { devices }).map(|device| layout(device, n)).collect()
}

/// How many windows the call with this number has.
pub fn windows(number: usize) -> usize {
    layouts(number).iter().map(|layout| layout.gaps(0) + layout.gaps(1)).sum()
}

/// How many calls from the first on have at least so many windows.
pub fn calls_with(wanted: usize) -> usize {
    let asked = (0..).scan(0, |asked, number| {
        let before = *asked;
        *asked += windows(number);
        Some(before)
    });
    asked.take_while(|&before| before < wanted).count()
}

pub fn generate(seed: u64, number: usize) -> Record {
    let rng = Rng::new(seed, number as u64);
    let layouts = layouts(number);
    let mut record = draw::record(&rng, layouts[0].n, layouts.len());
    for (k, (device, &layout)) in record.devices.iter_mut().zip(&layouts).enumerate() {
        for which in 0..2 {
            fill(&rng, device, which, layout, 7 * (number / 2 + k) + 9 * which);
        }
    }
    record
}

/// Episodes from this turn on, in a drawn order within each half; what is in no window is any reading.
fn fill(rng: &Rng, device: &mut Device, which: usize, layout: Layout, mut turn: usize) {
    let max = [FLOW_MAX, CH4_MAX][which];
    let mut halves = Halves::new();
    while halves.len() <= layout.gaps(which) {
        halves.extend(episode(rng, turn % EPISODES, layout.level, max));
        turn += 1;
    }
    let series = device.series(which);
    *series = draw::readings(rng, layout.n, max, Style::Uniform);
    for (k, half) in halves.iter_mut().take(layout.gaps(which) + 1).enumerate() {
        shuffle(rng, half);
        let start = layout.start(which) + k * layout.period();
        series[start..start + half.len()].iter_mut().zip(half).for_each(|(entry, value)| *entry = Some(*value));
        if k < layout.gaps(which) {
            cut(series, start + layout.half(), layout.gap);
        }
    }
}

/// After so many all have had their turn.
pub const EPISODES: usize = 20;

/// Halves of windows, each of which makes a window with the next one.
pub fn episode(rng: &Rng, turn: usize, level: Level, max: u16) -> Halves {
    match turn {
        0..11 => until_found(|| made(rng, turn, level, max)),
        _ => drawn(rng, turn - 11, level.n as usize / 2, max),
    }
}

fn until_found<T>(mut draw: impl FnMut() -> Option<T>) -> T {
    (0..10_000).find_map(|_| draw()).expect("no such window was found")
}

fn made(rng: &Rng, turn: usize, level: Level, max: u16) -> Option<Halves> {
    let rule = level.n - 1;
    match turn {
        0 => on_border(rng, level, max),
        1 => both_sides(rng, level, max, Side::NearestInside, None),
        2 => from_outside(rng, level, max),
        3 => both_sides(rng, level, max, Side::Inside(rule), None),
        4 => one_changed(rng, level, max),
        5 => outlier_changed(rng, level, max),
        6 | 7 => both_sides(rng, level, max, Side::Inside(rule), Some(turn as i128 - 6)),
        _ => both_sides(rng, level, max, Side::Inside([level.n, rule - 1, level.n + 1][turn - 8]), None),
    }
}

fn base(rng: &Rng, level: Level, max: u16, side: Side, l: Option<i128>) -> Option<[Vec<u16>; 2]> {
    window(rng, &Target::draw(rng, level, max, side, l)?, false)
}

/// On the border, the least step outside, on it again with other values, the least step inside.
fn on_border(rng: &Rng, level: Level, max: u16) -> Option<Halves> {
    let [first, second] = base(rng, level, max, Side::On, None)?;
    let third = apart(&first);
    let (fourth, fifth) = (together(&second), together(&third));
    Some(vec![first, second, third, fourth, fifth])
}

/// Inside, the least step further, inside again with other values.
fn both_sides(rng: &Rng, level: Level, max: u16, side: Side, l: Option<i128>) -> Option<Halves> {
    let [first, second] = base(rng, level, max, side, l)?;
    let (third, fourth) = (apart(&first), together(&second));
    Some(vec![first, second, third, fourth])
}

/// Outside, and the least step inside.
fn from_outside(rng: &Rng, level: Level, max: u16) -> Option<Halves> {
    let [first, second] = base(rng, level, max, Side::NearestOutside, None)?;
    let third = together(&first);
    Some(vec![first, second, third])
}

/// Halves whose limits are one lower and then as before.
fn falls_and_rises(level: Level, halves: Halves) -> Option<Halves> {
    let limit = |pair: &[Vec<u16>]| lower_limit_by_root(&pair.concat(), level.z2);
    let limits: Vec<u16> = halves.windows(2).map(limit).collect();
    (limits[0] > 0 && limits[1] == limits[0] - 1 && limits[2] == limits[0]).then_some(halves)
}

/// A value is one lower, and the limit is; another is one higher, and the limit is as before.
fn one_changed(rng: &Rng, level: Level, max: u16) -> Option<Halves> {
    let [first, second] = base(rng, level, max, Side::Inside(level.n - 1), None)?;
    let (mut third, mut fourth) = (first.clone(), second.clone());
    let lowered = rng.below(third.len());
    third[lowered] = third[lowered].checked_sub(1)?;
    let raised = (0..fourth.len()).min_by_key(|&k| fourth[k])?;
    fourth[raised] += 1;
    falls_and_rises(level, vec![first, second, third, fourth])
}

/// A value far above the others is one higher, and the limit one lower; another is one lower, and the limit rises.
fn outlier_changed(rng: &Rng, level: Level, max: u16) -> Option<Halves> {
    let target = Target::draw(rng, level, max, Side::Inside(level.n - 1), None)?;
    let [first, second] = window(rng, &target, true)?;
    let (third, fourth) = (with_outlier(&first, 1), with_outlier(&second, -1));
    if third.iter().any(|&value| value > max) {
        return None;
    }
    falls_and_rises(level, vec![first, second, third, fourth])
}

/// Three halves or four that are not made for a border.
fn drawn(rng: &Rng, turn: usize, half: usize, max: u16) -> Halves {
    let of = |values: Vec<u16>| values.chunks(half).map(<[u16]>::to_vec).collect();
    let styled = |style| of(draw::readings(rng, 3 * half, max, style).into_iter().flatten().collect());
    let each = |draw: &dyn Fn() -> usize| of((0..3 * half).map(|_| draw() as u16).collect());
    let top = max as usize;
    match turn {
        0..5 => styled(STYLES[turn]),
        5 => halves_of_extremes(rng, half, max),
        6 => [0, 0, max, max].map(|value| vec![value; half]).to_vec(),
        7 => {
            let (base, width) = (rng.size(0, top - 20), rng.size(1, 20));
            each(&|| base + rng.size(0, width))
        }
        _ => few_above_zero(rng, half, max),
    }
}

/// Half 0 and half the greatest reading; then a value in between moves the mean a little.
fn halves_of_extremes(rng: &Rng, half: usize, max: u16) -> Halves {
    let even = [vec![0; half / 2], vec![max; half / 2]].concat();
    let moved = || {
        let mut moved = even.clone();
        moved[rng.below(half)] = rng.size(0, max as usize) as u16;
        moved
    };
    vec![even.clone(), even.clone(), moved(), moved()]
}

/// Values of 0 to 3; nothing but 0 and then a few others, so few that there is no limit.
fn few_above_zero(rng: &Rng, half: usize, max: u16) -> Halves {
    let low = || (0..half).map(|_| rng.size(0, 3) as u16).collect::<Vec<u16>>();
    let mut few = vec![0; half];
    let value = rng.pick(&[1, 2, 191, 192, 193, 575, 576, 577, max]);
    few[..rng.size(1, 2)].fill(value);
    vec![low(), low(), vec![0; half], few]
}
