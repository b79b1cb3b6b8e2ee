//! Windows on the border of the lower limit's condition, and as near to it as windows can lie. Sum and sum of squares
//! are solved for, and then values that have both: windows that are merely drawn seldom or never lie there.

use crate::rng::Rng;
use std::sync::OnceLock;

/// n values of which a lower limit is asked, and z2 in hundredths.
#[derive(Clone, Copy, Debug, PartialEq, Eq)]
pub struct Level {
    pub n: i128,
    pub z2: i128,
    /// The condition can be an equation where S - nL is a multiple of this, and, but for equal values, nowhere else.
    ///
    /// 271 is prime and 19,100 no multiple of it, so S - nL is 271 d and n Q2 - S² is 271 × 19,100 d². Since Q2 is odd
    /// just where S is, n Q2 - S² leaves by 2 n = 384 what n (S - nL) - (S - nL)² leaves: 19,371 d² - 192 d is a
    /// multiple of 384, and so d of 16. For 576 values it is 77 d, 77 × 11,500 d², and 11,577 d² - 576 d of 1,152, and
    /// so d of 48.
    pub equal: i128,
}

pub const LEVELS: [Level; 2] = [Level { n: 192, z2: 271, equal: 271 * 16 }, Level { n: 576, z2: 385, equal: 77 * 48 }];

impl Level {
    /// What the condition with this divisor leaves to spare, in hundredths, for the distance S - nL and the spread
    /// n Q2 - S². Below 0 it is not met.
    pub fn spare(self, divisor: i128, distance: i128, spread: i128) -> i128 {
        100 * divisor * distance * distance - self.z2 * spread
    }

    /// Spreads of one sum differ by multiples of this, since Q2 differs by an even number.
    pub fn spread_step(self) -> i128 {
        2 * self.n
    }

    /// What is spared less after one step.
    pub fn step(self) -> i128 {
        self.z2 * self.spread_step()
    }

    /// The greatest spread that windows at this distance can have and meet the condition.
    pub fn widest(self, divisor: i128, distance: i128) -> i128 {
        let most = 100 * divisor * distance * distance / self.z2;
        most - (most - self.n * distance + distance * distance).rem_euclid(self.spread_step())
    }

    /// The distance at which values up to `max` have about the greatest spread that they can have.
    fn farthest(self, max: u16) -> i128 {
        (self.n as f64 * max as f64 / 2.0 * 0.9 / (100.0 * (self.n - 1) as f64 / self.z2 as f64).sqrt()) as i128
    }

    fn nearest(self) -> &'static Nearest {
        static TABLE: [OnceLock<Nearest>; 2] = [const { OnceLock::new() }; 2];
        TABLE[(self == LEVELS[1]) as usize].get_or_init(|| Nearest::of(self))
    }

    /// The least above 0 that any window spares, and the least that any lacks.
    pub fn least(self) -> (i128, i128) {
        (self.nearest().spares.0, self.nearest().lacks.0)
    }
}

/// The least amount, and the distances at which a window has it: up to `step`, after which what is spared repeats.
struct Nearest {
    spares: (i128, Vec<i128>),
    lacks: (i128, Vec<i128>),
}

impl Nearest {
    fn of(level: Level) -> Nearest {
        let spare = |distance| level.spare(level.n - 1, distance, level.widest(level.n - 1, distance));
        let spares: Vec<(i128, i128)> = (1..=level.step()).map(|distance| (spare(distance), distance)).collect();
        let lacks = spares.iter().map(|&(spare, distance)| (level.step() - spare, distance));
        let spares = spares.iter().copied().filter(|&(spare, _)| spare > 0);
        Nearest { spares: least(spares.collect()), lacks: least(lacks.collect()) }
    }
}

fn least(amounts: Vec<(i128, i128)>) -> (i128, Vec<i128>) {
    let least = amounts.iter().map(|&(amount, _)| amount).min().unwrap();
    (least, amounts.into_iter().filter(|&(amount, _)| amount == least).map(|(_, distance)| distance).collect())
}

/// Where a window is to lie.
#[derive(Clone, Copy)]
pub enum Side {
    /// On the border.
    On,
    /// Inside or outside, and no window is nearer on that side.
    NearestInside,
    NearestOutside,
    /// Inside, and no window of that sum is nearer. The divisor may be another than n - 1.
    Inside(i128),
}

/// S, Q2 and the greatest value of a window that is wanted.
#[derive(Clone, Copy)]
pub struct Target {
    pub level: Level,
    pub max: u16,
    pub sum: i128,
    pub squares: i128,
}

impl Target {
    /// One at this side of the condition for a drawn L, or for this one. There may be none for what is drawn.
    pub fn draw(rng: &Rng, level: Level, max: u16, side: Side, l: Option<i128>) -> Option<Target> {
        let farthest = level.farthest(max) >> rng.below(10);
        let (divisor, distance, steps) = match side {
            Side::On => (level.n - 1, multiple(rng, level.equal, farthest)?, 0),
            Side::NearestInside => (level.n - 1, repeated(rng, &level.nearest().spares.1, level.step(), farthest)?, 0),
            Side::NearestOutside => (level.n - 1, repeated(rng, &level.nearest().lacks.1, level.step(), farthest)?, 1),
            Side::Inside(divisor) => (divisor, rng.between(3, farthest as i64) as i128, 0),
        };
        let spread = level.widest(divisor, distance) + steps * level.spread_step();
        let l = l.or_else(|| draw_limit(rng, level, max, distance, spread))?;
        let sum = distance + level.n * l;
        Some(Target { level, max, sum, squares: (spread + sum * sum) / level.n })
    }

    pub fn spread(&self) -> i128 {
        self.level.n * self.squares - self.sum * self.sum
    }
}

fn multiple(rng: &Rng, of: i128, most: i128) -> Option<i128> {
    (of <= most).then(|| of * rng.between(1, (most / of) as i64) as i128)
}

/// One of the distances, or further by a multiple of the period.
fn repeated(rng: &Rng, distances: &[i128], period: i128, most: i128) -> Option<i128> {
    let distance = rng.pick(&distances[..distances.partition_point(|&distance| distance <= most).max(1)]);
    (distance <= most).then(|| distance + period * rng.between(0, ((most - distance) / period) as i64) as i128)
}

/// An L that leaves room for the spread: (mean - 0) × (max - mean) is the greatest variance that there is.
fn draw_limit(rng: &Rng, level: Level, max: u16, distance: i128, spread: i128) -> Option<i128> {
    let (n, half) = (level.n as f64, max as f64 / 2.0);
    // Not a number if there is no room, and then neither is `high`.
    let room = (half * half - spread as f64 / (n * n) / 0.85).sqrt();
    let below_mean = distance as f64 / n;
    let (low, high) = ((half - room - below_mean).max(0.0).ceil(), (half + room - below_mean).floor());
    (low <= high).then(|| rng.pick(&[low as i64, high as i64, rng.between(low as i64, high as i64)]) as i128)
}

/// In each half of a window the first two values are equal, the third is two above the fourth, and the fifth may be an
/// outlier. They stay as they are drawn while the others are fitted, so that later steps can use them.
const KEPT: usize = 5;

/// A window that is as the target says, of two halves, or nothing if none was found. Two outliers, one in each half,
/// may be asked for: so far above the mean that the limit falls when they rise.
pub fn window(rng: &Rng, target: &Target, outliers: bool) -> Option<[Vec<u16>; 2]> {
    let mut values = shape(rng, target, outliers)?;
    let half = values.len() / 2;
    for start in [0, half] {
        let middle = values[start].clamp(1, target.max - 1);
        values[start..start + 2].fill(middle);
        let low = values[start + 3].min(target.max - 2);
        values[start + 2..start + 4].copy_from_slice(&[low + 2, low]);
    }
    let free: Vec<usize> = (KEPT..half).chain(half + KEPT..values.len()).collect();
    let fits = fit_sum(rng, &mut values, &free, target) && fit_squares(rng, &mut values, &free, target);
    fits.then(|| [values[..half].to_vec(), values[half..].to_vec()])
}

/// Values with about that mean and spread.
fn shape(rng: &Rng, target: &Target, outliers: bool) -> Option<Vec<u16>> {
    let (n, max) = (target.level.n as f64, target.max as f64);
    let mean = target.sum as f64 / n;
    let deviation = (target.spread().max(0) as f64).sqrt() / n;
    let even = 3_f64.sqrt() * deviation;
    let whole = |value: f64| value.round().clamp(0.0, max) as u16;
    if !outliers && even <= mean.min(max - mean) && rng.chance(2) {
        let draw = |_| whole(mean - even + 2.0 * even * rng.below(1_000_001) as f64 / 1e6);
        return Some((0..target.level.n).map(draw).collect());
    }
    // So many values as high as this, the others as low as that, have this mean and this deviation.
    let high_ones = if outliers { 2.0 } else { draw_high_ones(rng, n, deviation, mean, max - mean)? };
    let ratio = ((n - high_ones) / high_ones).sqrt();
    let (low, high) = (mean - deviation / ratio, mean + deviation * ratio);
    if low < 0.0 || max < high {
        return None;
    }
    let noise = || deviation / ratio.max(1.0) * rng.between(-20, 20) as f64 / 400.0;
    let mut values: Vec<u16> = (0..target.level.n).map(|_| whole(low + noise())).collect();
    if outliers {
        // A little low, so that spread is lacking, which the others can make up; the second higher than the first.
        let (first, second) = (mean + 0.96 * deviation * ratio, mean + 0.97 * deviation * ratio);
        let half = values.len() / 2;
        (values[KEPT - 1], values[half + KEPT - 1]) = (whole(first), whole(second + 1.0));
    } else {
        let mut places: Vec<usize> = (0..values.len()).collect();
        shuffle(rng, &mut places);
        places[..high_ones as usize].iter().for_each(|&k| values[k] = whole(high + noise()));
    }
    Some(values)
}

/// How many of n values may be the high ones if they and the low ones are to stay within the range.
fn draw_high_ones(rng: &Rng, n: f64, deviation: f64, below: f64, above: f64) -> Option<f64> {
    let part = |ratio: f64| n * ratio * ratio / (1.0 + ratio * ratio);
    let fewest = part(deviation / above).ceil().max(1.0);
    let most = part(below / deviation).floor().min(n - 1.0);
    (fewest <= most).then(|| rng.between(fewest as i64, most as i64) as f64)
}

pub fn shuffle<T>(rng: &Rng, entries: &mut [T]) {
    for k in (1..entries.len()).rev() {
        entries.swap(k, rng.below(k + 1));
    }
}

fn fit_sum(rng: &Rng, values: &mut [u16], free: &[usize], target: &Target) -> bool {
    let mut lacking = target.sum - values.iter().map(|&value| value as i128).sum::<i128>();
    for _ in 0..20 * values.len() {
        if lacking == 0 {
            return true;
        }
        let value = &mut values[rng.pick(free)];
        let step = lacking / target.level.n + lacking.signum();
        let changed = (*value as i128 + step).clamp(0, target.max as i128) as u16;
        lacking -= changed as i128 - *value as i128;
        *value = changed;
    }
    false
}

/// Two values are moved apart or together by as much, so that the sum stays: t further apart adds t (t + a - b) to half
/// the squares' sum.
fn fit_squares(rng: &Rng, values: &mut [u16], free: &[usize], target: &Target) -> bool {
    let squares: i128 = values.iter().map(|&value| value as i128 * value as i128).sum();
    let mut lacking = ((target.squares - squares) / 2) as i64;
    let max = target.max as i64;
    for round in 0..1_500 {
        let is_near = round % 16 == 15 && lacking.abs() <= max;
        if lacking == 0 || (is_near && last_pair(values, free, lacking, max)) {
            return true;
        }
        let (i, j) = (rng.pick(free), rng.pick(free));
        let (i, j) = if values[i] < values[j] { (j, i) } else { (i, j) };
        let (a, b) = (values[i] as i64, values[j] as i64);
        let gain = |t: i64| t * (t + a - b);
        let mut t = if lacking > 0 { (max - a).min(b).min(max / 40 + 1) } else { -((a - b) / 2) };
        while t != 0 && gain(t).abs() > lacking.abs() {
            t /= 2;
        }
        // Where nothing fits, a step past the aim leads on.
        if t == 0 && a > b + 1 && lacking.abs() < max {
            t = -1;
        }
        if i != j {
            lacking -= gain(t);
            (values[i], values[j]) = ((a + t) as u16, (b - t) as u16);
        }
    }
    false
}

/// Moves the two values by 1 that give just what is lacking, if there are such two.
fn last_pair(values: &mut [u16], free: &[usize], lacking: i64, max: i64) -> bool {
    let (t, wanted) = if lacking > 0 { (1, lacking - 1) } else { (-1, 1 - lacking) };
    let mut sorted = free.to_vec();
    sorted.sort_by_key(|&k| values[k]);
    let (mut low, mut high) = (0, 1);
    while high < sorted.len() {
        let (i, j) = (sorted[high], sorted[low]);
        let (a, b) = (values[i] as i64, values[j] as i64);
        if low < high && a - b == wanted && a + t <= max && b >= t {
            (values[i], values[j]) = ((a + t) as u16, (b - t) as u16);
            return true;
        }
        if low + 1 < high && a - b > wanted {
            low += 1;
        } else {
            high += 1;
        }
    }
    false
}

/// The half with the least more to its squares' sum, 2: the two equal values one apart each way.
pub fn apart(half: &[u16]) -> Vec<u16> {
    let mut changed = half.to_vec();
    changed[0] += 1;
    changed[1] -= 1;
    changed
}

/// The half with 2 less to its squares' sum: those that are two apart meet.
pub fn together(half: &[u16]) -> Vec<u16> {
    let mut changed = half.to_vec();
    changed[2] -= 1;
    changed[3] += 1;
    changed
}

/// The half with the fifth value, an outlier, higher by this.
pub fn with_outlier(half: &[u16], change: i16) -> Vec<u16> {
    let mut changed = half.to_vec();
    changed[KEPT - 1] = changed[KEPT - 1].wrapping_add_signed(change);
    changed
}
