//! Bucketlets aimed at a checker that does not try every pair of ends: one range or a few come up to theta or to q, or
//! go past it by as little as can be, at either end of the bucketlet or inside.

use super::foreign::total_near;
use super::lists::{any_q, divisor};
use super::Random;
use crate::coding::{class_for, class_number, LAST_CLASS};
use crate::list::{count, Bound, COUNT_LIMIT, MOST_Q, MOST_Q_PART, MOST_THETA};
use crate::words::{Bucket, Histogram, WIDEST_LISTED};
use std::ops::RangeInclusive;

/// About the lengths at which a short bucketlet ends, and the widest ones, listed and free.
pub const WIDTHS: [u64; 13] = [1, 2, 3, 8, 9, 15, 16, 17, 31, 32, 33, 511, 4_095];

/// A bucketlet, with the theta and the q that it is judged by.
#[derive(Clone, Debug)]
pub struct Aimed {
    pub part: Vec<u32>,
    pub class: u32,
    pub bound: Bound,
}

impl Aimed {
    /// If all of it is within the limits.
    fn new(part: Vec<u32>, class: u32, theta: u64, q: (u64, u64)) -> Option<Aimed> {
        let bound = Bound::new(theta.try_into().ok()?, q.0 as u32, q.1 as u32);
        let good = bound.theta_within_limits() && count(&part) <= COUNT_LIMIT.into();
        good.then_some(Aimed { part, class, bound })
    }
}

/// Where in its bucketlet a run of entries stands.
#[derive(Clone, Copy, Debug, PartialEq, Eq)]
pub enum Place {
    First,
    Middle,
    Last,
}

pub const PLACES: [Place; 3] = [Place::First, Place::Middle, Place::Last];

/// A bucketlet of a width in which a run at a place goes as far as it may, and the same a hair farther, if the numbers
/// that were chosen give any.
pub type Aim = fn(&mut Random, u64, Place) -> Option<[Aimed; 2]>;

pub const AIMS: [Aim; 12] = [
    heavy,
    heavy_at_theta,
    heavy_at_q,
    light,
    light_at_theta,
    light_at_q,
    whole_above,
    whole_below,
    whole_above_and_later,
    whole_below_and_later,
    class_0,
    jostled,
];

/// A sum divided among so many entries as evenly as whole numbers can be.
fn spread(sum: u64, entries: u64) -> Vec<u32> {
    (0..entries).map(|place| (sum * (place + 1) / entries - sum * place / entries) as u32).collect()
}

/// All of a sum at the first and the last of so many entries.
fn at_ends(first: u64, last: u64, entries: u64) -> Vec<u32> {
    let mut part = vec![0; entries as usize];
    part[0] = first as u32;
    part[entries as usize - 1] += last as u32;
    part
}

/// A sum among so many entries: evenly, or with zeros between.
pub(super) fn shaped(shape: u64, sum: u64, entries: u64) -> Vec<u32> {
    match shape {
        0 => at_ends(sum.div_ceil(2), sum / 2, entries),
        1 => at_ends(sum.min(1), sum - sum.min(1), entries),
        2 => at_ends(sum - sum.min(1), sum.min(1), entries),
        _ => spread(sum, entries),
    }
}

pub(super) fn some_shape(random: &mut Random) -> u64 {
    random.below(6)
}

fn some_class(random: &mut Random) -> u32 {
    let class = random.between(3, LAST_CLASS.into()) as u32;
    random.pick(&[class, class, class, 1])
}

fn some_q(random: &mut Random) -> (u64, u64) {
    let (qn, qd) = any_q(random);
    random.pick(&[(qn.into(), qd.into()), (2, 1), (5, 4), (3, 2)])
}

/// The most that a theta may be, or less.
fn up_to(random: &mut Random, most: u64) -> u64 {
    let less = random.any_size(most.max(1));
    random.pick(&[most, most, less])
}

/// One of the divisors of a number that lie in a range.
fn some_divisor(random: &mut Random, number: u64, range: RangeInclusive<u64>) -> Option<u64> {
    let divisors: Vec<u64> = range.filter(|&divisor| number.is_multiple_of(divisor)).collect();
    (!divisors.is_empty()).then(|| random.pick(&divisors))
}

/// A run of n entries in a bucketlet of width w.
#[derive(Clone, Copy)]
struct Run {
    class: u32,
    s: u64,
    w: u64,
    n: u64,
    place: Place,
    shape: u64,
}

impl Run {
    /// One that leaves an entry beside it.
    fn any(random: &mut Random, w: u64, place: Place) -> Option<Run> {
        let class = some_class(random);
        let n = (w > 1).then(|| random.any_size(w - 1))?;
        Some(Run { class, s: class_number(class).into(), w, n, place, shape: some_shape(random) })
    }

    /// The bucketlet with so much in the run, and beside it what is left of the class's number.
    fn holding(self, inside: u64, theta: u64, q: (u64, u64)) -> Option<Aimed> {
        if inside > COUNT_LIMIT.into() {
            return None;
        }
        let beside = spread(self.s.saturating_sub(inside), self.w - self.n);
        let at = match self.place {
            Place::First => 0,
            Place::Middle => beside.len() / 2,
            Place::Last => beside.len(),
        };
        let run = shaped(self.shape, inside, self.n);
        Aimed::new([&beside[..at], &run, &beside[at..]].concat(), self.class, theta, q)
    }

    /// The run with a count and with the next one, each by the same theta and q.
    fn both(self, inside: u64, beyond: u64, theta: u64, q: (u64, u64)) -> Option<[Aimed; 2]> {
        Some([self.holding(inside, theta, q)?, self.holding(beyond, theta, q)?])
    }

    /// Its estimate as a fraction whose denominator may be a part of q.
    fn estimate(self, random: &mut Random) -> Option<(u64, u64)> {
        let numerator = self.n * self.s;
        let common = divisor(numerator, self.w);
        let most = u64::from(MOST_Q_PART) * common / self.w;
        let times = (most > 0).then(|| random.between(1, most))?;
        Some((times * numerator / common, times * self.w / common))
    }

    /// The largest theta that its estimate is above.
    fn theta_below(self) -> u64 {
        (self.n * self.s).div_ceil(self.w) - 1
    }
}

/// The largest count that q allows, with a theta that is no larger.
fn heavy(random: &mut Random, w: u64, place: Place) -> Option<[Aimed; 2]> {
    let (run, q) = (Run::any(random, w, place)?, some_q(random));
    let most = q.0 * run.n * run.s / (q.1 * w);
    run.both(most, most + 1, up_to(random, most), q)
}

/// A count that theta alone excuses.
fn heavy_at_theta(random: &mut Random, w: u64, place: Place) -> Option<[Aimed; 2]> {
    let (run, q) = (Run::any(random, w, place)?, some_q(random));
    let theta = q.0 * run.n * run.s / (q.1 * w) + 1 + random.below(1 + run.s / w);
    run.both(theta, theta + 1, theta, q)
}

/// A count of just q times the estimate.
fn heavy_at_q(random: &mut Random, w: u64, place: Place) -> Option<[Aimed; 2]> {
    let run = Run::any(random, w, place)?;
    let (numerator, qn) = run.estimate(random)?;
    let least = qn.div_ceil(MOST_Q.into());
    let qd = some_divisor(random, numerator, least..=4 * qn / 5)?;
    let inside = numerator / qd;
    run.both(inside, inside + 1, up_to(random, inside - 1), (qn, qd))
}

/// The least count that q allows for an estimate above theta.
fn light(random: &mut Random, w: u64, place: Place) -> Option<[Aimed; 2]> {
    let (run, q) = (Run::any(random, w, place)?, some_q(random));
    let least = (q.1 * run.n * run.s).div_ceil(q.0 * w);
    run.both(least, least.checked_sub(1)?, up_to(random, run.theta_below()), q)
}

/// Zeros with an estimate of just theta, and by a theta that is one less.
fn light_at_theta(random: &mut Random, w: u64, place: Place) -> Option<[Aimed; 2]> {
    let (run, q) = (Run::any(random, w, place)?, some_q(random));
    let step = w / divisor(w, run.s);
    let n = (step < w).then(|| step * random.any_size((w - 1) / step))?;
    let (run, theta) = (Run { n, ..run }, n * run.s / w);
    Some([run.holding(0, theta, q)?, run.holding(0, theta - 1, q)?])
}

/// An estimate of just q times the count.
fn light_at_q(random: &mut Random, w: u64, place: Place) -> Option<[Aimed; 2]> {
    let run = Run::any(random, w, place)?;
    let (numerator, qd) = run.estimate(random)?;
    let most = (u64::from(MOST_Q) * qd).min(MOST_Q_PART.into());
    let qn = some_divisor(random, numerator, (5 * qd).div_ceil(4)..=most)?;
    let inside = numerator / qn;
    run.both(inside, inside - 1, up_to(random, run.theta_below()), (qn, qd))
}

/// The largest count that q allows for the whole bucketlet, where theta excuses all else.
fn whole_above(random: &mut Random, w: u64, _: Place) -> Option<[Aimed; 2]> {
    let (class, q, shape) = (some_class(random), some_q(random), some_shape(random));
    let most = q.0 * u64::from(class_number(class)) / q.1;
    let theta = (most < MOST_THETA.into()).then(|| random.between(most + 1, MOST_THETA.into()))?;
    let whole = |count: u64| Aimed::new(shaped(shape, count, w), class, theta, q);
    Some([whole(most)?, whole(most + 1)?])
}

/// The least count that q allows for it.
fn whole_below(random: &mut Random, w: u64, _: Place) -> Option<[Aimed; 2]> {
    let (class, q, shape) = (some_class(random), some_q(random), some_shape(random));
    let s = u64::from(class_number(class));
    let least = (q.1 * s).div_ceil(q.0);
    let theta = (s <= MOST_THETA.into()).then(|| random.between(s, MOST_THETA.into()))?;
    let whole = |count: u64| Aimed::new(shaped(shape, count, w), class, theta, q);
    Some([whole(least)?, whole(least - 1)?])
}

/// The whole bucketlet at the largest count or beyond; without its last entry theta excuses it, and without its first,
/// which is 0, nothing does.
fn whole_above_and_later(random: &mut Random, w: u64, _: Place) -> Option<[Aimed; 2]> {
    let (class, q) = (some_class(random), some_q(random));
    let s = u64::from(class_number(class));
    let most = q.0 * s / q.1;
    if w < 2 || most >= MOST_THETA.into() {
        return None;
    }
    let last = if w == 2 { most } else { random.between(1, most) };
    let theta = random.between((most - last).max(s), most);
    let whole = |count: u64| {
        let between = spread(most - last, w - 2);
        Aimed::new([&[0], &between[..], &[(last + count - most) as u32]].concat(), class, theta, q)
    };
    Some([whole(most)?, whole(most + 1)?])
}

/// The same from below: the first entry holds all, and from the second on theta is too small for the estimate.
fn whole_below_and_later(random: &mut Random, w: u64, _: Place) -> Option<[Aimed; 2]> {
    let (class, q) = (some_class(random), some_q(random));
    let s = u64::from(class_number(class));
    let least = (q.1 * s).div_ceil(q.0);
    let without_last = (q.1 * (w - 1) * s).div_ceil(q.0 * w);
    let theta = ((w - 1) * s).div_ceil(w).checked_sub(1)?;
    if least <= without_last || theta < least {
        return None;
    }
    let whole = |count: u64| Aimed::new(at_ends(count, 0, w), class, theta, q);
    Some([whole(least)?, whole(least - 1)?])
}

/// Class 0 for zeros, and for one entry that is none.
fn class_0(random: &mut Random, w: u64, place: Place) -> Option<[Aimed; 2]> {
    let (q, theta, frequency) = (some_q(random), random.any_size(10), random.any_size(12) as u32);
    let mut part = vec![0; w as usize];
    let zeros = Aimed::new(part.clone(), 0, theta, q)?;
    let at = match place {
        Place::First => 0,
        Place::Middle => part.len() / 2,
        Place::Last => part.len() - 1,
    };
    part[at] = frequency;
    Some([zeros, Aimed::new(part, 0, theta, q)?])
}

/// An even bucketlet, and the same with some entries changed.
fn jostled(random: &mut Random, w: u64, _: Place) -> Option<[Aimed; 2]> {
    let (class, q) = (some_class(random), some_q(random));
    let s = u64::from(class_number(class));
    let (n, theta) = (random.between(1, w), random.any_size(MOST_THETA.into()));
    let theta = random.pick(&[theta, 5, n * s / w, n * s / w + 1]).clamp(1, MOST_THETA.into());
    let even = spread(s, w);
    let mut other = even.clone();
    for _ in 0..random.between(1, 3) {
        let (at, theta) = (random.place(&other), theta as u32);
        let f = even[at];
        other[at] = random.pick(&[0, f / 2, 2 * f, 2 * f + 1, f + theta, f.saturating_sub(theta)]);
    }
    Some([Aimed::new(even, class, theta, q)?, Aimed::new(other, class, theta, q)?])
}

/// A list and a histogram with the aimed bucketlet in it: its bucket, its place there and its first entry.
pub struct Placed {
    pub frequencies: Vec<u32>,
    pub histogram: Histogram,
    pub bucket: usize,
    pub place: usize,
    pub start: u32,
}

/// The most buckets that are made of an aimed bucketlet.
const MOST_BUCKETS: u64 = 4;

/// Puts a bucketlet at any place of any bucket. The others have one entry and fit; a total may fail.
pub fn placed(random: &mut Random, aimed: &Aimed) -> Placed {
    let Aimed { part, class, bound } = aimed;
    let room = (u64::from(COUNT_LIMIT) - count(part)) / (8 * MOST_BUCKETS);
    let (own, after) = (random.below(MOST_BUCKETS - 1), random.below(2));
    let mut frequencies: Vec<u32> = Vec::new();
    let (mut buckets, mut at) = (Vec::new(), (0, 0));
    for number in 0..=own + after {
        let start = frequencies.len();
        let mut bucket = Bucket::empty(start as u32, random.chance(1, 2));
        let free = part.len() > WIDEST_LISTED as usize;
        let place = if free { bucket.free() } else { random.below(8) as usize };
        for other in 0..8 {
            if other == place && number == own {
                at = (place, frequencies.len() as u32);
                (bucket.widths[place], bucket.classes[place]) = (part.len() as u32, *class);
                frequencies.extend(part);
            } else if other == place || random.chance(1, 2) {
                let frequency = if room > 0 { random.any_size(room.min(1_000)) } else { 0 };
                (bucket.widths[other], bucket.classes[other]) = (1, class_for(frequency));
                frequencies.push(frequency as u32);
            }
        }
        bucket.total = total_near(random, count(&frequencies[start..]), &bucket.classes, *bound);
        buckets.push(bucket);
    }
    let (place, start) = at;
    Placed { frequencies, histogram: Histogram::new(*bound, buckets), bucket: own as usize, place, start }
}
