//! "Building": the builder, with four ways to grow a bucketlet that must agree.

use crate::coding::{class_for, class_number, code_for};
use crate::fits::first_failing;
use crate::list::{count, list_fault, Bound};
use crate::lowest::Kept;
use crate::words::{write, Bucket, Histogram, WIDEST_FREE, WIDEST_LISTED};

/// How a bucketlet's width is found.
#[derive(Clone, Copy, Debug, PartialEq, Eq)]
pub enum Way {
    /// Straight from the rule: each width tries every range anew.
    Rule,
    /// The paper's Figure 6 in whole numbers: each width adds the ranges that end there.
    Figure6,
    /// The same without the ranges that two shorter ones answer for.
    FewerRanges,
    /// One start for each bound tells whether any range that ends there moves it.
    LowestStart,
}

pub const WAYS: [Way; 4] = [Way::Rule, Way::Figure6, Way::FewerRanges, Way::LowestStart];

/// The largest width up to the limit such that every width up to it fits.
pub fn grow(way: Way, rest: &[u32], limit: usize, bound: Bound) -> usize {
    match way {
        Way::Rule => grow_by_rule(rest, limit, bound),
        Way::Figure6 => grow_by_slopes(rest, limit, bound, add_every_range),
        Way::FewerRanges => grow_by_slopes(rest, limit, bound, add_fewer_ranges),
        Way::LowestStart => grow_by_lowest(rest, limit, bound),
    }
}

fn grow_by_rule(rest: &[u32], limit: usize, bound: Bound) -> usize {
    let fits = |width: usize| {
        let part = &rest[..width];
        let s = class_number(class_for(count(part)));
        first_failing(part, s.into(), bound).is_none()
    };
    (1..=limit).take_while(|&width| fits(width)).count()
}

/// What the ranges met so far ask of s/w: at least f/(q n) if f is above theta, and at most
/// the larger of theta and q f, over n. Only the strictest of each is kept, times q's parts.
struct Slopes {
    theta: u64,
    qn: u64,
    qd: u64,
    least: (u64, u64),
    most: (u64, u64),
}

impl Slopes {
    fn new(bound: Bound) -> Slopes {
        Slopes { theta: bound.theta.into(), qn: bound.qn.into(), qd: bound.qd.into(), least: (0, 1), most: (1, 0) }
    }

    fn add(&mut self, f: u64, n: u64) {
        if f > self.theta && f * self.least.1 > self.least.0 * n {
            self.least = (f, n);
        }
        let u = (self.qd * self.theta).max(self.qn * f);
        if u * self.most.1 < self.most.0 * n {
            self.most = (u, n);
        }
    }

    fn allow(&self, s: u64, w: u64) -> bool {
        self.qd * self.least.0 * w <= self.qn * s * self.least.1 && self.qd * self.most.1 * s <= self.most.0 * w
    }
}

/// Adds the ranges that end where the part ends.
fn add_every_range(slopes: &mut Slopes, part: &[u32]) {
    let mut f = 0;
    for (n, &frequency) in (1..).zip(part.iter().rev()) {
        f += u64::from(frequency);
        slopes.add(f, n);
    }
}

fn add_fewer_ranges(slopes: &mut Slopes, part: &[u32]) {
    let mut f = 0;
    let mut first_above_theta = None;
    for (n, &frequency) in (1..).zip(part.iter().rev()) {
        f += u64::from(frequency);
        // This range and all longer ones split into two whose counts are above theta.
        if first_above_theta.is_some_and(|first| f > first + slopes.theta) {
            break;
        }
        slopes.add(f, n);
        if f > slopes.theta {
            first_above_theta = first_above_theta.or(Some(f));
        }
    }
}

fn grow_by_slopes(rest: &[u32], limit: usize, bound: Bound, add_ranges: fn(&mut Slopes, &[u32])) -> usize {
    let mut slopes = Slopes::new(bound);
    grow_while(rest, limit, bound, |part, s| {
        add_ranges(&mut slopes, part);
        slopes.allow(s, part.len() as u64)
    })
}

fn grow_by_lowest(rest: &[u32], limit: usize, bound: Bound) -> usize {
    let mut kept = Kept::new(bound);
    grow_while(rest, limit, bound, |part, s| {
        kept.take(part[part.len() - 1]);
        kept.allow(s, part.len() as u64)
    })
}

/// The last width up to which each one's parts are allowed, in turn, and its whole is within q.
pub fn grow_while(rest: &[u32], limit: usize, bound: Bound, mut allowed: impl FnMut(&[u32], u64) -> bool) -> usize {
    let mut whole = 0;
    for end in 1..=limit {
        whole += u64::from(rest[end - 1]);
        let s = u64::from(class_number(class_for(whole)));
        if !(allowed(&rest[..end], s) && bound.within_q(whole, s)) {
            return end - 1;
        }
    }
    limit
}

/// The buckets of a list; `grow` finds a width from the rest of the list and a limit.
pub fn lay_out(frequencies: &[u32], grow: impl Fn(&[u32], usize) -> usize) -> Vec<Bucket> {
    let mut buckets: Vec<Bucket> = Vec::new();
    let mut at = 0;
    while at < frequencies.len() {
        let bucket = next_bucket(frequencies, at, &grow);
        at = bucket.end() as usize;
        buckets.push(bucket);
    }
    buckets
}

fn next_bucket(frequencies: &[u32], start: usize, grow: impl Fn(&[u32], usize) -> usize) -> Bucket {
    let mut bucket = Bucket::empty(start as u32, true);
    let mut at = start;
    for place in 0..8 {
        let rest = &frequencies[at..];
        if rest.is_empty() {
            break;
        }
        let free = place == 0 || place == bucket.free();
        let widest = if free { WIDEST_FREE } else { WIDEST_LISTED };
        let width = grow(rest, rest.len().min(widest as usize));
        if place == 0 {
            bucket.eighth_free = width <= WIDEST_LISTED as usize;
        }
        bucket.widths[place] = width as u32;
        bucket.classes[place] = class_for(count(&rest[..width]));
        at += width;
    }
    bucket.total = code_for(count(&frequencies[start..at]));
    bucket
}

/// Refusals 1, 3 to 5 and 24.
pub fn fault(frequencies: &[u32], bound: Bound) -> Result<(), u32> {
    list_fault(frequencies)?;
    if !bound.theta_within_limits() {
        return Err(4);
    }
    if !bound.q_within_limits() {
        return Err(5);
    }
    if bound.q_too_large() {
        return Err(24);
    }
    Ok(())
}

/// The histogram of a list.
pub fn histogram(way: Way, frequencies: &[u32], bound: Bound) -> Result<Histogram, u32> {
    fault(frequencies, bound)?;
    let buckets = lay_out(frequencies, |rest, limit| grow(way, rest, limit, bound));
    Ok(Histogram::new(bound, buckets))
}

/// Writes a list to the start of a lent one and answers its length, if that is long enough.
pub fn lend<T: Copy>(list: &[T], lent: &mut [T]) -> Option<usize> {
    lent.get_mut(..list.len())?.copy_from_slice(list);
    Some(list.len())
}

/// Builds into a lent list; refusals 1, 3 to 5, 24 and 6.
pub fn build(way: Way, frequencies: &[u32], bound: Bound, lent: &mut [u32]) -> Result<usize, u32> {
    lend(&write(&histogram(way, frequencies, bound)?), lent).ok_or(6)
}
