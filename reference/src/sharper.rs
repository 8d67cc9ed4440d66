//! Request (vi) of document 02: what the builder's histograms keep to on the lists that they were built from. Their
//! whole bucketlets and whole buckets are within 5/4 of their counts. And for a whole k of at least 3, if the true
//! count of a range or its answer is above k theta, the two are within the larger of 5k/(4(k - 2)) and q k/(k - 1) of
//! each other, the answer less the one for rounding. Neither is said of other histograms, though they be accepted.

use crate::coding::{class_number, code_number};
use crate::demand::{Pair, Side, Used, SIDES};
use crate::fits::Sort;
use crate::list::{count, Bound};
use crate::words::Histogram;

/// Keeps all products within 128 bits, whatever is answered; no count within the limit has so large a k.
const MOST_K: u64 = 1 << 32;

/// What the factor is the larger of.
#[derive(Clone, Copy, Debug, PartialEq, Eq)]
pub enum Half {
    /// 5k/(4(k - 2)), for two cuts that theta excuses.
    TwoExcused,
    /// q k/(k - 1), for one.
    OneExcused,
}

pub const HALVES: [Half; 2] = [Half::TwoExcused, Half::OneExcused];

/// Count over answer, or answer less one over count, as a share of a numerator and a denominator.
fn share((numerator, denominator): (u128, u128), pair: Pair, side: Side) -> Used {
    let (a, b) = match side {
        Side::Count => (pair.count, pair.estimate),
        Side::Estimate => (pair.estimate.saturating_sub(1), pair.count),
    };
    Used { numerator: u128::from(a) * denominator, denominator: u128::from(b) * numerator }
}

/// The rule for one k of at least 3.
#[derive(Clone, Copy, Debug, PartialEq, Eq)]
pub struct Sharper {
    pub bound: Bound,
    pub k: u64,
}

impl Sharper {
    /// Numerator and denominator.
    fn fraction(self, half: Half) -> (u128, u128) {
        let [qn, qd, k] = [self.bound.qn.into(), self.bound.qd.into(), self.k].map(u128::from);
        match half {
            Half::TwoExcused => (5 * k, 4 * (k - 2)),
            Half::OneExcused => (qn * k, qd * (k - 1)),
        }
    }

    /// The larger half, which is the factor, and the other one.
    pub fn halves(self) -> [Half; 2] {
        let [two, one] = HALVES.map(|half| self.fraction(half));
        let mut halves = HALVES;
        if two.0 * one.1 < one.0 * two.1 {
            halves.reverse();
        }
        halves
    }

    /// Numerator and denominator.
    pub fn factor(self) -> (u128, u128) {
        self.fraction(self.halves()[0])
    }

    /// Whether the rule speaks of a range.
    pub fn applies(self, pair: Pair) -> bool {
        pair.count.max(pair.estimate) > self.k * u64::from(self.bound.theta)
    }

    /// Count over answer, or answer less one over count, as a share of the factor.
    pub fn used(self, pair: Pair, side: Side) -> Used {
        share(self.factor(), pair, side)
    }

    /// Whether a range goes beyond what one half would allow alone.
    pub fn goes_beyond(self, half: Half, pair: Pair, side: Side) -> bool {
        share(self.fraction(half), pair, side).is_above_all()
    }

    /// Whether a range goes beyond what the smaller half and q itself would allow. Without a cut that theta excuses,
    /// none goes beyond q.
    pub fn needs_larger_half(self, pair: Pair, side: Side) -> bool {
        let q = (self.bound.qn.into(), self.bound.qd.into());
        self.goes_beyond(self.halves()[1], pair, side) && share(q, pair, side).is_above_all()
    }

    /// The answer's share is below 1, and the count's at most 1.
    pub fn holds(self, pair: Pair) -> bool {
        let [count, estimate] = SIDES.map(|side| self.used(pair, side));
        !count.is_above_all() && estimate.numerator < estimate.denominator
    }

    /// The factor, for printing.
    pub fn promise(self) -> f64 {
        let (numerator, denominator) = self.factor();
        numerator as f64 / denominator as f64
    }
}

/// The rule for the largest k for which it speaks of a range, if that is at least 3. It asks for most, since both
/// fractions, and so the larger of them, fall as k grows.
pub fn strictest(bound: Bound, pair: Pair) -> Option<Sharper> {
    let reached = pair.count.max(pair.estimate).saturating_sub(1);
    let k = (reached / u64::from(bound.theta)).min(MOST_K);
    (k >= 3).then_some(Sharper { bound, k })
}

/// A whole bucketlet that is not empty or a whole bucket, with its true count and the number that stands for it.
#[derive(Clone, Copy, Debug, PartialEq, Eq)]
pub struct Whole {
    pub sort: Sort,
    pub start: u32,
    pub end: u32,
    pub count: u64,
    pub number: u64,
}

impl Whole {
    /// Neither number is more than 5/4 of the other.
    pub fn within_five_quarters(self) -> bool {
        4 * self.count <= 5 * self.number && 4 * self.number <= 5 * self.count
    }
}

/// The bucketlets and the bucket of each bucket of a histogram of a list.
pub fn wholes<'a>(frequencies: &'a [u32], histogram: &'a Histogram) -> impl Iterator<Item = Whole> + 'a {
    let whole = |sort: Sort, start: u32, end: u32, number: u32| {
        let count = count(&frequencies[start as usize..end as usize]);
        Whole { sort, start, end, count, number: number.into() }
    };
    histogram.buckets.iter().flat_map(move |bucket| {
        let bucketlet = move |(start, end, class)| whole(Sort::Bucketlet, start, end, class_number(class));
        let all = whole(Sort::Bucket, bucket.start, bucket.end(), code_number(bucket.total));
        bucket.bucketlets().map(bucketlet).chain([all])
    })
}

/// The first one that is off by more than 5/4.
pub fn first_beyond(frequencies: &[u32], histogram: &Histogram) -> Option<Whole> {
    wholes(frequencies, histogram).find(|whole| !whole.within_five_quarters())
}
