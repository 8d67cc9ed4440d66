//! "Asking", the estimator: one exact sum, rounded up once, and 1 where it is 0 and the range is not empty.

use crate::coding::{class_number, code_number};
use crate::words::{read, Bucket, Histogram};

/// A fraction of whole numbers. A range cuts at most two bucketlets, so the denominator stays
/// below 4,096 squared.
#[derive(Clone, Copy, Debug, PartialEq, Eq)]
pub struct Fraction {
    pub numerator: u128,
    pub denominator: u128,
}

impl Fraction {
    fn add(&mut self, numerator: u64, denominator: u64) {
        let (a, b) = (u128::from(numerator), u128::from(denominator));
        if b == 1 {
            self.numerator += a * self.denominator;
        } else {
            self.numerator = self.numerator * b + a * self.denominator;
            self.denominator *= b;
        }
    }

    pub fn rounded_up(self) -> u64 {
        self.numerator.div_ceil(self.denominator) as u64
    }
}

/// The sum for a range that lies within the list, not yet rounded.
pub fn exact(histogram: &Histogram, x: u32, y: u32) -> Fraction {
    exact_of(&histogram.buckets, x, y)
}

/// What some buckets give to it.
pub fn exact_of(buckets: &[Bucket], x: u32, y: u32) -> Fraction {
    let mut sum = Fraction { numerator: 0, denominator: 1 };
    let wholly_inside = |start: u32, end: u32| x <= start && end <= y;
    for bucket in buckets {
        let (start, end) = (bucket.start, bucket.end());
        if y <= start || end <= x {
            continue;
        }
        if wholly_inside(start, end) {
            sum.add(code_number(bucket.total).into(), 1);
            continue;
        }
        for (start, end, class) in bucket.bucketlets() {
            let s = u64::from(class_number(class));
            if wholly_inside(start, end) {
                sum.add(s, 1);
            } else if x.max(start) < y.min(end) {
                let n = y.min(end) - x.max(start);
                sum.add(u64::from(n) * s, u64::from(end - start));
            }
        }
    }
    sum
}

/// Whether a range lies within the list, which 14 and 21 ask.
pub fn lies_within(histogram: &Histogram, x: u32, y: u32) -> bool {
    x <= y && y <= histogram.head.d
}

/// The refusals of reading, then 14.
pub fn asked(words: &[u32], x: u32, y: u32) -> Result<Histogram, u32> {
    let histogram = read(words)?;
    lies_within(&histogram, x, y).then_some(histogram).ok_or(14)
}

/// The estimate of a range that lies within the list. Only the empty range is estimated at 0.
pub fn answered(histogram: &Histogram, x: u32, y: u32) -> u64 {
    let least = u64::from(x < y);
    exact(histogram, x, y).rounded_up().max(least)
}

pub fn estimate(words: &[u32], x: u32, y: u32) -> Result<u64, u32> {
    let histogram = asked(words, x, y)?;
    Ok(answered(&histogram, x, y))
}
