//! Faults of the builder, some of which the listing program may have too.

use super::Fault::*;
use super::{holds_zero, Broken, RIGHT, SHORT};
use crate::build::{fault, grow, lay_out, lend};
use crate::coding::{class_for, class_in_use, class_number};
use crate::fits::first_failing;
use crate::generate::foreign::codes_within;
use crate::list::{count, Bound};
use crate::words::{write, Bucket, Histogram};

fn fits_at(rest: &[u32], width: usize, bound: Bound) -> bool {
    let part = &rest[..width];
    let s = class_number(class_for(count(part)));
    first_failing(part, s.into(), bound).is_none()
}

/// A width that fits, next to one that does not, but not the first such.
fn width_by_halving(rest: &[u32], limit: usize, bound: Bound) -> usize {
    let mut good = 1;
    while 2 * good <= limit && fits_at(rest, 2 * good, bound) {
        good *= 2;
    }
    let mut bad = (2 * good).min(limit + 1);
    while bad - good > 1 {
        let middle = (good + bad) / 2;
        if fits_at(rest, middle, bound) {
            good = middle;
        } else {
            bad = middle;
        }
    }
    good
}

/// Gives each bucketlet another class, where that fits as well.
fn recode_classes(frequencies: &[u32], bound: Bound, bucket: &mut Bucket, other: impl Fn(u32) -> u32) {
    let mut rest = &frequencies[bucket.start as usize..];
    for (class, &width) in bucket.classes.iter_mut().zip(&bucket.widths) {
        let (part, after) = rest.split_at(width as usize);
        rest = after;
        let fits = |class: u32| class_in_use(class) && first_failing(part, class_number(class).into(), bound).is_none();
        if *class > 0 && part.len() <= SHORT && fits(other(*class)) {
            *class = other(*class);
        }
    }
}

impl Broken {
    fn grow(&self, rest: &[u32], limit: usize, bound: Bound) -> usize {
        match self.fault {
            FittedByExactAverage if limit <= SHORT => {
                let fits = |&width: &usize| {
                    let part = &rest[..width];
                    first_failing(part, count(part), bound).is_none()
                };
                (1..=limit).take_while(fits).count()
            }
            WidthByHalving if limit <= SHORT => width_by_halving(rest, limit, bound),
            WiderQ => {
                let wider = Bound::new(bound.theta, 8 * bound.qn + bound.qd, 8 * bound.qd);
                grow(RIGHT.0, rest, limit, wider)
            }
            _ if self.is_of_a_start() => self.grown(rest, limit, bound),
            _ => grow(RIGHT.0, rest, limit, bound),
        }
    }

    /// Changes what is coded, but so that it is accepted still.
    fn recode(&self, frequencies: &[u32], bound: Bound, bucket: &mut Bucket) {
        let whole = &frequencies[bucket.start as usize..bucket.end() as usize];
        let codes = || codes_within(count(whole), bound);
        match self.fault {
            ClassHigherWithinQ => recode_classes(frequencies, bound, bucket, |class| class + 1),
            ClassLowerWithinQ => recode_classes(frequencies, bound, bucket, |class| class - 1),
            TotalHighestWithinQ => bucket.total = codes()[codes().len() - 1],
            TotalLowestWithinQ => bucket.total = codes()[0],
            _ => {}
        }
    }

    /// The histogram of a list; refusals 1, 3 to 5 and 24.
    pub(super) fn histogram(&self, frequencies: &[u32], bound: Bound) -> Result<Histogram, u32> {
        if self.fault == AboveEightBeforeTheList && bound.q_too_large() {
            return Err(24);
        }
        fault(frequencies, self.judged(bound))?;
        let mut buckets = lay_out(frequencies, |rest, limit| self.grow(rest, limit, bound));
        buckets.iter_mut().for_each(|bucket| self.recode(frequencies, bound, bucket));
        Ok(Histogram::new(bound, buckets))
    }

    pub(super) fn built(&self, frequencies: &[u32], bound: Bound, lent: &mut [u32]) -> Result<usize, u32> {
        if self.fault == ZeroFrequencyRefusedByBuilder && holds_zero(frequencies) {
            return Err(2);
        }
        let words = write(&self.histogram(frequencies, bound)?);
        if self.fault == WordsBeforeRefusal && !lent.is_empty() {
            lent[0] = words[0];
        }
        if self.fault == AboveEightAfter6 && bound.q_too_large() && words.len() <= lent.len() {
            return Err(24);
        }
        let number = lend(&words, lent).ok_or(6u32)?;
        if self.fault == RestCleared {
            lent[number..].fill(0);
        }
        Ok(number)
    }
}
