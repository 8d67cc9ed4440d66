//! Faults of the checker, the estimator and the finder.

use super::slips::stored_bound;
use super::Fault::*;
use super::{holds_zero, Broken, RIGHT, SHORT};
use crate::check::{readable, verdict, Verdict};
use crate::coding::{code_for, code_number};
use crate::estimate::{asked, exact};
use crate::fits::{first_failing, Failing, Sort};
use crate::list::{count, Bound};
use crate::program::{Program, QhFound};
use crate::words::{read, Bucket, Histogram, HEADS, PER_BUCKET};

/// The first failing one of some ranges, where n entries are estimated at a fraction.
fn first_failing_of(
    mut ranges: impl Iterator<Item = (usize, usize)>,
    part: &[u32],
    bound: Bound,
    estimate: impl Fn(u64) -> (u64, u64),
) -> Option<Failing> {
    let whole = |start: usize, end: usize| end - start == part.len();
    let fails = |&(start, end): &(usize, usize)| {
        let f = count(&part[start..end]);
        let (numerator, denominator) = estimate((end - start) as u64);
        match whole(start, end) {
            true => !bound.within_q(f * denominator, numerator),
            false => !bound.fits(f, 1, numerator, denominator),
        }
    };
    let (start, end) = ranges.find(fails)?;
    Some((start, end, if whole(start, end) { Sort::Bucketlet } else { Sort::Part }))
}

fn first_failing_by_end(part: &[u32], s: u64, bound: Bound) -> Option<Failing> {
    let w = part.len();
    let by_end = (1..=w).flat_map(|end| (0..end).map(move |start| (start, end)));
    first_failing_of(by_end, part, bound, |n| (n * s, w as u64))
}

/// With class 0, every range is estimated at the 1 that the estimator answers.
fn first_failing_with_1(part: &[u32], bound: Bound) -> Option<Failing> {
    let w = part.len();
    let by_start = (0..w).flat_map(|start| (start + 1..=w).map(move |end| (start, end)));
    first_failing_of(by_start, part, bound, |_| (1, 1))
}

/// Class 0 becomes class 1 where the width is not 0.
fn class_0_as_1(bucket: &mut Bucket) {
    for (class, &width) in bucket.classes.iter_mut().zip(&bucket.widths) {
        *class = (*class).max(width.min(1));
    }
}

/// Each class becomes the one below it.
fn classes_below(bucket: &mut Bucket) {
    bucket.classes = bucket.classes.map(|class| class.saturating_sub(1));
}

/// The words with a valid code in place of code 0, if it is taken beside the second word of its bucket.
fn with_code_0_taken(words: &[u32], taken: impl Fn(u32) -> bool) -> Vec<u32> {
    let mut words = words.to_vec();
    for third in (HEADS + 2..words.len()).step_by(PER_BUCKET) {
        if words[third] & 0xFFF == 0 && taken(words[third - 1]) {
            words[third] |= code_for(1);
        }
    }
    words
}

impl Broken {
    pub(super) fn checked(&self, frequencies: &[u32], words: &[u32]) -> Result<Verdict, u32> {
        if self.fault == ZeroFrequencyRefusedByChecker && holds_zero(frequencies) {
            return Err(2);
        }
        let stored = stored_bound(words);
        if self.fault == AboveEightBeforeTheList && stored.is_some_and(Bound::q_too_large) {
            return Err(24);
        }
        let judged = self.judged_words(words, |words| RIGHT.check(frequencies, words).refusal);
        let mut histogram = readable(frequencies, &judged)?;
        // What fits is a matter of the q that is stored.
        histogram.head.bound = stored.expect("words that are read have a head");
        let answer = verdict(frequencies, &histogram, |part, s, bound| match self.fault {
            ByEndThenStart if part.len() <= SHORT => first_failing_by_end(part, s, bound),
            JudgedWithThe1 if part.len() <= SHORT && s == 0 => first_failing_with_1(part, bound),
            WholeExcused if count(part).max(s) <= bound.theta.into() => {
                first_failing(part, s, bound).filter(|failing| failing.2 == Sort::Part)
            }
            _ if self.is_of_a_pass() => self.passed(part, s, bound),
            _ => first_failing(part, s, bound),
        });
        Ok(match answer {
            Verdict::Fails { sort: Sort::Bucket, .. } if self.fault == TotalsNotChecked => Verdict::Accepted,
            _ => answer,
        })
    }

    pub(super) fn estimated(&self, words: &[u32], x: u32, y: u32) -> Result<u64, u32> {
        let judged = self.judged_words(words, |words| RIGHT.estimate(words, x, y).refusal);
        let histogram = self.as_read(asked(&judged, x, y)?);
        Ok(self.estimate_of(&histogram, x, y))
    }

    /// A histogram as those who estimate by it take it.
    pub(super) fn as_read(&self, mut histogram: Histogram) -> Histogram {
        match self.fault {
            Class0EstimatedAt1 => histogram.buckets.iter_mut().for_each(class_0_as_1),
            ClassBelowRead => histogram.buckets.iter_mut().for_each(classes_below),
            _ => {}
        }
        histogram
    }

    /// The estimate of a range that lies within the list.
    pub(super) fn estimate_of(&self, histogram: &Histogram, x: u32, y: u32) -> u64 {
        let rounded = self.rounded(histogram, x, y);
        match self.fault {
            SumOf0AnsweredWith0 => rounded,
            EmptyRangeAnsweredWith1 => rounded.max(1),
            _ => rounded.max(u64::from(x < y)),
        }
    }

    /// The same of a range that should perhaps have been refused: it is cut off.
    pub(super) fn estimate_cut_off(&self, histogram: &Histogram, (x, y): (u32, u32)) -> u64 {
        let y = y.min(histogram.head.d);
        self.estimate_of(histogram, x.min(y), y)
    }

    pub(super) fn rounded(&self, histogram: &Histogram, x: u32, y: u32) -> u64 {
        let sum = exact(histogram, x, y);
        let bucketlets = histogram.buckets.iter().flat_map(|bucket| bucket.bucketlets());
        let mut holding_x = bucketlets.filter(|&(start, end, _)| start < x && x < end && end < y);
        match (self.fault, holding_x.next()) {
            (RoundedDown, _) => (sum.numerator / sum.denominator) as u64,
            (DifferenceOfTwo, _) => {
                exact(histogram, 0, y).rounded_up().saturating_sub(exact(histogram, 0, x).rounded_up())
            }
            (CutBucketsByTotal, _) => {
                let touched = histogram.buckets.iter().filter(|bucket| x < y && bucket.start < y && x < bucket.end());
                touched.map(|bucket| u64::from(code_number(bucket.total))).sum()
            }
            (EachCutRounded, Some((_, cut, _))) => {
                exact(histogram, x, cut).rounded_up() + exact(histogram, cut, y).rounded_up()
            }
            _ => sum.rounded_up(),
        }
    }

    pub(super) fn found(&self, words: &[u32], entry: u32) -> QhFound {
        let words = &match self.fault {
            Code0AlwaysValid => with_code_0_taken(words, |_| true),
            Code0BesideLastClasses => with_code_0_taken(words, |second| second << 2 == 0),
            _ => self.judged_words(words, |words| RIGHT.find(words, entry).refusal),
        };
        if read(words).is_ok_and(|histogram| histogram.buckets.iter().any(|bucket| self.refuses(bucket))) {
            return Err(12).into();
        }
        let found = RIGHT.find(words, entry);
        if self.fault == FoundOneLate && found.refusal == 0 {
            return RIGHT.find(words, entry.saturating_sub(1));
        }
        found
    }

    /// Whether 12 is said of a bucket that reads well.
    fn refuses(&self, bucket: &Bucket) -> bool {
        match self.fault {
            Class0AtAWidthRefused => bucket.bucketlets().any(|(_, _, class)| class == 0),
            Code0NeverValid => bucket.total == 0,
            OnlyCode0BesideClasses0 => bucket.classes == [0; 8] && bucket.total > 0,
            _ => false,
        }
    }
}
