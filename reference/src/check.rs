//! "Asking", the checker: the ranges of every bucketlet, by two ways that must agree, then the totals.

use crate::coding::{class_number, code_number};
use crate::fits::{self, Failing, Sort};
use crate::list::{count, list_fault, Bound};
use crate::pass;
use crate::words::{read, Histogram};

#[derive(Clone, Copy, Debug, PartialEq, Eq)]
pub enum Verdict {
    Accepted,
    Fails { sort: Sort, start: u32, end: u32 },
}

/// How the first failing range of a bucketlet is found.
#[derive(Clone, Copy, Debug, PartialEq, Eq)]
pub enum Way {
    /// Straight from the rule: every pair of ends.
    EveryPair,
    /// By a pass from the right that finds its start.
    Pass,
}

pub const WAYS: [Way; 2] = [Way::EveryPair, Way::Pass];

/// Straight from the rule: refusals 1 and 3, those of reading, then 13; then what fails first.
pub fn check(frequencies: &[u32], words: &[u32]) -> Result<Verdict, u32> {
    check_by(Way::EveryPair, frequencies, words)
}

pub fn check_by(way: Way, frequencies: &[u32], words: &[u32]) -> Result<Verdict, u32> {
    let histogram = readable(frequencies, words)?;
    Ok(match way {
        Way::EveryPair => verdict(frequencies, &histogram, fits::first_failing),
        Way::Pass => verdict(frequencies, &histogram, pass::first_failing),
    })
}

pub fn readable(frequencies: &[u32], words: &[u32]) -> Result<Histogram, u32> {
    list_fault(frequencies)?;
    let histogram = read(words)?;
    if frequencies.len() != histogram.head.d as usize {
        return Err(13);
    }
    Ok(histogram)
}

/// The verdict, with `first_failing` for the ranges of one bucketlet.
pub fn verdict(
    frequencies: &[u32],
    histogram: &Histogram,
    first_failing: impl Fn(&[u32], u64, Bound) -> Option<Failing>,
) -> Verdict {
    let bound = histogram.head.bound;
    let part = |start: u32, end: u32| &frequencies[start as usize..end as usize];
    for bucket in &histogram.buckets {
        for (start, end, class) in bucket.bucketlets() {
            let s = class_number(class).into();
            if let Some((from, to, sort)) = first_failing(part(start, end), s, bound) {
                return Verdict::Fails { sort, start: start + from as u32, end: start + to as u32 };
            }
        }
        let (start, end) = (bucket.start, bucket.end());
        if !bound.within_q(count(part(start, end)), code_number(bucket.total).into()) {
            return Verdict::Fails { sort: Sort::Bucket, start, end };
        }
    }
    Verdict::Accepted
}
