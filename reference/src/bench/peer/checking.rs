//! The checker: the ranges of every bucketlet, then the total.

use super::coding::{class_number, code_number};
use super::reading::{decode, read, with_ends};
use super::{Quality, Ranges};
use crate::check::Verdict;
use crate::fits::Sort;
use crate::list::{count, list_fault};

/// Whether neither the count nor x / w is more than q times the other.
#[inline]
fn near(q: Quality, count: u64, x: u64, w: u64) -> bool {
    let scaled = count * w;
    q.qd * scaled <= q.qn * x && q.qd * x <= q.qn * scaled
}

#[inline]
fn good(q: Quality, count: u64, n: u64, s: u64, w: u64) -> bool {
    let x = n * s;
    (n != w && count <= q.theta && x <= q.theta * w) || near(q, count, x, w)
}

/// A measure of a range: so much for each of its count and so much for each of its entries.
#[derive(Clone, Copy)]
struct Measure {
    count: u64,
    entry: u64,
}

impl Measure {
    #[inline]
    fn of_entry(self, frequency: u32) -> u64 {
        self.count * u64::from(frequency) + self.entry
    }
}

/// A range breaks it if its measure `over` is above `least` and above its measure `under`.
#[derive(Clone, Copy)]
struct Bound {
    over: Measure,
    under: Measure,
    least: u64,
}

/// A point between entries, with the measure `over` of those before it and the measure `under` of those after it.
#[derive(Clone, Copy)]
struct Point {
    at: usize,
    over: u64,
    under: u64,
}

impl Point {
    #[inline]
    fn earlier(self, part: &[u32], bound: Bound) -> Point {
        let at = self.at - 1;
        let over = self.over - bound.over.of_entry(part[at]);
        Point { at, over, under: self.under + bound.under.of_entry(part[at]) }
    }

    #[inline]
    fn height(self) -> u64 {
        self.over + self.under
    }
}

/// The first start of a range that breaks a bound, or the width. Going from the last start to the first, the ends that
/// are far from it grow in number, and the greatest height among them tells whether one of its ranges breaks the bound.
#[inline]
fn first_break(part: &[u32], bound: Bound, count: u64) -> usize {
    let width = part.len();
    let over = bound.over.count * count + bound.over.entry * width as u64;
    let mut start = Point { at: width, over, under: 0 };
    let (mut last, mut highest, mut first) = (start, 0, width);
    while start.at > 0 {
        start = start.earlier(part, bound);
        while start.over + bound.least < last.over {
            highest = highest.max(last.height());
            last = last.earlier(part, bound);
        }
        if start.height() < highest {
            first = start.at;
        }
    }
    first
}

/// The first start of a range that does not fit, or the width: its count is above theta and more than q times its
/// estimate, or its estimate above theta and more than q times its count, all times the width.
#[inline]
fn first_unfit(part: &[u32], q: Quality, s: u64, count: u64) -> usize {
    let w = part.len() as u64;
    let least = q.qd * q.theta * w;
    let counts = |times: u64| Measure { count: times * w, entry: 0 };
    let estimates = |times: u64| Measure { count: 0, entry: times * s };
    let by_count = first_break(part, Bound { over: counts(q.qd), under: estimates(q.qn), least }, count);
    let by_estimate = first_break(part, Bound { over: estimates(q.qd), under: counts(q.qn), least }, count);
    by_count.min(by_estimate)
}

/// The first start of a failing range, or the width. The whole bucketlet is the last range of the first start, and the
/// only one of a single entry.
#[inline]
fn first_start(part: &[u32], q: Quality, s: u64) -> usize {
    let (width, w) = (part.len(), part.len() as u64);
    let count = count(part);
    if !near(q, count, w * s, w) {
        return 0;
    }
    if width < 2 {
        return width;
    }
    first_unfit(part, q, s, count)
}

/// The first failing range of a bucketlet, by start and then by end.
fn first_failing<const EVERY: bool>(part: &[u32], q: Quality, s: u64) -> Option<(usize, usize)> {
    let w = part.len() as u64;
    let begin = if EVERY { 0 } else { first_start(part, q, s) };
    for start in begin..part.len() {
        let mut count = 0;
        for (n, &frequency) in (1..).zip(&part[start..]) {
            count += u64::from(frequency);
            if !good(q, count, n, s, w) {
                return Some((start, start + n as usize));
            }
        }
    }
    None
}

/// Refusals 1 and 3, those of reading, then 13; then what fails first.
pub fn check(ranges: Ranges, frequencies: &[u32], words: &[u32]) -> Result<Verdict, u32> {
    match ranges {
        Ranges::Fewer => verdict::<false>(frequencies, words),
        Ranges::Every => verdict::<true>(frequencies, words),
    }
}

fn verdict<const EVERY: bool>(frequencies: &[u32], words: &[u32]) -> Result<Verdict, u32> {
    list_fault(frequencies)?;
    let (head, fives) = read(words)?;
    if frequencies.len() != head.d as usize {
        return Err(13);
    }
    let q = Quality::from(head.bound);
    for (five, end) in with_ends(fives, head.d) {
        let bucket = decode(five, end);
        let start = bucket.start;
        let mut at = start;
        for (&width, &class) in bucket.widths.iter().zip(&bucket.classes) {
            let part = &frequencies[at as usize..(at + width) as usize];
            if let Some((from, to)) = first_failing::<EVERY>(part, q, class_number(class).into()) {
                let sort = if to - from == part.len() { Sort::Bucketlet } else { Sort::Part };
                return Ok(Verdict::Fails { sort, start: at + from as u32, end: at + to as u32 });
            }
            at += width;
        }
        let total = count(&frequencies[start as usize..end as usize]);
        if !near(q, total, code_number(bucket.total).into(), 1) {
            return Ok(Verdict::Fails { sort: Sort::Bucket, start, end });
        }
    }
    Ok(Verdict::Accepted)
}
