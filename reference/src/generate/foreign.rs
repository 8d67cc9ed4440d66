//! Histograms that the builder would not make: other boundaries, classes, totals and flags,
//! and empty bucketlets and class 0 anywhere.

use super::Random;
use crate::coding::{class_in_use, class_number, code_number, number_of_total, LAST_CLASS};
use crate::fits::first_failing;
use crate::list::{count, Bound};
use crate::words::{Bucket, Histogram, WIDEST_FREE, WIDEST_LISTED};
use std::ops::Range;
use std::sync::OnceLock;

/// A histogram that reads well and may or may not be accepted.
pub fn wild(random: &mut Random, frequencies: &[u32], bound: Bound) -> Histogram {
    let total = |random: &mut Random, f: u64, classes: &[u32]| total_near(random, f, classes, bound);
    assemble(random, frequencies, bound, total, |random, rest, widest| {
        let width = random.any_size(rest.len().min(widest) as u64) as usize;
        (width, class_near(random, count(&rest[..width]), bound))
    })
}

/// A histogram whose every bucketlet and total fits, so that it is accepted.
pub fn fitting(random: &mut Random, frequencies: &[u32], bound: Bound) -> Histogram {
    let total = |random: &mut Random, f: u64, _: &[u32]| end_or_any(random, codes_within(f, bound));
    assemble(random, frequencies, bound, total, |random, rest, widest| {
        let mut width = random.between(1, rest.len().min(widest) as u64) as usize;
        loop {
            let part = &rest[..width];
            let mut classes = classes_within(count(part), bound);
            classes.retain(|&class| first_failing(part, class_number(class).into(), bound).is_none());
            if !classes.is_empty() {
                return (width, end_or_any(random, &classes));
            }
            width = width.div_ceil(2);
        }
    })
}

/// Lays out buckets with the totals, widths and classes that the two functions find, at places
/// of its own.
fn assemble(
    random: &mut Random,
    frequencies: &[u32],
    bound: Bound,
    total: impl Fn(&mut Random, u64, &[u32]) -> u32,
    bucketlet: impl Fn(&mut Random, &[u32], usize) -> (usize, u32),
) -> Histogram {
    let mut buckets = Vec::new();
    let mut at = 0;
    // How often a place stays empty is a matter of the histogram.
    let gaps = random.below(4);
    while at < frequencies.len() {
        let start = at;
        let mut bucket = Bucket::empty(start as u32, random.chance(1, 2));
        for place in 0..8 {
            let rest = &frequencies[at..];
            let last_chance = place == 7 && at == start;
            if rest.is_empty() || (!last_chance && random.chance(gaps, 5)) {
                continue;
            }
            let free = place == bucket.free();
            let widest = if free { WIDEST_FREE } else { WIDEST_LISTED };
            let (width, class) = bucketlet(random, rest, widest as usize);
            (bucket.widths[place], bucket.classes[place]) = (width as u32, class);
            at += width;
        }
        bucket.total = total(random, count(&frequencies[start..at]), &bucket.classes);
        buckets.push(bucket);
    }
    Histogram::new(bound, buckets)
}

/// The classes whose number lies within q of a count.
pub fn classes_within(f: u64, bound: Bound) -> Vec<u32> {
    (0..=LAST_CLASS).filter(|&class| class_in_use(class) && bound.within_q(f, class_number(class).into())).collect()
}

/// The codes that stand for a number, those of small ones first; code 0 is the first of all.
pub fn codes() -> &'static [u32] {
    static CODES: OnceLock<Vec<u32>> = OnceLock::new();
    CODES.get_or_init(|| {
        let mut codes: Vec<u32> = (0..4_096).filter(|&code| number_of_total(code).is_ok()).collect();
        codes.sort_by_key(|&code| code_number(code));
        codes
    })
}

/// The codes whose number lies within q of a count.
pub fn codes_within(f: u64, bound: Bound) -> &'static [u32] {
    &codes()[places_within(f, bound)]
}

/// Where they stand.
fn places_within(f: u64, bound: Bound) -> Range<usize> {
    let (qn, qd) = (u64::from(bound.qn), u64::from(bound.qd));
    let number = |code: u32| u64::from(code_number(code));
    let from = codes().partition_point(|&code| qn * number(code) < qd * f);
    from..codes().partition_point(|&code| qd * number(code) <= qn * f)
}

fn class_near(random: &mut Random, f: u64, bound: Bound) -> u32 {
    let within = classes_within(f, bound);
    if random.chance(1, 40) {
        let any = random.between(3, u64::from(LAST_CLASS)) as u32;
        return random.pick(&[0, any]);
    }
    if random.chance(1, 20) {
        // Just outside, if there is a class there.
        let beside = within[within.len() - 1] + 1;
        if class_in_use(beside) {
            return beside;
        }
    }
    end_or_any(random, &within)
}

/// A code whose number lies within q of a count, or just outside.
pub fn total_near(random: &mut Random, f: u64, classes: &[u32], bound: Bound) -> u32 {
    let within = places_within(f, bound);
    // Beside other classes than 0, code 0 would not be read.
    let first = usize::from(classes.iter().any(|&class| class > 0));
    let (start, end) = (within.start.max(first), within.end.max(first + 1));
    if random.chance(1, 20) {
        // Just outside, if there is a code there.
        let beside = [start.saturating_sub(1).max(first), end.min(codes().len() - 1)];
        return codes()[random.pick(&beside)];
    }
    end_or_any(random, &codes()[start..end])
}

/// The ends of what is allowed are where faults hide.
fn end_or_any(random: &mut Random, list: &[u32]) -> u32 {
    match random.below(3) {
        0 => list[0],
        1 => list[list.len() - 1],
        _ => random.pick(list),
    }
}
