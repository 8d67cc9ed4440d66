//! The builder: bounds on a bucketlet's number over its width, kept while it grows. `crate::lowest` says why one start
//! for each bound is enough.

use super::coding::{class_for, class_number, code_for};
use super::{Quality, Ranges};
use crate::build::fault;
use crate::list::Bound;
use crate::words::{HEADS, PER_BUCKET, WIDEST_FREE, WIDEST_LISTED};

/// A place in a bucketlet: how many entries are before it, and their count.
#[derive(Clone, Copy)]
struct Place {
    at: usize,
    count: u64,
}

impl Place {
    #[inline]
    fn next(self, rest: &[u32]) -> Place {
        Place { at: self.at + 1, count: self.count + u64::from(rest[self.at]) }
    }

    #[inline]
    fn previous(self, rest: &[u32]) -> Place {
        Place { at: self.at - 1, count: self.count - u64::from(rest[self.at - 1]) }
    }
}

const FIRST: Place = Place { at: 0, count: 0 };

/// The greatest count/length of the ranges with a count above a threshold or, if they are thin, length/count.
#[derive(Clone, Copy)]
struct Steepest<const THIN: bool> {
    threshold: u64,
    greatest: (u64, u64),
    /// The first start whose range to the end in hand has no such count.
    light: Place,
    /// Of the starts before it the one that lies lowest above a line with the greatest slope.
    lowest: Place,
}

impl<const THIN: bool> Steepest<THIN> {
    #[inline]
    fn above(threshold: u64, greatest: (u64, u64)) -> Self {
        Steepest { threshold, greatest, light: FIRST, lowest: FIRST }
    }

    #[inline]
    fn slope(from: Place, to: Place) -> (u64, u64) {
        let (count, length) = (to.count - from.count, (to.at - from.at) as u64);
        if THIN {
            (length, count)
        } else {
            (count, length)
        }
    }

    #[inline]
    fn heavy(&self, from: Place, to: Place) -> bool {
        self.threshold < to.count - from.count
    }

    #[inline]
    fn steeper(&self, from: Place, to: Place) -> bool {
        let (top, bottom) = Self::slope(from, to);
        self.greatest.0 * bottom < top * self.greatest.1
    }

    /// Takes in the ranges to an end.
    #[inline]
    fn take(&mut self, rest: &[u32], end: Place) {
        while self.heavy(self.light, end) {
            if !self.steeper(self.lowest, self.light) {
                self.lowest = self.light;
            }
            self.light = self.light.next(rest);
        }
        if 0 < self.light.at && self.steeper(self.lowest, end) {
            self.search(rest, end);
        }
    }

    /// Goes over the heavy starts from the nearest down to the first whose range up to that one is heavy itself.
    #[inline]
    fn search(&mut self, rest: &[u32], end: Place) {
        let nearest = self.light.previous(rest);
        let mut start = nearest;
        while !self.heavy(start, nearest) {
            if self.steeper(start, end) {
                (self.greatest, self.lowest) = (Self::slope(start, end), start);
            }
            if start.at == 0 {
                break;
            }
            start = start.previous(rest);
        }
    }
}

/// What the ranges of a bucketlet ask of its number over its width: the greatest count/length of those with a count
/// above theta, of those with a count above a q-th of it the greatest length/count, and the longest of the others.
#[derive(Clone, Copy)]
struct Asked {
    dense: (u64, u64),
    thin: (u64, u64),
    longest: u64,
}

impl Asked {
    #[inline]
    fn allows(&self, s: u64, w: u64, q: Quality) -> bool {
        q.qd * self.dense.0 * w <= q.qn * s * self.dense.1
            && q.qd * self.thin.0 * s <= q.qn * self.thin.1 * w
            && self.longest * s <= q.theta * w
    }

    /// Takes in the ranges that end where the part ends.
    #[inline]
    fn take(&mut self, part: &[u32], q: Quality, qth: u64) {
        let Asked { mut dense, mut thin, mut longest } = *self;
        let mut count = 0;
        for (n, &frequency) in (1..).zip(part.iter().rev()) {
            count += u64::from(frequency);
            if q.theta < count && dense.0 * n < count * dense.1 {
                dense = (count, n);
            }
            if count <= qth {
                longest = longest.max(n);
            } else if thin.0 * count < n * thin.1 {
                thin = (n, count);
            }
        }
        *self = Asked { dense, thin, longest };
    }
}

/// So many widths are tried by every range: a few have few.
const FEW: usize = 8;

/// The width of a bucketlet up to a limit, and its true count. A q-th of theta is rounded down.
fn grow_by_lowest(rest: &[u32], limit: usize, q: Quality, qth: u64) -> (usize, u32) {
    let rest = &rest[..limit.min(rest.len())];
    let mut asked = Asked { dense: (0, 1), thin: (0, 1), longest: 0 };
    let mut end = FIRST;
    while end.at < rest.len().min(FEW) {
        let before = end;
        end = end.next(rest);
        asked.take(&rest[..end.at], q, qth);
        let s = u64::from(class_number(class_for(end.count as u32)));
        if !asked.allows(s, end.at as u64, q) {
            return (before.at, before.count as u32);
        }
    }
    if end.at == rest.len() {
        return (end.at, end.count as u32);
    }
    grow_on(rest, end, asked, q, qth)
}

/// The same from a width on that is reached.
fn grow_on(rest: &[u32], mut end: Place, mut asked: Asked, q: Quality, qth: u64) -> (usize, u32) {
    let mut dense = Steepest::<false>::above(q.theta, asked.dense);
    let mut thin = Steepest::<true>::above(qth, asked.thin);
    while end.at < rest.len() {
        let before = end;
        end = end.next(rest);
        dense.take(rest, end);
        thin.take(rest, end);
        let longest = asked.longest.max((end.at - thin.light.at) as u64);
        asked = Asked { dense: dense.greatest, thin: thin.greatest, longest };
        let s = u64::from(class_number(class_for(end.count as u32)));
        if !asked.allows(s, end.at as u64, q) {
            return (before.at, before.count as u32);
        }
    }
    (end.at, end.count as u32)
}

/// The same by the paper's Figure 6, which adds every range: the greatest count/length of the ranges with a count above
/// theta, and the greatest length/cap of all, where the cap is the larger of qd theta and qn count.
fn grow_by_every_range(rest: &[u32], limit: usize, q: Quality) -> (usize, u32) {
    let rest = &rest[..limit.min(rest.len())];
    let (mut dense, mut thin) = ((0, 1), (0, 1));
    let mut count = 0;
    for (before, &frequency) in rest.iter().enumerate() {
        let next = count + frequency;
        add_every_range(&rest[..=before], q, &mut dense, &mut thin);
        let (s, w) = (u64::from(class_number(class_for(next))), before as u64 + 1);
        if q.qn * s * dense.1 < q.qd * dense.0 * w || thin.1 * w < q.qd * thin.0 * s {
            return (before, count);
        }
        count = next;
    }
    (rest.len(), count)
}

/// Adds the ranges that end where the part ends.
#[inline]
fn add_every_range(part: &[u32], q: Quality, dense: &mut (u64, u64), thin: &mut (u64, u64)) {
    let least = q.qd * q.theta;
    let (mut greatest, mut greatest_thin) = (*dense, *thin);
    let mut count = 0;
    for (n, &frequency) in (1..).zip(part.iter().rev()) {
        count += u64::from(frequency);
        if q.theta < count && greatest.0 * n < count * greatest.1 {
            greatest = (count, n);
        }
        let cap = least.max(q.qn * count);
        if greatest_thin.0 * cap < n * greatest_thin.1 {
            greatest_thin = (n, cap);
        }
    }
    (*dense, *thin) = (greatest, greatest_thin);
}

/// The five words of the bucket that starts at an entry, and the entry where the next one starts.
fn bucket(
    frequencies: &[u32],
    start: usize,
    grow: impl Fn(&[u32], usize) -> (usize, u32),
) -> ([u32; PER_BUCKET], usize) {
    let (mut widths, mut classes) = ([0; 8], [0; 8]);
    let (mut at, mut total) = (start, 0);
    for place in 0..8 {
        let rest = &frequencies[at..];
        if rest.is_empty() {
            break;
        }
        let free = place == 0 || (place == 7 && widths[0] <= WIDEST_LISTED);
        let widest = if free { WIDEST_FREE } else { WIDEST_LISTED };
        let (width, count) = grow(rest, widest as usize);
        (widths[place], classes[place]) = (width as u32, class_for(count));
        total += count;
        at += width;
    }
    (written(start as u32, &widths, &classes, code_for(total)), at)
}

fn written(start: u32, widths: &[u32; 8], classes: &[u32; 8], total: u32) -> [u32; PER_BUCKET] {
    let flag = u32::from(widths[0] <= WIDEST_LISTED);
    let listed = |place: usize| widths[place + 1 - flag as usize];
    let three = |from| (listed(from) << 18) | (listed(from + 1) << 9) | listed(from + 2);
    let joined = |part: &[u32]| part.iter().fold(0, |word, class| (word << 6) | class);
    [
        (1 << 30) | (start << 10) | (flag << 9) | listed(0),
        (2 << 30) | joined(&classes[..5]),
        (2 << 30) | (joined(&classes[5..]) << 12) | total,
        (3 << 30) | three(1),
        (3 << 30) | three(4),
    ]
}

fn words(frequencies: &[u32], bound: Bound, grow: impl Fn(&[u32], usize) -> (usize, u32)) -> Vec<u32> {
    let Bound { theta, qn, qd } = bound;
    let mut words = vec![frequencies.len() as u32, theta, (qn << 10) | qd, 0];
    let mut at = 0;
    while at < frequencies.len() {
        let (five, next) = bucket(frequencies, at, &grow);
        words.extend_from_slice(&five);
        at = next;
    }
    words[3] = ((words.len() - HEADS) / PER_BUCKET) as u32;
    words
}

/// The number of words; refusals 1, 3 to 5, 24 and 6, the last of which leaves the lent words as they were.
pub fn build(ranges: Ranges, frequencies: &[u32], bound: Bound, lent: &mut [u32]) -> Result<usize, u32> {
    fault(frequencies, bound)?;
    let q = Quality::from(bound);
    let qth = q.qd * q.theta / q.qn;
    let words = match ranges {
        Ranges::Fewer => words(frequencies, bound, |rest, limit| grow_by_lowest(rest, limit, q, qth)),
        Ranges::Every => words(frequencies, bound, |rest, limit| grow_by_every_range(rest, limit, q)),
    };
    lent.get_mut(..words.len()).ok_or(6u32)?.copy_from_slice(&words);
    Ok(words.len())
}
