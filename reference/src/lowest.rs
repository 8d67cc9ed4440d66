//! A bucketlet that grows with one start in hand for each bound, in place of all of them.
//!
//! Place i of a bucketlet has i entries before it, and P(i) is their count. What the ranges met so far ask of s/w comes
//! down to three numbers:
//!
//! 1. the greatest count/length of the ranges with a count above theta: s/w is at least a q-th of it;
//! 2. the greatest length/count of those with a count above a q-th of theta: one over s/w is at least a q-th of it;
//! 3. the length of the longest of all others: s/w is at most theta over it.
//!
//! The first two are found in the same way. A range is *heavy* if its count is above the bound's threshold. Draw its
//! length and its count as the sides of a step, so that its fraction is a slope, and a line with the greatest slope so
//! far: the end of a range lies higher above that line than its start exactly if the range is steeper. The ranges to an
//! end are heavy from every start before some place, which is `light` and only rises, and from no other. So it is enough
//! to know one of these starts that lies `lowest`: where the range from it is not steeper, none to that end is.
//!
//! Where it is, these starts are searched, the nearest first. One whose range up to the nearest is heavy itself ends the
//! search: from there and from any start before, the range to the end splits into two heavy ones, of which the first
//! ended earlier and the second is the nearest's, and no range is steeper than both of its parts. The steepest found
//! gives the new line: its start then lies as high as the end does, and none of these starts lies lower.

use crate::list::Bound;

/// The steepest of the ranges so far whose counts are above a threshold.
struct Steepest {
    threshold: u64,
    /// The fraction of a range with a count and a length.
    fraction: fn(u64, u64) -> (u64, u64),
    greatest: (u64, u64),
    /// The first start whose range to the end in hand is not heavy.
    light: usize,
    /// One of the starts before it, that lies lowest; any where there is none.
    lowest: usize,
}

impl Steepest {
    fn above(threshold: u64, fraction: fn(u64, u64) -> (u64, u64)) -> Steepest {
        Steepest { threshold, fraction, greatest: (0, 1), light: 0, lowest: 0 }
    }

    fn heavy(&self, before: &[u64], start: usize, end: usize) -> bool {
        before[end] - before[start] > self.threshold
    }

    fn slope(&self, before: &[u64], start: usize, end: usize) -> (u64, u64) {
        (self.fraction)(before[end] - before[start], (end - start) as u64)
    }

    fn steeper(&self, before: &[u64], start: usize, end: usize) -> bool {
        let (top, bottom) = self.slope(before, start, end);
        top * self.greatest.1 > self.greatest.0 * bottom
    }

    /// Takes in the ranges to the last of the places, each of which is given by the count before it.
    fn take(&mut self, before: &[u64]) {
        let end = before.len() - 1;
        while self.heavy(before, self.light, end) {
            if !self.steeper(before, self.lowest, self.light) {
                self.lowest = self.light;
            }
            self.light += 1;
        }
        if self.light > 0 && self.steeper(before, self.lowest, end) {
            self.search(before, end);
        }
    }

    fn search(&mut self, before: &[u64], end: usize) {
        let nearest = self.light - 1;
        for start in (0..=nearest).rev() {
            if self.heavy(before, start, nearest) {
                break;
            }
            if self.steeper(before, start, end) {
                self.greatest = self.slope(before, start, end);
                self.lowest = start;
            }
        }
    }
}

/// What the ranges so far ask of a number and a width.
pub struct Kept {
    bound: Bound,
    /// The count before each place so far.
    before: Vec<u64>,
    dense: Steepest,
    thin: Steepest,
    longest: u64,
}

impl Kept {
    /// Of no range.
    pub fn new(bound: Bound) -> Kept {
        let [theta, qn, qd] = [bound.theta, bound.qn, bound.qd].map(u64::from);
        let dense = Steepest::above(theta, |count, length| (count, length));
        let thin = Steepest::above(qd * theta / qn, |count, length| (length, count));
        Kept { bound, before: vec![0], dense, thin, longest: 0 }
    }

    /// Takes in the ranges to the next place.
    pub fn take(&mut self, frequency: u32) {
        let end = self.before.len();
        self.before.push(self.before[end - 1] + u64::from(frequency));
        self.dense.take(&self.before);
        self.thin.take(&self.before);
        self.longest = self.longest.max((end - self.thin.light) as u64);
    }

    /// Whether a bucketlet of so many entries that stands for s may have them all.
    pub fn allow(&self, s: u64, w: u64) -> bool {
        let [theta, qn, qd] = [self.bound.theta, self.bound.qn, self.bound.qd].map(u64::from);
        let (dense, thin) = (self.dense.greatest, self.thin.greatest);
        qd * dense.0 * w <= qn * s * dense.1 && qd * thin.0 * s <= qn * thin.1 * w && self.longest * s <= theta * w
    }
}
