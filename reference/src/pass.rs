//! Request (xiii) of document 02: what fits by one pass from the right, in place of every pair of ends.
//!
//! P(j) is the count of the entries before place j of a bucketlet, the places being 0 to w. Since q is at least 1, the
//! range from i to j, taken as a part, fails exactly if one of these holds:
//!
//! - its count is above theta, P(j) > P(i) + theta, and G(j) > G(i), where G(j) = qd w P(j) + qn s (w - j);
//! - its estimate is, (j - i) s > theta w, and H(j) > H(i), where H(j) = qd s j + qn w (P(w) - P(j)).
//!
//! An end that is past theta for one start is past it for every start before that, so of the ends past theta only the
//! greatest G and the greatest H need be kept.

use crate::fits::{first_end, Failing};
use crate::list::{count, Bound};

/// The ends past theta, in one of the two ways, are those after `end`.
struct Ends {
    end: usize,
    /// The count before it.
    before: u64,
    /// The greatest number of those after it.
    greatest: u64,
}

impl Ends {
    /// None is past theta.
    fn none(part: &[u32]) -> Ends {
        Ends { end: part.len(), before: count(part), greatest: 0 }
    }

    /// Takes in those that are past theta now. Both functions are given a place and the count before it.
    fn take(&mut self, part: &[u32], past: impl Fn(u64, u64) -> bool, number: impl Fn(u64, u64) -> u64) {
        while past(self.end as u64, self.before) {
            self.greatest = self.greatest.max(number(self.end as u64, self.before));
            self.end -= 1;
            self.before -= u64::from(part[self.end]);
        }
    }
}

/// The first start with a range that fails as a part, the whole bucketlet taken for one.
fn first_start(part: &[u32], s: u64, bound: Bound) -> Option<usize> {
    let [theta, qn, qd] = [bound.theta, bound.qn, bound.qd].map(u64::from);
    let (w, whole) = (part.len() as u64, count(part));
    let by_count = |place: u64, before: u64| qd * w * before + qn * s * (w - place);
    let by_estimate = |place: u64, before: u64| qd * s * place + qn * w * (whole - before);
    let (mut heavy, mut large) = (Ends::none(part), Ends::none(part));
    let (mut first, mut before) = (None, whole);
    for start in (0..part.len()).rev() {
        before -= u64::from(part[start]);
        let place = start as u64;
        heavy.take(part, |_, count| count > before + theta, by_count);
        large.take(part, |end, _| (end - place) * s > theta * w, by_estimate);
        if heavy.greatest > by_count(place, before) || large.greatest > by_estimate(place, before) {
            first = Some(start);
        }
    }
    first
}

/// The first range of a bucketlet that fails, by start and then by end.
pub fn first_failing(part: &[u32], s: u64, bound: Bound) -> Option<Failing> {
    // The whole bucketlet is the last range of the first start, so no other start comes before it.
    let whole_fails = !bound.within_q(count(part), s);
    let start = if whole_fails { 0 } else { first_start(part, s, bound)? };
    first_end(part, start, s, bound)
}
