//! Faults of a checker that finds the first start by a pass from the right, as `pass` does.

use super::Broken;
use super::Fault::*;
use crate::fits::{first_end, Failing, Sort};
use crate::list::{count, Bound};

/// Bucketlets below this width have few ranges.
const NARROW: usize = 8;

/// The ends past theta are those after `end`; the greatest number of theirs is kept.
struct Ends {
    end: usize,
    before: u64,
    greatest: u64,
}

impl Broken {
    /// Whether the fault is one of these.
    pub fn is_of_a_pass(&self) -> bool {
        matches!(
            self.fault,
            FirstStartLeftOut
                | LastStartLeftOut
                | FirstStartMetNamed
                | LastEndNamed
                | LastEndLeftOut
                | OnlyCountsAboveTheta
                | OnlyEstimatesAboveTheta
                | FirstEndPastThetaMissed
                | EndAtThetaTaken
                | EndsBeforeForgotten
                | GreatestNotKept
                | EqualityFails
                | EqualityOfTheWholeFails
                | WholePassedOver
                | LaterStartBeforeTheWhole
                | ThetaNotTimesTheWidth
                | ProductsIn32Bits
                | NarrowOnesPassedOver
        )
    }

    /// Takes in the ends past theta.
    fn take(&self, ends: &mut Ends, part: &[u32], past: impl Fn(u64, u64) -> bool, number: impl Fn(u64, u64) -> u64) {
        if self.fault == EndsBeforeForgotten {
            ends.greatest = 0;
        }
        while past(ends.end as u64, ends.before) {
            let one = number(ends.end as u64, ends.before);
            let left_out = self.fault == LastEndLeftOut && ends.end == part.len();
            ends.greatest = match self.fault {
                _ if left_out => 0,
                GreatestNotKept => one,
                _ => one.max(ends.greatest),
            };
            ends.end -= 1;
            ends.before -= u64::from(part[ends.end]);
        }
    }

    fn first_start(&self, part: &[u32], s: u64, bound: Bound) -> Option<usize> {
        let [theta, qn, qd] = [bound.theta, bound.qn, bound.qd].map(u64::from);
        let (w, whole) = (part.len() as u64, count(part));
        let cut = |number: u64| if self.fault == ProductsIn32Bits { number & 0xFFFF_FFFF } else { number };
        let by_count = |place: u64, before: u64| cut(qd * w * before + qn * s * (w - place));
        let by_estimate = |place: u64, before: u64| cut(qd * s * place + qn * w * (whole - before));
        let scaled = if self.fault == ThetaNotTimesTheWidth { theta } else { theta * w };
        // The step is what the last entry of a range adds to its number.
        let past = |number: u64, theta: u64, step: u64| match self.fault {
            EndAtThetaTaken => number >= theta,
            FirstEndPastThetaMissed => number > theta + step,
            _ => number > theta,
        };
        let above = |greatest: u64, number: u64| match self.fault {
            EqualityFails => greatest > 0 && greatest >= number,
            _ => greatest > number,
        };
        let none = || Ends { end: part.len(), before: whole, greatest: 0 };
        let (mut heavy, mut large) = (none(), none());
        let (mut first, mut before) = (None, whole);
        for start in (0..part.len()).rev() {
            before -= u64::from(part[start]);
            let place = start as u64;
            let last_step = |end: u64| u64::from(part[end as usize - 1]);
            let heavy_past = |end: u64, count: u64| end > place && past(count, before + theta, last_step(end));
            self.take(&mut heavy, part, heavy_past, by_count);
            let large_past = |end: u64, _| end > place && past((end - place) * s, scaled, s);
            self.take(&mut large, part, large_past, by_estimate);
            let fails_by_count = above(heavy.greatest, by_count(place, before));
            let fails_by_estimate = above(large.greatest, by_estimate(place, before));
            let fails = match self.fault {
                OnlyCountsAboveTheta => fails_by_count,
                OnlyEstimatesAboveTheta => fails_by_estimate,
                FirstStartLeftOut if start == 0 => false,
                LastStartLeftOut if start + 1 == part.len() => false,
                FirstStartMetNamed if first.is_some() => false,
                _ => fails_by_count || fails_by_estimate,
            };
            if fails {
                first = Some(start);
            }
        }
        first
    }

    /// The range from a start that is named.
    fn named(&self, part: &[u32], start: usize, s: u64, bound: Bound) -> Option<Failing> {
        let (w, theta) = (part.len() as u64, u64::from(bound.theta));
        let at_q = |a: u64, b: u64| u64::from(bound.qd) * a == u64::from(bound.qn) * b;
        let mut f = 0;
        let mut named = None;
        for end in start + 1..=part.len() {
            f += u64::from(part[end - 1]);
            let (count, estimate) = (f * w, (end - start) as u64 * s);
            let (heavy, large) = (f > theta, estimate > theta * w);
            let fails = match self.fault {
                _ if end - start == part.len() => !bound.within_q(f, s),
                EqualityFails if (heavy && at_q(count, estimate)) || (large && at_q(estimate, count)) => true,
                EndAtThetaTaken if f == theta || estimate == theta * w => !bound.within_q(count, estimate),
                _ => (heavy || large) && !bound.within_q(count, estimate),
            };
            if fails && (named.is_none() || self.fault == LastEndNamed) {
                let sort = if end - start == part.len() { Sort::Bucketlet } else { Sort::Part };
                named = Some((start, end, sort));
            }
        }
        named
    }

    /// The first failing range of a bucketlet, as the fault finds it.
    pub(super) fn passed(&self, part: &[u32], s: u64, bound: Bound) -> Option<Failing> {
        let (w, whole) = (part.len(), count(part));
        let at_q = |a: u64, b: u64| a > 0 && u64::from(bound.qd) * a == u64::from(bound.qn) * b;
        let whole_fails = (!bound.within_q(whole, s)).then_some((0, w, Sort::Bucketlet));
        let first_part = || {
            let of_a_part = |start: usize| first_end(part, start, s, bound).filter(|found| found.2 == Sort::Part);
            (0..w).find_map(of_a_part)
        };
        match self.fault {
            WholePassedOver => return first_part(),
            LaterStartBeforeTheWhole => return first_part().or(whole_fails),
            EqualityOfTheWholeFails if at_q(whole, s) || at_q(s, whole) => {
                return first_end(part, 0, s, bound).or(Some((0, w, Sort::Bucketlet)));
            }
            NarrowOnesPassedOver if w < NARROW => return whole_fails,
            _ => {}
        }
        let first = self.first_start(part, s, bound);
        let start = if whole_fails.is_some() { 0 } else { first? };
        self.named(part, start, s, bound)
    }
}
