//! Faults of a builder that keeps one start for each bound, as `lowest` does.

use super::Broken;
use super::Fault::*;
use crate::build::grow_while;
use crate::list::Bound;

/// One of the two bounds: the steepest of the ranges so far whose counts are above a threshold.
struct Steepest {
    /// By length over count, and not by count over length.
    thin: bool,
    threshold: u64,
    greatest: (u64, u64),
    light: usize,
    lowest: usize,
}

impl Steepest {
    fn new(thin: bool, threshold: u64) -> Steepest {
        Steepest { thin, threshold, greatest: (0, 1), light: 0, lowest: 0 }
    }

    fn slope(&self, before: &[u64], start: usize, end: usize) -> (u64, u64) {
        let (count, length) = (before[end] - before[start], (end - start) as u64);
        if self.thin {
            (length, count)
        } else {
            (count, length)
        }
    }

    fn steeper(&self, before: &[u64], start: usize, end: usize) -> bool {
        let (top, bottom) = self.slope(before, start, end);
        top * self.greatest.1 > self.greatest.0 * bottom
    }
}

impl Broken {
    /// Whether the fault is one of these.
    pub fn is_of_a_start(&self) -> bool {
        matches!(
            self.fault,
            CountOfThetaHeavy
                | CountOfAQthHeavy
                | ThetaForBothBounds
                | QthForBothBounds
                | QthRoundedUp
                | LowestNeverReplaced
                | LowestAlwaysReplaced
                | LowestNotRenewed
                | LowestTakenUnsearched
                | FirstSteeperTaken
                | FirstStartNotSearched
                | NearestStartNotSearched
                | LightStartSearched
                | SearchOneShort
                | SplitAtTheThreshold
                | LongestLeftOut
                | LongestNotKept
                | LongestOneShort
                | LongestOneLong
                | BoundsIn32Bits
        )
    }

    fn heavy(&self, bound: &Steepest, count: u64) -> bool {
        match (self.fault, bound.thin) {
            (CountOfThetaHeavy, false) | (CountOfAQthHeavy, true) => count >= bound.threshold,
            _ => count > bound.threshold,
        }
    }

    /// Takes in the ranges to the last of the places.
    fn take_end(&self, bound: &mut Steepest, before: &[u64]) {
        let end = before.len() - 1;
        while bound.light < end && self.heavy(bound, before[end] - before[bound.light]) {
            let replaced = match self.fault {
                LowestNeverReplaced => false,
                LowestAlwaysReplaced => true,
                _ => !bound.steeper(before, bound.lowest, bound.light),
            };
            if replaced {
                bound.lowest = bound.light;
            }
            bound.light += 1;
        }
        let starts = match self.fault {
            NearestStartNotSearched => bound.light.saturating_sub(1),
            LightStartSearched => (bound.light + 1).min(end),
            _ => bound.light,
        };
        if starts > 0 && bound.steeper(before, bound.lowest, end) {
            match self.fault {
                LowestTakenUnsearched => bound.greatest = bound.slope(before, bound.lowest, end),
                _ => self.search(bound, before, starts - 1),
            }
        }
    }

    fn search(&self, bound: &mut Steepest, before: &[u64], nearest: usize) {
        let end = before.len() - 1;
        let inside = |start: usize| before[nearest] - before[start];
        for start in (0..=nearest).rev() {
            let stops = match self.fault {
                FirstStartNotSearched if start == 0 => true,
                SearchOneShort if start > 0 => self.heavy(bound, inside(start - 1)),
                SplitAtTheThreshold => start < nearest && inside(start) >= bound.threshold,
                _ => self.heavy(bound, inside(start)),
            };
            if stops && start < nearest {
                break;
            }
            if bound.steeper(before, start, end) {
                bound.greatest = bound.slope(before, start, end);
                if self.fault != LowestNotRenewed {
                    bound.lowest = start;
                }
                if self.fault == FirstSteeperTaken {
                    break;
                }
            }
        }
    }

    /// The width of a bucketlet, as the fault finds it.
    pub(super) fn grown(&self, rest: &[u32], limit: usize, bound: Bound) -> usize {
        let [theta, qn, qd] = [bound.theta, bound.qn, bound.qd].map(u64::from);
        let qth = if self.fault == QthRoundedUp { (qd * theta).div_ceil(qn) } else { qd * theta / qn };
        let mut dense = Steepest::new(false, if self.fault == QthForBothBounds { qth } else { theta });
        let mut thin = Steepest::new(true, if self.fault == ThetaForBothBounds { theta } else { qth });
        let cut = |product: u64| if self.fault == BoundsIn32Bits { product & 0xFFFF_FFFF } else { product };
        let (mut before, mut longest) = (vec![0], 0);
        let width = grow_while(rest, limit, bound, |part, s| {
            let w = part.len();
            before.push(before[w - 1] + u64::from(part[w - 1]));
            self.take_end(&mut dense, &before);
            self.take_end(&mut thin, &before);
            let light = w - thin.light;
            longest = match self.fault {
                LongestLeftOut => 0,
                LongestNotKept => light,
                LongestOneShort => longest.max(light.saturating_sub(1)),
                LongestOneLong => longest.max((light + 1).min(w)),
                _ => longest.max(light),
            };
            let (w, longest) = (w as u64, longest as u64);
            cut(qd * dense.greatest.0 * w) <= cut(qn * s * dense.greatest.1)
                && cut(qd * thin.greatest.0 * s) <= cut(qn * thin.greatest.1 * w)
                && cut(longest * s) <= cut(theta * w)
        });
        // With none the builder would not end.
        width.max(1)
    }
}
