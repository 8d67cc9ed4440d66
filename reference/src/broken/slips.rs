//! Faults about refusal 24. The reference is given another q, or other words, which it answers as the fault would
//! answer those that were given.

use super::Broken;
use super::Fault::*;
use crate::list::Bound;

/// Refused with 24 and nothing else, taken, and outside the limits.
const NINE: (u32, u32) = (9, 1);
const EIGHT: (u32, u32) = (8, 1);
const NOTHING: (u32, u32) = (0, 0);

/// Theta and q as the words have them, if they go so far.
pub(super) fn stored_bound(words: &[u32]) -> Option<Bound> {
    let &[_, theta, q, ..] = words else {
        return None;
    };
    Some(Bound::new(theta, (q >> 10) & 1_023, q & 1_023))
}

/// The words with another q; the bits beside it stay.
fn with_q(words: &[u32], (qn, qd): (u32, u32)) -> Vec<u32> {
    let mut words = words.to_vec();
    words[2] = (words[2] & !0xF_FFFF) | (qn << 10) | qd;
    words
}

impl Broken {
    /// The q that the reference is asked about in place of this one.
    fn judged_q(&self, bound: Bound) -> (u32, u32) {
        let Bound { qn, qd, .. } = bound;
        let above = bound.q_too_large();
        match self.fault {
            AboveEightBefore5 if above => NINE,
            // The others come after the limits.
            _ if !bound.q_within_limits() => (qn, qd),
            EightRefused if qn == 8 * qd => NINE,
            NumeratorAboveEight if qn > 8 => NINE,
            NineTaken if above && qn <= 9 * qd => EIGHT,
            AboveEightRoundedDown if above && qn / qd == 8 => EIGHT,
            AboveEightTaken | AboveEightAfter6 if above => EIGHT,
            AboveEightOutsideLimits if above => NOTHING,
            _ => (qn, qd),
        }
    }

    /// The same with its theta.
    pub(super) fn judged(&self, bound: Bound) -> Bound {
        let (qn, qd) = self.judged_q(bound);
        Bound::new(bound.theta, qn, qd)
    }

    /// The words that the reference is asked about in place of these; `refusal` gives its own number for some words.
    pub(super) fn judged_words(&self, words: &[u32], refusal: impl Fn(&[u32]) -> u32) -> Vec<u32> {
        let Some(bound) = stored_bound(words) else {
            return words.to_vec();
        };
        // What a q above 8 leaves to be refused.
        let rest = || match refusal(words) {
            24 => refusal(&with_q(words, EIGHT)),
            _ => 0,
        };
        let q = match self.fault {
            // A head in which all else is good.
            AboveEightBefore7 if bound.q_too_large() => return with_q(&[1, 1, 0, 1], NINE),
            AboveEightAfter8 if rest() == 8 => EIGHT,
            AboveEightLast if rest() > 0 => EIGHT,
            _ => self.judged_q(bound),
        };
        with_q(words, q)
    }
}
