//! The proved calls' own algorithms in plain Rust, written to be fast: what the benchmark measures the proved
//! calls by. The rest of this package is written to be read beside document 01, and is slower for it.

mod asking;
mod building;
mod checking;
mod coding;
mod reading;
mod replaying;

use crate::build::Way;
use crate::list::Bound;
use crate::program::*;

/// Which ranges of a bucketlet are looked at.
#[derive(Clone, Copy, Debug, PartialEq, Eq)]
pub enum Ranges {
    /// As in the proved calls. The builder looks at the range from one start for each bound, and at others only where
    /// that one moves the bound; the checker finds by a pass from which entry on there is one that fails.
    Fewer,
    /// All: as in the paper's Figure 6, and every pair of ends.
    Every,
}

/// Theta and q in 64 bits, for products of them.
#[derive(Clone, Copy)]
struct Quality {
    theta: u64,
    qn: u64,
    qd: u64,
}

impl From<Bound> for Quality {
    fn from(bound: Bound) -> Quality {
        Quality { theta: bound.theta.into(), qn: bound.qn.into(), qd: bound.qd.into() }
    }
}

/// Answers every call; a bucketlet grows and is checked by these ranges.
#[derive(Clone, Copy, Debug)]
pub struct Peer(pub Ranges);

impl Program for Peer {
    #[inline]
    fn class_of(&self, count: u32) -> QhCoded {
        coding::class_of(count)
    }

    #[inline]
    fn number_of_class(&self, class: u32) -> QhCoded {
        coding::number_of_class(class)
    }

    #[inline]
    fn code_of_total(&self, total: u32) -> QhCoded {
        coding::code_of_total(total)
    }

    #[inline]
    fn number_of_total(&self, code: u32) -> QhCoded {
        coding::number_of_total(code)
    }

    fn build(&self, frequencies: &[u32], bound: Bound, lent: &mut [u32]) -> QhBuilt {
        building::build(self.0, frequencies, bound, lent).into()
    }

    fn check(&self, frequencies: &[u32], words: &[u32]) -> QhVerdict {
        checking::check(self.0, frequencies, words).into()
    }

    fn estimate(&self, words: &[u32], x: u32, y: u32) -> QhEstimate {
        asking::estimate(words, x, y).into()
    }

    fn estimate_search(&self, words: &[u32], ranges: &[u32]) -> QhEstimate {
        asking::estimate_search(words, ranges).into()
    }

    fn find(&self, words: &[u32], entry: u32) -> QhFound {
        reading::find(words, entry).into()
    }

    fn fill_totals(&self, words: &[u32], lent: &mut [u64]) -> QhFilled {
        asking::fill_totals(words, lent).into()
    }

    fn answer_worksheet(&self, words: &[u32], totals: &[u64], worksheet: &[u32], lent: &mut [u64]) -> QhAnswered {
        asking::answer_worksheet(words, totals, worksheet, lent).into()
    }

    fn replay_journal(&self, frequencies: &mut [u32], entries: &[u32], changes: &[i32]) -> QhReplayed {
        replaying::replay_journal(frequencies, entries, changes).into()
    }

    fn sheet(&self, input: &[u8], lent: &mut Sheet) -> usize {
        // Not timed, so it has no peer.
        Reference(Way::FewerRanges).sheet(input, lent)
    }
}
