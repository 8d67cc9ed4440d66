//! The calls as both programs answer them, in the form of the C interface.

use crate::build::{build, Way};
use crate::check::{check, Verdict};
use crate::coding;
use crate::estimate::estimate;
use crate::fits::Sort;
use crate::journal::{self, replay_journal};
use crate::list::Bound;
use crate::search::estimate_search;
use crate::sheet::printed;
use crate::words::find;
use crate::worksheet::{answer_worksheet, fill_totals};

/// A refusal is 0 where there is none, and all else is 0 where there is one.
#[repr(C)]
#[derive(Clone, Copy, Debug, Default, PartialEq, Eq)]
pub struct QhCoded {
    pub refusal: u32,
    pub value: u32,
}

#[repr(C)]
#[derive(Clone, Copy, Debug, Default, PartialEq, Eq)]
pub struct QhBuilt {
    pub refusal: u32,
    pub words: usize,
}

/// Accepted is 1 or 0. Sort is 1 for bucketlet, 2 for part, 3 for bucket, and 0 where accepted.
#[repr(C)]
#[derive(Clone, Copy, Debug, Default, PartialEq, Eq)]
pub struct QhVerdict {
    pub refusal: u32,
    pub accepted: u32,
    pub sort: u32,
    pub start: u32,
    pub end: u32,
}

#[repr(C)]
#[derive(Clone, Copy, Debug, Default, PartialEq, Eq)]
pub struct QhEstimate {
    pub refusal: u32,
    pub estimate: u64,
}

/// The place of the first of the five words in the caller's list.
#[repr(C)]
#[derive(Clone, Copy, Debug, Default, PartialEq, Eq)]
pub struct QhFound {
    pub refusal: u32,
    pub at: usize,
}

/// How many places have running totals.
#[repr(C)]
#[derive(Clone, Copy, Debug, Default, PartialEq, Eq)]
pub struct QhFilled {
    pub refusal: u32,
    pub places: usize,
}

#[repr(C)]
#[derive(Clone, Copy, Debug, Default, PartialEq, Eq)]
pub struct QhAnswered {
    pub refusal: u32,
    pub answers: usize,
}

/// The sum of the list afterwards.
#[repr(C)]
#[derive(Clone, Copy, Debug, Default, PartialEq, Eq)]
pub struct QhReplayed {
    pub refusal: u32,
    pub sum: u32,
}

/// How many bytes are lent for what the listing program prints.
pub const SHEET_BYTES: usize = 163_840;

pub type Sheet = [u8; SHEET_BYTES];

/// What the listing program prints, and whether it says anything on standard error.
#[derive(Clone, Debug, PartialEq, Eq)]
pub struct Listing {
    pub printed: Vec<u8>,
    pub explained: bool,
}

pub trait Program {
    fn class_of(&self, count: u32) -> QhCoded;
    fn number_of_class(&self, class: u32) -> QhCoded;
    fn code_of_total(&self, total: u32) -> QhCoded;
    fn number_of_total(&self, code: u32) -> QhCoded;
    fn build(&self, frequencies: &[u32], bound: Bound, lent: &mut [u32]) -> QhBuilt;
    fn check(&self, frequencies: &[u32], words: &[u32]) -> QhVerdict;
    fn estimate(&self, words: &[u32], x: u32, y: u32) -> QhEstimate;
    fn find(&self, words: &[u32], entry: u32) -> QhFound;
    fn fill_totals(&self, words: &[u32], lent: &mut [u64]) -> QhFilled;
    fn answer_worksheet(&self, words: &[u32], totals: &[u64], worksheet: &[u32], lent: &mut [u64]) -> QhAnswered;
    fn estimate_search(&self, words: &[u32], ranges: &[u32]) -> QhEstimate;
    fn replay_journal(&self, frequencies: &mut [u32], entries: &[u32], changes: &[i32]) -> QhReplayed;
    fn sheet(&self, input: &[u8], lent: &mut Sheet) -> usize;

    /// The listing program run on an input. It prints the bytes of a sheet, and explains a refusal.
    fn listing(&self, input: &[u8]) -> Listing {
        let mut lent = [0; SHEET_BYTES];
        let length = self.sheet(input, &mut lent);
        let printed = lent[..length].to_vec();
        let explained = printed.starts_with(b"refused");
        Listing { printed, explained }
    }
}

/// A refusal beside one value.
macro_rules! from_answer {
    ($($answer:ident: $value:ident $type:ty,)*) => {
        $(impl From<Result<$type, u32>> for $answer {
            fn from(answer: Result<$type, u32>) -> $answer {
                let (refusal, $value) = parted(answer);
                $answer { refusal, $value }
            }
        })*
    };
}

from_answer! {
    QhCoded: value u32,
    QhBuilt: words usize,
    QhEstimate: estimate u64,
    QhFound: at usize,
    QhFilled: places usize,
    QhAnswered: answers usize,
    QhReplayed: sum u32,
}

impl From<Result<Verdict, u32>> for QhVerdict {
    fn from(answer: Result<Verdict, u32>) -> QhVerdict {
        let mut verdict = QhVerdict::default();
        match answer {
            Ok(Verdict::Accepted) => verdict.accepted = 1,
            Ok(Verdict::Fails { sort, start, end }) => {
                verdict.sort = match sort {
                    Sort::Bucketlet => 1,
                    Sort::Part => 2,
                    Sort::Bucket => 3,
                };
                (verdict.start, verdict.end) = (start, end);
            }
            Err(refusal) => verdict.refusal = refusal,
        }
        verdict
    }
}

fn parted<T: Default>(answer: Result<T, u32>) -> (u32, T) {
    match answer {
        Ok(value) => (0, value),
        Err(refusal) => (refusal, T::default()),
    }
}

/// The reference itself, building by one of its ways.
#[derive(Clone, Copy, Debug)]
pub struct Reference(pub Way);

impl Program for Reference {
    fn class_of(&self, count: u32) -> QhCoded {
        coding::class_of(count).into()
    }

    fn number_of_class(&self, class: u32) -> QhCoded {
        coding::number_of_class(class).into()
    }

    fn code_of_total(&self, total: u32) -> QhCoded {
        coding::code_of_total(total).into()
    }

    fn number_of_total(&self, code: u32) -> QhCoded {
        coding::number_of_total(code).into()
    }

    fn build(&self, frequencies: &[u32], bound: Bound, lent: &mut [u32]) -> QhBuilt {
        build(self.0, frequencies, bound, lent).into()
    }

    fn check(&self, frequencies: &[u32], words: &[u32]) -> QhVerdict {
        check(frequencies, words).into()
    }

    fn estimate(&self, words: &[u32], x: u32, y: u32) -> QhEstimate {
        estimate(words, x, y).into()
    }

    fn find(&self, words: &[u32], entry: u32) -> QhFound {
        // The place of the part in the list that it is a part of.
        let place = |five: &[u32]| (five.as_ptr() as usize - words.as_ptr() as usize) / 4;
        find(words, entry).map(place).into()
    }

    fn fill_totals(&self, words: &[u32], lent: &mut [u64]) -> QhFilled {
        fill_totals(words, lent).into()
    }

    fn answer_worksheet(&self, words: &[u32], totals: &[u64], worksheet: &[u32], lent: &mut [u64]) -> QhAnswered {
        answer_worksheet(words, totals, worksheet, lent).into()
    }

    fn estimate_search(&self, words: &[u32], ranges: &[u32]) -> QhEstimate {
        estimate_search(words, ranges).into()
    }

    fn replay_journal(&self, frequencies: &mut [u32], entries: &[u32], changes: &[i32]) -> QhReplayed {
        replay_journal(journal::Way::Incremental, frequencies, entries, changes).into()
    }

    fn sheet(&self, input: &[u8], lent: &mut Sheet) -> usize {
        let text = printed(self.0, input);
        lent[..text.len()].copy_from_slice(text.as_bytes());
        text.len()
    }
}
