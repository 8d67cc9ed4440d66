//! The reference with one fault on purpose, one or more for each call: the comparison must find
//! each of them. `FittedByExactAverage`, `WidthByHalving`, `WiderQ` and `EachCutRounded` are document
//! 01's missteps; those about a zero, about 0 and about the 1 are missteps of request (iv), those
//! about eight and nine, each of them in one call at a time, of request (v), those about running totals,
//! places, answers and worksheets of request (i), those about searches, their number of ranges and
//! their order of request (ii), those about journals, their lines and bounds of request (vii), many of
//! which break what request (viii) says too, and those of a checker that goes over a bucketlet in one
//! pass, from `FirstStartLeftOut` to `NarrowOnesPassedOver`, of request (xiii). Those from `CountOfThetaHeavy` to
//! `BoundsIn32Bits` are missteps of a builder that keeps one start for each bound.
//! Histograms whose classes or totals are others within q are accepted, but do not keep to request (vi),
//! nor does an estimate by classes that are too low.

mod asking;
mod building;
mod journals;
mod listing;
mod passes;
mod searches;
mod slips;
mod starts;
mod worksheets;

use crate::build::Way;
use crate::coding::class_start;
use crate::list::{list_fault, Bound};
use crate::program::*;

macro_rules! faults {
    ($($fault:ident: $($call:literal)|+,)*) => {
        #[derive(Clone, Copy, Debug, PartialEq, Eq)]
        pub enum Fault { $($fault),* }

        use Fault::*;

        /// The faults with the call that each is in, as the comparison names it.
        pub const FAULTS: &[(Fault, &str)] = &[$($(($fault, $call)),+),*];
    };
}

faults! {
    ClassAtItsStart: "class of a count",
    ZeroCountRefused: "class of a count",
    Class63Read: "number of a class",
    Class0ReadAs1: "number of a class",
    CodeOfAPowerOfTwo: "code of a total",
    ZeroTotalRefused: "code of a total",
    NumberOfTheLastShift: "number of a code",
    Code0Refused: "number of a code",
    FittedByExactAverage: "build",
    WidthByHalving: "build",
    WiderQ: "build",
    RestCleared: "build" | "fill" | "answer",
    WordsBeforeRefusal: "build",
    ZeroFrequencyRefusedByBuilder: "build",
    ClassHigherWithinQ: "build",
    ClassLowerWithinQ: "build",
    TotalHighestWithinQ: "build",
    TotalLowestWithinQ: "build",
    CountOfThetaHeavy: "build",
    CountOfAQthHeavy: "build",
    ThetaForBothBounds: "build",
    QthForBothBounds: "build",
    QthRoundedUp: "build",
    LowestNeverReplaced: "build",
    LowestAlwaysReplaced: "build",
    LowestNotRenewed: "build",
    LowestTakenUnsearched: "build",
    FirstSteeperTaken: "build",
    FirstStartNotSearched: "build",
    NearestStartNotSearched: "build",
    LightStartSearched: "build",
    SearchOneShort: "build",
    SplitAtTheThreshold: "build",
    LongestLeftOut: "build",
    LongestNotKept: "build",
    LongestOneShort: "build",
    LongestOneLong: "build",
    BoundsIn32Bits: "build",
    WholeExcused: "check",
    ByEndThenStart: "check",
    TotalsNotChecked: "check",
    ZeroFrequencyRefusedByChecker: "check",
    JudgedWithThe1: "check",
    FirstStartLeftOut: "check",
    LastStartLeftOut: "check",
    FirstStartMetNamed: "check",
    LastEndNamed: "check",
    LastEndLeftOut: "check",
    OnlyCountsAboveTheta: "check",
    OnlyEstimatesAboveTheta: "check",
    FirstEndPastThetaMissed: "check",
    EndAtThetaTaken: "check",
    EndsBeforeForgotten: "check",
    GreatestNotKept: "check",
    EqualityFails: "check",
    EqualityOfTheWholeFails: "check",
    WholePassedOver: "check",
    LaterStartBeforeTheWhole: "check",
    ThetaNotTimesTheWidth: "check",
    ProductsIn32Bits: "check",
    NarrowOnesPassedOver: "check",
    EachCutRounded: "estimate" | "answer" | "search",
    RoundedDown: "estimate" | "answer" | "search",
    SumOf0AnsweredWith0: "estimate" | "answer" | "search",
    EmptyRangeAnsweredWith1: "estimate" | "answer" | "search",
    Class0EstimatedAt1: "estimate" | "answer" | "search",
    ClassBelowRead: "estimate",
    FoundOneLate: "find",
    Class0AtAWidthRefused: "find",
    Code0AlwaysValid: "find",
    Code0NeverValid: "find",
    OnlyCode0BesideClasses0: "find",
    Code0BesideLastClasses: "find",
    LastFeedNotNeeded: "sheet",
    SheetEndedByZero: "sheet",
    Class0NotListed: "sheet",
    CodesSummed: "fill",
    ClassesSummed: "fill",
    Total0SummedAs1: "fill",
    LastTotalMissing: "fill",
    OnePlaceTooManyWanted: "fill",
    TotalsWithTheirBucket: "fill" | "answer",
    TotalsIn32Bits: "fill" | "answer",
    PlacesBeforeRefusal: "fill" | "answer",
    ShortBeforeTheWords: "fill" | "answer",
    DifferenceOfTwo: "answer" | "search",
    CutBucketsByTotal: "answer" | "search",
    OneAnswerTooMany: "answer",
    WordsCounted: "answer",
    HalfRoundedUp: "answer",
    ShortAfter20: "answer",
    ShortAfter21: "answer",
    TotalsNotLookedAt: "answer",
    LastTotalNotLookedAt: "answer",
    OnlyLastTotalLookedAt: "answer",
    OnlyStepsLookedAt: "answer",
    OneTotalTooFar: "answer",
    TotalsAfter21: "answer",
    OutsideRefusedWith14: "answer",
    WordLeftOverTaken: "answer" | "search",
    EmptyWorksheetRefused: "answer",
    LastRangeNotTested: "answer" | "search",
    RangesBackwardsTaken: "answer" | "search",
    RangesToTheEndRefused: "answer" | "search",
    SearchesRefused: "search",
    WordsAfter22: "search",
    SixteenTested: "search",
    WordLeftOverTested: "search",
    OutsideRefusedWith22: "search",
    NoRangeAnsweredWith0: "search",
    OneRangeRefused: "search",
    SixteenRefused: "search",
    SeventeenTaken: "search",
    NumberInAByte: "search",
    EmptyRangesNotCounted: "search",
    EmptyRangesRefused: "search",
    AnyOrderTaken: "search",
    TouchingRangesRefused: "search",
    EmptyRangesAnywhere: "search",
    EmptyRangesPassedOver: "search",
    StartsCompared: "search",
    EndsCompared: "search",
    OnlyFirstTwoCompared: "search",
    OnlyLastTwoCompared: "search",
    OutOfOrderRefusedWith22: "search",
    NumberBefore14: "search",
    OrderBefore14: "search",
    OrderBefore22: "search",
    OutsideLast: "search",
    OnlyFirstRange: "search",
    OnlyLargestEstimate: "search",
    LastRangeLeftOut: "search",
    RangesRoundedTogether: "search",
    One1ForAllRanges: "search",
    TouchingRangesJoined: "search",
    GapsCountedIn: "search",
    SumIn32Bits: "search" | "replay",
    JournalsRefused: "replay",
    ListNotWritten: "replay",
    ChangesUnsigned: "replay",
    LinesBackwards: "replay",
    LastLineLeftOut: "replay",
    OnlyFirstLineOfAnEntry: "replay",
    SumTestedAtTheEnd: "replay",
    FrequenciesTestedAtTheEnd: "replay",
    BoundsTestedAtTheEnd: "replay",
    FrequenciesStopAt0: "replay",
    BelowZeroTaken: "replay",
    ZeroTakenForBelow: "replay",
    LimitOneTooLow: "replay",
    LimitOneTooHigh: "replay",
    AboveTheLimitRefusedWith3: "replay",
    SumOfTheListNotTested: "replay",
    ZeroFrequencyRefusedByReplay: "replay",
    LongListsTaken: "replay",
    MostLinesRefused: "replay",
    OneLineTooManyTaken: "replay",
    LinesIn16Bits: "replay",
    EmptyJournalRefused: "replay",
    UnequalTakenByTheShorter: "replay",
    ChangesLeftOverTaken: "replay",
    EntryAtTheLengthTaken: "replay",
    LastEntryRefused: "replay",
    LastEntryNotTested: "replay",
    EntriesIn16Bits: "replay",
    OutsideRefusedWith15: "replay",
    NumberBefore1: "replay",
    NumberBefore3: "replay",
    EntriesBefore25: "replay",
    BoundsBefore25: "replay",
    BoundsBefore26: "replay",
    FirstFaultyLineNamed: "replay",
    LinesBefore26Kept: "replay",
    LinesBefore27Kept: "replay",
    OldSumAnswered: "replay",
    MoveOfTheSumAnswered: "replay",
    LinesAnswered: "replay",
    SumBesideRefusal: "replay",
    EightRefused: "build" | "check" | "estimate" | "find" | "fill" | "answer" | "search" | "sheet",
    NineTaken: "build" | "check" | "estimate" | "find" | "fill" | "answer" | "search" | "sheet",
    AboveEightTaken: "build" | "check" | "estimate" | "find" | "fill" | "answer" | "search" | "sheet",
    AboveEightRoundedDown: "build" | "check" | "estimate" | "find" | "fill" | "answer" | "search" | "sheet",
    AboveEightOutsideLimits: "build" | "check" | "estimate" | "find" | "fill" | "answer" | "search" | "sheet",
    NumeratorAboveEight: "build" | "check" | "estimate" | "find" | "fill" | "answer" | "search" | "sheet",
    AboveEightBeforeTheList: "build" | "check" | "sheet",
    AboveEightBefore5: "build" | "sheet",
    AboveEightAfter6: "build",
    AboveEightBefore7: "check" | "estimate" | "find" | "fill" | "answer" | "search",
    AboveEightAfter8: "check" | "estimate" | "find" | "fill" | "answer" | "search",
    AboveEightLast: "check" | "estimate" | "find" | "fill" | "answer" | "search",
}

const RIGHT: Reference = Reference(Way::FewerRanges);

/// The slow faults keep to short parts, where they show as well.
const SHORT: usize = 60;

/// What refusal 2 named, which came after 1.
fn holds_zero(frequencies: &[u32]) -> bool {
    list_fault(frequencies) != Err(1) && frequencies.contains(&0)
}

/// The reference with a fault in one call; the others answer as they should.
#[derive(Clone, Copy, Debug)]
pub struct Broken {
    pub fault: Fault,
    pub call: &'static str,
}

impl Program for Broken {
    fn class_of(&self, count: u32) -> QhCoded {
        let mut answer = RIGHT.class_of(count);
        match self.fault {
            ZeroCountRefused if count == 0 => return Err(16).into(),
            ClassAtItsStart if count == class_start(62) => answer.value -= 1,
            _ => {}
        }
        answer
    }

    fn number_of_class(&self, class: u32) -> QhCoded {
        match (self.fault, class) {
            (Class63Read, 63) => Ok(1_358_320_421).into(),
            (Class0ReadAs1, 0) => Ok(1).into(),
            _ => RIGHT.number_of_class(class),
        }
    }

    fn code_of_total(&self, total: u32) -> QhCoded {
        let mut answer = RIGHT.code_of_total(total);
        match self.fault {
            ZeroTotalRefused if total == 0 => return Err(16).into(),
            CodeOfAPowerOfTwo if total == 1 << 20 => answer.value -= 1,
            _ => {}
        }
        answer
    }

    fn number_of_total(&self, code: u32) -> QhCoded {
        let mut answer = RIGHT.number_of_total(code);
        match self.fault {
            Code0Refused if code == 0 => return Err(17).into(),
            NumberOfTheLastShift if code % 32 == 23 && answer.refusal == 0 => answer.value += 1,
            _ => {}
        }
        answer
    }

    fn build(&self, frequencies: &[u32], bound: Bound, lent: &mut [u32]) -> QhBuilt {
        match self.call {
            "build" => self.built(frequencies, bound, lent).into(),
            _ => RIGHT.build(frequencies, bound, lent),
        }
    }

    fn check(&self, frequencies: &[u32], words: &[u32]) -> QhVerdict {
        match self.call {
            "check" => self.checked(frequencies, words).into(),
            _ => RIGHT.check(frequencies, words),
        }
    }

    fn estimate(&self, words: &[u32], x: u32, y: u32) -> QhEstimate {
        match self.call {
            "estimate" => self.estimated(words, x, y).into(),
            _ => RIGHT.estimate(words, x, y),
        }
    }

    fn find(&self, words: &[u32], entry: u32) -> QhFound {
        match self.call {
            "find" => self.found(words, entry),
            _ => RIGHT.find(words, entry),
        }
    }

    fn fill_totals(&self, words: &[u32], lent: &mut [u64]) -> QhFilled {
        match self.call {
            "fill" => self.filled(words, lent).into(),
            _ => RIGHT.fill_totals(words, lent),
        }
    }

    fn answer_worksheet(&self, words: &[u32], totals: &[u64], worksheet: &[u32], lent: &mut [u64]) -> QhAnswered {
        match self.call {
            "answer" => self.answered(words, totals, worksheet, lent).into(),
            _ => RIGHT.answer_worksheet(words, totals, worksheet, lent),
        }
    }

    fn estimate_search(&self, words: &[u32], ranges: &[u32]) -> QhEstimate {
        match self.call {
            "search" => self.searched(words, ranges).into(),
            _ => RIGHT.estimate_search(words, ranges),
        }
    }

    fn replay_journal(&self, frequencies: &mut [u32], entries: &[u32], changes: &[i32]) -> QhReplayed {
        match self.call {
            "replay" => self.replayed(frequencies, entries, changes),
            _ => RIGHT.replay_journal(frequencies, entries, changes),
        }
    }

    fn sheet(&self, input: &[u8], lent: &mut Sheet) -> usize {
        match self.call {
            "sheet" => self.listed(input, lent),
            _ => RIGHT.sheet(input, lent),
        }
    }
}
