//! The comparison finds nothing where there is nothing, and each known fault where it is.

use reference::broken::{Broken, Fault, FAULTS};
use reference::build::WAYS;
use reference::compare::{Comparison, Volume};
use reference::program::{Program, Reference};

/// What is compared.
type Run = fn(&mut Comparison) -> bool;

const ALL: Run = |comparison| comparison.run();
const JOURNALS: Run = |comparison| comparison.run_journals();
const PASSES: Run = |comparison| comparison.run_passes();
const STARTS: Run = |comparison| comparison.run_starts();

/// Some faults of a builder that keeps one start for each bound show on few lists.
const MORE_STARTS: Volume = Volume { starts: 40, ..Volume::QUICK };

/// Whether a program passes, and what is printed.
fn compared(program: &dyn Program, volume: Volume, run: Run) -> (bool, String) {
    let real = vec![vec![1, 60, 3, 3, 3, 2, 900, 1, 1, 4, 4, 4, 5]];
    let mut out = Vec::new();
    let passed = run(&mut Comparison::new(program, volume, 1, real, &mut out));
    (passed, String::from_utf8(out).expect("text"))
}

#[test]
fn a_right_program_passes() {
    for way in &WAYS[1..] {
        let (passed, out) = compared(&Reference(*way), Volume::QUICK, ALL);
        assert!(passed && out.ends_with(" passed, 0 failed\n"), "{out}");
        assert!(!out.contains("MISMATCH"), "{out}");
    }
}

const NEAR: &str = "check: bucketlets up to theta or q";
const BEYOND: &str = "check: bucketlets a hair beyond";
const SHORT_STARTS: &str = "build: short lists aimed at a lowest start";
const WHOLES: &str = "build: whole bucketlets and buckets within 5/4";
const GOOD: &str = "replay: good journals, and up to either bound";
const BELOW: &str = "replay: a frequency below 0";
const ABOVE: &str = "replay: the sum above its limit";
const TWO_FAULTS: &str = "replay: two faults at once";
const MOVED: &str = "replay: what each frequency and the sum moved by";
const JOINED: &str = "replay: two journals one after the other, and joined";
const BACKWARDS: &str = "replay: backwards brings the list back";

/// A group that must find a fault, whichever others do.
const FOUND_BY: [(Fault, &str); 81] = [
    (Fault::CountOfThetaHeavy, SHORT_STARTS),
    (Fault::CountOfAQthHeavy, SHORT_STARTS),
    (Fault::ThetaForBothBounds, SHORT_STARTS),
    (Fault::QthForBothBounds, SHORT_STARTS),
    (Fault::QthRoundedUp, SHORT_STARTS),
    (Fault::LowestNeverReplaced, SHORT_STARTS),
    (Fault::LowestAlwaysReplaced, SHORT_STARTS),
    (Fault::LowestNotRenewed, SHORT_STARTS),
    (Fault::LowestTakenUnsearched, SHORT_STARTS),
    (Fault::FirstSteeperTaken, SHORT_STARTS),
    (Fault::FirstStartNotSearched, SHORT_STARTS),
    (Fault::NearestStartNotSearched, SHORT_STARTS),
    (Fault::LightStartSearched, SHORT_STARTS),
    (Fault::SearchOneShort, SHORT_STARTS),
    (Fault::SplitAtTheThreshold, SHORT_STARTS),
    (Fault::LongestLeftOut, SHORT_STARTS),
    (Fault::LongestNotKept, SHORT_STARTS),
    (Fault::LongestOneShort, SHORT_STARTS),
    (Fault::LongestOneLong, SHORT_STARTS),
    (Fault::BoundsIn32Bits, SHORT_STARTS),
    (Fault::FirstStartLeftOut, BEYOND),
    (Fault::LastStartLeftOut, BEYOND),
    (Fault::FirstStartMetNamed, BEYOND),
    (Fault::LastEndNamed, BEYOND),
    (Fault::LastEndLeftOut, BEYOND),
    (Fault::OnlyCountsAboveTheta, BEYOND),
    (Fault::OnlyEstimatesAboveTheta, BEYOND),
    (Fault::FirstEndPastThetaMissed, BEYOND),
    (Fault::EndAtThetaTaken, NEAR),
    (Fault::EndsBeforeForgotten, BEYOND),
    (Fault::GreatestNotKept, BEYOND),
    (Fault::EqualityFails, NEAR),
    (Fault::EqualityOfTheWholeFails, NEAR),
    (Fault::WholePassedOver, BEYOND),
    (Fault::LaterStartBeforeTheWhole, BEYOND),
    (Fault::ThetaNotTimesTheWidth, BEYOND),
    (Fault::ProductsIn32Bits, BEYOND),
    (Fault::NarrowOnesPassedOver, BEYOND),
    (Fault::ClassHigherWithinQ, WHOLES),
    (Fault::ClassLowerWithinQ, WHOLES),
    (Fault::TotalHighestWithinQ, WHOLES),
    (Fault::TotalLowestWithinQ, WHOLES),
    (Fault::ClassBelowRead, "estimate: the sharper rule, directed lists"),
    (Fault::ZeroTakenForBelow, GOOD),
    (Fault::LimitOneTooLow, GOOD),
    (Fault::FrequenciesTestedAtTheEnd, BELOW),
    (Fault::FrequenciesStopAt0, BELOW),
    (Fault::SumTestedAtTheEnd, ABOVE),
    (Fault::LimitOneTooHigh, ABOVE),
    (Fault::MostLinesRefused, "replay: large lists and long journals"),
    (Fault::OneLineTooManyTaken, "replay: too many lines, and lists of unequal length"),
    (Fault::NumberBefore1, TWO_FAULTS),
    (Fault::NumberBefore3, TWO_FAULTS),
    (Fault::EntriesBefore25, TWO_FAULTS),
    (Fault::BoundsBefore25, TWO_FAULTS),
    (Fault::BoundsBefore26, TWO_FAULTS),
    (Fault::FirstFaultyLineNamed, TWO_FAULTS),
    (Fault::ListNotWritten, MOVED),
    (Fault::LastLineLeftOut, MOVED),
    (Fault::OldSumAnswered, MOVED),
    (Fault::SumTestedAtTheEnd, JOINED),
    (Fault::FrequenciesTestedAtTheEnd, JOINED),
    (Fault::BoundsTestedAtTheEnd, JOINED),
    (Fault::LinesBackwards, JOINED),
    (Fault::MostLinesRefused, JOINED),
    (Fault::OneLineTooManyTaken, JOINED),
    (Fault::EmptyJournalRefused, JOINED),
    (Fault::LastEntryNotTested, JOINED),
    (Fault::BoundsBefore26, JOINED),
    (Fault::FirstFaultyLineNamed, JOINED),
    (Fault::LinesBefore27Kept, JOINED),
    (Fault::OldSumAnswered, JOINED),
    (Fault::ListNotWritten, BACKWARDS),
    (Fault::ChangesUnsigned, BACKWARDS),
    (Fault::LastLineLeftOut, BACKWARDS),
    (Fault::FrequenciesStopAt0, BACKWARDS),
    (Fault::BelowZeroTaken, BACKWARDS),
    (Fault::ZeroTakenForBelow, BACKWARDS),
    (Fault::LimitOneTooLow, BACKWARDS),
    (Fault::OldSumAnswered, BACKWARDS),
    // It takes a change that has no negation.
    (Fault::EntryAtTheLengthTaken, BACKWARDS),
];

/// Fails unless a fault is found in its call and nowhere else.
fn expect_found(fault: Fault, call: &'static str) {
    let broken = Broken { fault, call };
    // One part replays all journals: that such a fault shows nowhere else is seen of the one that refuses all. One part
    // is aimed at faults of a pass, and one at those of a lowest start: that those of a checker or of a builder show
    // nowhere else is seen of the others.
    let (all, volume, run) = match fault {
        Fault::JournalsRefused => (true, Volume::QUICK, ALL),
        _ if call == "replay" => (false, Volume::QUICK, JOURNALS),
        _ if broken.is_of_a_pass() => (false, Volume::QUICK, PASSES),
        _ if broken.is_of_a_start() => (false, MORE_STARTS, STARTS),
        _ => (true, Volume::QUICK, ALL),
    };
    let (passed, out) = compared(&broken, volume, run);
    assert!(!passed, "{fault:?} in {call} was not found");
    assert!(!out.ends_with(" 0 failed\n"), "{fault:?} in {call}: {out}");
    let ran = |line: &&str| all || !line.ends_with(": 0, 0 mismatches");
    let failed: Vec<&str> = out.lines().filter_map(|line| line.strip_prefix("FAILED  ")).filter(ran).collect();
    assert!(!failed.is_empty(), "{fault:?} in {call}: {out}");
    assert!(failed.iter().all(|group| group.starts_with(call)), "{fault:?} in {call}: {failed:?}");
    for (_, group) in FOUND_BY.iter().filter(|known| known.0 == fault) {
        let found = failed.iter().any(|line| line.starts_with(&format!("{group}: ")));
        assert!(found, "{fault:?} not by {group}: {failed:?}");
    }
}

#[test]
fn every_fault_is_found_in_its_call_and_nowhere_else() {
    // In halves, by turns, since this takes longer than all other tests together.
    std::thread::scope(|scope| {
        for first in 0..2 {
            let half = FAULTS.iter().skip(first).step_by(2);
            scope.spawn(|| half.for_each(|&(fault, call)| expect_found(fault, call)));
        }
    });
}
