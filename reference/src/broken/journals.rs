//! Faults of journals.

use super::Fault::*;
use super::{holds_zero, Broken};
use crate::journal::{lines, MOST_LINES};
use crate::list::{count, COUNT_LIMIT, MOST_ENTRIES};
use crate::program::QhReplayed;
use std::collections::BTreeSet;

/// What the lines make of a list before one of them breaks a bound, and which does so, with its refusal.
struct Replayed {
    frequencies: Vec<i64>,
    sum: i64,
    broken: Option<(usize, u32)>,
}

impl Broken {
    pub(super) fn replayed(&self, frequencies: &mut [u32], entries: &[u32], changes: &[i32]) -> QhReplayed {
        let before = count(frequencies);
        let replayed = self.after_lines(frequencies, entries, changes);
        let refusal = self.refusal_of_journal(frequencies, entries, changes, &replayed);
        let written = match self.fault {
            ListNotWritten => false,
            LinesBefore26Kept => refusal.is_none_or(|refusal| refusal == 26),
            LinesBefore27Kept => refusal.is_none_or(|refusal| refusal == 27),
            _ => refusal.is_none(),
        };
        if written {
            frequencies.iter_mut().zip(&replayed.frequencies).for_each(|(place, &after)| *place = after as u32);
        }
        let sum = match (self.fault, refusal) {
            (SumBesideRefusal, Some(_)) | (OldSumAnswered, None) => before as u32,
            (_, Some(_)) => 0,
            (LinesAnswered, None) => entries.len() as u32,
            (MoveOfTheSumAnswered, None) => (replayed.sum - before as i64) as u32,
            (_, None) => replayed.sum as u32,
        };
        QhReplayed { refusal: refusal.unwrap_or(0), sum }
    }

    /// The lines that are replayed.
    fn lines(&self, entries: &[u32], changes: &[i32]) -> Vec<(usize, i64)> {
        let mut lines: Vec<(usize, i64)> = lines(entries, changes).collect();
        let mut met = BTreeSet::new();
        match self.fault {
            ChangesUnsigned => lines.iter_mut().for_each(|line| line.1 &= i64::from(u32::MAX)),
            EntriesIn16Bits => lines.iter_mut().for_each(|line| line.0 %= MOST_ENTRIES),
            LinesIn16Bits => lines.truncate(lines.len() % MOST_LINES),
            LinesBackwards => lines.reverse(),
            LastLineLeftOut => lines.truncate(lines.len().saturating_sub(1)),
            OnlyFirstLineOfAnEntry => lines.retain(|line| met.insert(line.0)),
            _ => {}
        }
        lines
    }

    /// A line outside the list changes nothing, if it was not refused.
    fn after_lines(&self, frequencies: &[u32], entries: &[u32], changes: &[i32]) -> Replayed {
        let frequencies: Vec<i64> = frequencies.iter().map(|&frequency| frequency.into()).collect();
        let mut replayed = Replayed { sum: frequencies.iter().sum(), frequencies, broken: None };
        let lines = self.lines(entries, changes);
        for (number, &(entry, change)) in lines.iter().enumerate() {
            let Some(&frequency) = replayed.frequencies.get(entry) else {
                if self.fault == LinesBefore26Kept {
                    break;
                }
                continue;
            };
            let least = if self.fault == FrequenciesStopAt0 { 0 } else { i64::MIN };
            let after = (frequency + change).max(least);
            let sum = replayed.sum + after - frequency;
            if let Some(refusal) = self.broken_bound(after, sum) {
                replayed.broken = Some((number, refusal));
                break;
            }
            (replayed.frequencies[entry], replayed.sum) = (after, sum);
        }
        if matches!(self.fault, BoundsTestedAtTheEnd | SumTestedAtTheEnd | FrequenciesTestedAtTheEnd) {
            let broken = replayed.frequencies.iter().any(|&after| after < 0) || replayed.sum > COUNT_LIMIT.into();
            replayed.broken = replayed.broken.or(broken.then_some((lines.len(), 27)));
        }
        replayed
    }

    /// The refusal if a line takes a frequency or the sum beyond its bound.
    fn broken_bound(&self, frequency: i64, sum: i64) -> Option<u32> {
        let below = match self.fault {
            BelowZeroTaken | FrequenciesTestedAtTheEnd | BoundsTestedAtTheEnd => false,
            ZeroTakenForBelow => frequency < 1,
            _ => frequency < 0,
        };
        let limit = i64::from(COUNT_LIMIT);
        let above = match self.fault {
            SumTestedAtTheEnd | BoundsTestedAtTheEnd => false,
            SumIn32Bits => i64::from(sum as i32) > limit,
            LimitOneTooLow => sum >= limit,
            LimitOneTooHigh => sum > limit + 1,
            _ => sum > limit,
        };
        let number = if self.fault == AboveTheLimitRefusedWith3 && above { 3 } else { 27 };
        (below || above).then_some(number)
    }

    /// The first of 1, 3 and 25 to 27.
    fn refusal_of_journal(
        &self,
        frequencies: &[u32],
        entries: &[u32],
        changes: &[i32],
        replayed: &Replayed,
    ) -> Option<u32> {
        let outside = self.first_outside(frequencies, entries, changes);
        let mut tests = [
            (1, frequencies.is_empty() || frequencies.len() > MOST_ENTRIES && self.fault != LongListsTaken),
            (3, count(frequencies) > COUNT_LIMIT.into() && self.fault != SumOfTheListNotTested),
            (25, self.wrong_number_of_lines(entries.len(), changes.len())),
            (26, outside.is_some()),
            (replayed.broken.map_or(27, |broken| broken.1), replayed.broken.is_some()),
        ];
        match self.fault {
            JournalsRefused => tests[4].1 = true,
            ZeroFrequencyRefusedByReplay if holds_zero(frequencies) => tests[0] = (2, true),
            NumberBefore1 => tests[..3].rotate_right(1),
            NumberBefore3 => tests.swap(1, 2),
            EntriesBefore25 => tests.swap(2, 3),
            BoundsBefore25 => tests[2..].rotate_right(1),
            BoundsBefore26 => tests.swap(3, 4),
            FirstFaultyLineNamed if replayed.broken.is_some_and(|(line, _)| Some(line) < outside) => tests.swap(3, 4),
            OutsideRefusedWith15 => tests[3].0 = 15,
            _ => {}
        }
        tests.into_iter().find(|test| test.1).map(|test| test.0)
    }

    /// Refusal 25.
    fn wrong_number_of_lines(&self, entries: usize, changes: usize) -> bool {
        let most = match self.fault {
            MostLinesRefused => MOST_LINES - 1,
            OneLineTooManyTaken => MOST_LINES + 1,
            LinesIn16Bits => usize::MAX,
            _ => MOST_LINES,
        };
        let unequal = match self.fault {
            UnequalTakenByTheShorter => false,
            ChangesLeftOverTaken => entries > changes,
            _ => entries != changes,
        };
        let empty = entries == 0 && self.fault == EmptyJournalRefused;
        unequal || empty || entries.min(changes) > most
    }

    /// The first line that 26 names, of those that are in both lists or in the longer one.
    fn first_outside(&self, frequencies: &[u32], entries: &[u32], changes: &[i32]) -> Option<usize> {
        let tested = match self.fault {
            UnequalTakenByTheShorter => entries.len().min(changes.len()),
            LastEntryNotTested => entries.len().saturating_sub(1),
            _ => entries.len(),
        };
        let d = frequencies.len();
        let outside = |&entry: &u32| match (self.fault, entry as usize) {
            (EntryAtTheLengthTaken, entry) => entry > d,
            (LastEntryRefused, entry) => entry + 1 >= d,
            (EntriesIn16Bits, entry) => entry % MOST_ENTRIES >= d,
            (_, entry) => entry >= d,
        };
        entries[..tested].iter().position(outside)
    }
}
