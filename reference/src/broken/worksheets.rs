//! Faults of running totals and of worksheets.

use super::Fault::*;
use super::{Broken, RIGHT};
use crate::build::lend;
use crate::coding::{class_number, code_number};
use crate::estimate::lies_within;
use crate::list::running_sums;
use crate::program::Program;
use crate::search::MOST_RANGES;
use crate::words::{read, Bucket, Histogram};
use crate::worksheet::pairs;

impl Broken {
    /// What a bucket adds to the running totals.
    fn summed(&self, bucket: &Bucket) -> u64 {
        let number = code_number(bucket.total);
        match self.fault {
            CodesSummed => bucket.total.into(),
            ClassesSummed => bucket.classes.iter().map(|&class| u64::from(class_number(class))).sum(),
            Total0SummedAs1 => number.max(1).into(),
            _ => number.into(),
        }
    }

    fn totals(&self, histogram: &Histogram) -> Vec<u64> {
        let mut totals = running_sums(histogram.buckets.iter().map(|bucket| self.summed(bucket)));
        let buckets = histogram.buckets.len();
        match self.fault {
            LastTotalMissing => totals.truncate(buckets),
            TotalsWithTheirBucket => totals.copy_within(1.., 0),
            TotalsIn32Bits => totals.iter_mut().for_each(|total| *total &= u64::from(u32::MAX)),
            _ => {}
        }
        totals
    }

    pub(super) fn filled(&self, words: &[u32], lent: &mut [u64]) -> Result<usize, u32> {
        if self.fault == ShortBeforeTheWords && lent.is_empty() {
            return Err(19);
        }
        let judged = self.judged_words(words, |words| RIGHT.fill_totals(words, &mut lent.to_vec()).refusal);
        let totals = self.totals(&read(&judged)?);
        let fitting = lent.len().min(totals.len());
        match self.fault {
            OnePlaceTooManyWanted if fitting == lent.len() => return Err(19),
            PlacesBeforeRefusal => lent[..fitting].copy_from_slice(&totals[..fitting]),
            _ => {}
        }
        let number = lend(&totals, lent).ok_or(19u32)?;
        if self.fault == RestCleared {
            lent[number..].fill(0);
        }
        Ok(number)
    }

    pub(super) fn answered(
        &self,
        words: &[u32],
        totals: &[u64],
        worksheet: &[u32],
        lent: &mut [u64],
    ) -> Result<usize, u32> {
        if self.fault == ShortBeforeTheWords && lent.len() < worksheet.len() / 2 {
            return Err(19);
        }
        let refusal = |words: &[u32]| RIGHT.answer_worksheet(words, totals, worksheet, &mut lent.to_vec()).refusal;
        let judged = self.judged_words(words, refusal);
        let histogram = self.as_read(read(&judged)?);
        let answer = |range: (u32, u32)| self.estimate_cut_off(&histogram, range);
        if let Some(refusal) = self.refusal(&histogram, totals, worksheet, lent.len()) {
            if self.fault == PlacesBeforeRefusal && refusal == 21 {
                lent.iter_mut().zip(pairs(worksheet)).for_each(|(place, range)| *place = answer(range));
            }
            return Err(refusal);
        }
        let answers: Vec<u64> = pairs(worksheet).map(answer).collect();
        let number = lend(&answers, lent).ok_or(19u32)?;
        match self.fault {
            RestCleared => lent[number..].fill(0),
            OneAnswerTooMany => lent.iter_mut().skip(number).take(1).for_each(|place| *place = 0),
            WordsCounted => return Ok(worksheet.len()),
            _ => {}
        }
        Ok(number)
    }

    /// The first of 19 to 21.
    fn refusal(&self, histogram: &Histogram, totals: &[u64], worksheet: &[u32], lent: usize) -> Option<u32> {
        let right = self.totals(histogram);
        let answers = match self.fault {
            HalfRoundedUp => worksheet.len().div_ceil(2),
            _ => worksheet.len() / 2,
        };
        let mut tests = [
            (19, totals.len() < right.len() || lent < answers),
            (20, self.totals_differ(&right, totals)),
            (21, self.worksheet_misses(histogram, worksheet)),
        ];
        match self.fault {
            ShortAfter20 => tests.swap(0, 1),
            ShortAfter21 => tests.rotate_left(1),
            TotalsAfter21 => tests.swap(1, 2),
            OutsideRefusedWith14 if worksheet.len().is_multiple_of(2) => tests[2].0 = 14,
            _ => {}
        }
        tests.into_iter().find(|test| test.1).map(|test| test.0)
    }

    /// Refusal 20, of as many totals as there are.
    fn totals_differ(&self, right: &[u64], totals: &[u64]) -> bool {
        let last = right.len() - 1;
        let differs = |place: usize| totals.get(place).is_some_and(|&total| total != right[place.min(last)]);
        match self.fault {
            TotalsNotLookedAt => false,
            LastTotalNotLookedAt => (0..last).any(differs),
            OnlyLastTotalLookedAt => differs(last),
            OneTotalTooFar => (0..=last + 1).any(differs),
            OnlyStepsLookedAt => {
                let mut steps = totals.windows(2).zip(right.windows(2));
                steps.any(|(a, b)| a[1].wrapping_sub(a[0]) != b[1] - b[0])
            }
            _ => (0..=last).any(differs),
        }
    }

    /// Refusal 21.
    fn worksheet_misses(&self, histogram: &Histogram, worksheet: &[u32]) -> bool {
        let left_over = worksheet.len() % 2 == 1 && self.fault != WordLeftOverTaken;
        let empty = worksheet.is_empty() && self.fault == EmptyWorksheetRefused;
        left_over || empty || self.any_misses(histogram, worksheet)
    }

    /// Whether some range does not lie within the list.
    pub(super) fn any_misses(&self, histogram: &Histogram, ranges: &[u32]) -> bool {
        let tested = match self.fault {
            LastRangeNotTested => (ranges.len() / 2).saturating_sub(1),
            SixteenTested => MOST_RANGES,
            _ => ranges.len() / 2,
        };
        let misses = |(x, y): (u32, u32)| match self.fault {
            RangesBackwardsTaken => y > histogram.head.d,
            RangesToTheEndRefused => x > y || y >= histogram.head.d,
            _ => !lies_within(histogram, x, y),
        };
        pairs(ranges).take(tested).any(misses)
    }
}
