//! Faults of searches.

use super::Fault::*;
use super::{Broken, RIGHT};
use crate::estimate::exact;
use crate::program::Program;
use crate::search::MOST_RANGES;
use crate::words::{read, Histogram};
use crate::worksheet::pairs;

/// The ranges, where those that touch are one.
fn joined(ranges: &[u32]) -> Vec<(u32, u32)> {
    let mut joined: Vec<(u32, u32)> = Vec::new();
    for (x, y) in pairs(ranges) {
        match joined.last_mut() {
            Some(ahead) if ahead.1 == x => ahead.1 = y,
            _ => joined.push((x, y)),
        }
    }
    joined
}

/// The sum of all ranges, rounded up once.
fn rounded_together(histogram: &Histogram, ranges: &[u32]) -> u64 {
    let sums: Vec<_> = pairs(ranges).map(|(x, y)| exact(histogram, x, y)).collect();
    let whole: u128 = sums.iter().map(|sum| sum.numerator / sum.denominator).sum();
    // Sixteen fractions have too large a denominator together.
    let rest: f64 = sums.iter().map(|sum| (sum.numerator % sum.denominator) as f64 / sum.denominator as f64).sum();
    whole as u64 + (rest - 1e-9).ceil() as u64
}

impl Broken {
    pub(super) fn searched(&self, words: &[u32], ranges: &[u32]) -> Result<u64, u32> {
        if self.fault == SearchesRefused || self.fault == WordsAfter22 && self.wrong_number(ranges) {
            return Err(22);
        }
        let judged = self.judged_words(words, |words| RIGHT.estimate_search(words, ranges).refusal);
        let histogram = self.as_read(read(&judged)?);
        match self.refusal_of_search(&histogram, ranges) {
            Some(refusal) => Err(refusal),
            None => Ok(self.sum_of_estimates(&histogram, ranges)),
        }
    }

    /// The first of 14, 22 and 23.
    fn refusal_of_search(&self, histogram: &Histogram, ranges: &[u32]) -> Option<u32> {
        let left_over = ranges.chunks_exact(2).remainder();
        let beyond = self.fault == WordLeftOverTested && left_over.iter().any(|&word| word > histogram.head.d);
        let mut tests = [
            (14, self.any_misses(histogram, ranges) || beyond),
            (22, self.wrong_number(ranges)),
            (23, self.out_of_order(ranges)),
        ];
        match self.fault {
            OutsideRefusedWith22 => tests[0].0 = 22,
            OutOfOrderRefusedWith22 => tests[2].0 = 22,
            NumberBefore14 => tests.swap(0, 1),
            OrderBefore14 => tests.rotate_right(1),
            OrderBefore22 => tests.swap(1, 2),
            OutsideLast => tests.rotate_left(1),
            _ => {}
        }
        tests.into_iter().find(|test| test.1).map(|test| test.0)
    }

    /// Refusal 22.
    fn wrong_number(&self, ranges: &[u32]) -> bool {
        let full = pairs(ranges).filter(|(x, y)| x < y).count();
        let number = match self.fault {
            EmptyRangesNotCounted => full,
            NumberInAByte => ranges.len() / 2 % 256,
            _ => ranges.len() / 2,
        };
        let least = match self.fault {
            NoRangeAnsweredWith0 => 0,
            OneRangeRefused => 2,
            _ => 1,
        };
        let most = match self.fault {
            SixteenRefused => MOST_RANGES - 1,
            SeventeenTaken => MOST_RANGES + 1,
            _ => MOST_RANGES,
        };
        let left_over = ranges.len() % 2 == 1 && self.fault != WordLeftOverTaken;
        let empty = full < ranges.len() / 2 && self.fault == EmptyRangesRefused;
        left_over || empty || !(least..=most).contains(&number)
    }

    /// Refusal 23.
    fn out_of_order(&self, ranges: &[u32]) -> bool {
        let compared = |(x, y): &(u32, u32)| x < y || self.fault != EmptyRangesPassedOver;
        let ranges: Vec<(u32, u32)> = pairs(ranges).filter(compared).collect();
        let last = ranges.len().saturating_sub(2);
        let places = match self.fault {
            OnlyFirstTwoCompared => 0..1,
            OnlyLastTwoCompared => last..last + 1,
            _ => 0..last + 1,
        };
        let early = |two: &[(u32, u32)]| {
            let ((x, y), (next, end)) = (two[0], two[1]);
            match self.fault {
                AnyOrderTaken => false,
                TouchingRangesRefused => next <= y,
                EmptyRangesAnywhere => next < y && x < y && next < end,
                StartsCompared => next < x,
                EndsCompared => end < y,
                _ => next < y,
            }
        };
        ranges.windows(2).skip(places.start).take(places.len()).any(early)
    }

    fn sum_of_estimates(&self, histogram: &Histogram, ranges: &[u32]) -> u64 {
        let estimate = |range: (u32, u32)| self.estimate_cut_off(histogram, range);
        let estimates = || pairs(ranges).map(estimate);
        let number = ranges.len() / 2;
        match self.fault {
            OnlyFirstRange => estimates().take(1).sum(),
            OnlyLargestEstimate => estimates().max().unwrap_or(0),
            LastRangeLeftOut => estimates().take(number - 1).sum(),
            RangesRoundedTogether => rounded_together(histogram, ranges),
            One1ForAllRanges => {
                let rounded: u64 = pairs(ranges).map(|(x, y)| self.rounded(histogram, x, y)).sum();
                rounded.max(u64::from(pairs(ranges).any(|(x, y)| x < y)))
            }
            TouchingRangesJoined => joined(ranges).into_iter().map(estimate).sum(),
            GapsCountedIn => estimate((ranges[0], ranges[2 * number - 1])),
            SumIn32Bits => estimates().sum::<u64>() & u64::from(u32::MAX),
            _ => estimates().sum(),
        }
    }
}
