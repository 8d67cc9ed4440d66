//! Running totals, and worksheets that are answered and that are refused.

use super::large::{bucket_for_each, most_buckets, wide_list, REAL_BOUNDS};
use super::zeros::{of_three_entries, short_lists, BOUNDS, LISTS};
use super::Group::*;
use super::{Comparison, Group};
use crate::build::{histogram, Way};
use crate::generate::damage::{damaged, every_change, random_words};
use crate::generate::foreign::wild;
use crate::generate::lists::{bound, list, some_list, KINDS};
use crate::generate::ranges::{all_ranges, ranges_about_edges, ranges_outside, some_ranges};
use crate::generate::worksheets::{Worksheet, FAULTS};
use crate::generate::Random;
use crate::list::Bound;
use crate::words::{read, write};

impl Comparison<'_> {
    pub(super) fn worksheets(&mut self) {
        let mut random = self.random(14);
        self.worksheets_of_small_lists(&mut random);
        self.worksheets_of_large_lists(&mut random);
        self.worksheets_of_real_lists(&mut random);
        self.worksheets_with_zeros(&mut random);
        for frequencies in [&[10; 4][..], &[0, 0, 5], &[1, 100, 1, 100, 1, 100, 1, 100, 1], &[1; 9]] {
            self.short_list_throughout(&mut random, frequencies);
        }
        for _ in 0..self.volume.small {
            self.random_worksheet(&mut random);
        }
    }

    pub(super) fn built_and_foreign(
        &mut self,
        random: &mut Random,
        sharper: Group,
        frequencies: &[u32],
        bound: Bound,
    ) -> [Vec<u32>; 2] {
        self.counts.lists += 1;
        self.counts.built += 1;
        self.counts.foreign += 1;
        let built = histogram(Way::FewerRanges, frequencies, bound).expect("a good list");
        let words = [built, wild(random, frequencies, bound)].map(|histogram| write(&histogram));
        self.own(sharper, frequencies, bound, &words[0]);
        words
    }

    fn worksheets_of_small_lists(&mut self, random: &mut Random) {
        for number in 0..self.volume.small / 5 {
            let frequencies = some_list(random, KINDS[number % KINDS.len()], 30);
            let bound = bound(random, &frequencies);
            let histograms = self.built_and_foreign(random, SharperWorksheets, &frequencies, bound);
            for (groups, words) in [(FillBuilt, AnswerBuilt), (FillForeign, AnswerForeign)].iter().zip(histograms) {
                self.ask_worksheets(random, *groups, &words, 40);
                self.answer(groups.1, &Worksheet::new(&words, all_ranges(words[0])));
            }
        }
    }

    /// A list whose histogram and a foreign one are asked in the same groups.
    fn worksheets_of(&mut self, random: &mut Random, groups: (Group, Group), frequencies: &[u32], bound: Bound) {
        for words in self.built_and_foreign(random, SharperWorksheets, frequencies, bound) {
            self.ask_worksheets(random, groups, &words, 400.min(10 * frequencies.len()));
        }
    }

    /// Wide lists, long ones, and one with the most buckets.
    pub(super) fn some_large_lists(&self, random: &mut Random) -> Vec<Vec<u32>> {
        let mut lists: Vec<Vec<u32>> = (0..self.volume.wide / 4).map(|_| wide_list(random)).collect();
        lists.extend(KINDS.map(|kind| list(random, kind, self.volume.longest / 3)));
        lists.push(most_buckets(self.volume.longest));
        lists
    }

    fn worksheets_of_large_lists(&mut self, random: &mut Random) {
        let groups = (FillLarge, AnswerLarge);
        for frequencies in self.some_large_lists(random) {
            let bound = bound(random, &frequencies);
            self.worksheets_of(random, groups, &frequencies, bound);
        }
        // As many buckets as entries, with the largest sum of totals and with the smallest.
        for (class, total) in [(62, 4_087), (0, 0)] {
            let words = bucket_for_each(self.volume.longest as u32, BOUNDS[0], class, total);
            self.counts.foreign += 1;
            self.ask_worksheets(random, groups, &words, 60);
        }
    }

    fn worksheets_of_real_lists(&mut self, random: &mut Random) {
        for frequencies in self.real.clone() {
            for bound in REAL_BOUNDS {
                self.worksheets_of(random, (FillReal, AnswerReal), &frequencies, bound);
            }
        }
    }

    fn worksheets_with_zeros(&mut self, random: &mut Random) {
        let groups = (FillZeros, AnswerZeros);
        for (frequencies, bound) in LISTS {
            self.worksheets_of(random, groups, frequencies, bound);
        }
        for frequencies in short_lists(3) {
            for bound in BOUNDS {
                self.worksheets_of(random, groups, &frequencies, bound);
            }
        }
        // Not all of these are read.
        for words in of_three_entries(BOUNDS[0]) {
            self.counts.foreign += 1;
            self.fill(FillZeros, &words, 2);
            self.answer(AnswerZeros, &Worksheet::new(&words, all_ranges(words[0])));
        }
    }

    /// Fills running totals, answers a worksheet of some ranges, and one of a few with each fault.
    fn ask_worksheets(&mut self, random: &mut Random, (fill, answer): (Group, Group), words: &[u32], number: usize) {
        let histogram = read(words).expect("words that are read");
        let places = histogram.buckets.len() + 1;
        for more in [0, 1, 5] {
            self.fill(fill, words, places + more);
        }
        for fewer in [1, places, random.between(1, places as u64) as usize] {
            self.fill(FillShort, words, places - fewer);
        }
        let mut ranges = some_ranges(random, histogram.head.d, number / 2);
        ranges.extend(ranges_about_edges(random, &histogram, number / 2));
        let worksheet = Worksheet::new(words, ranges);
        self.answer(answer, &worksheet);
        self.answer(answer, &worksheet.roomy(random));
        let number = random.below(5) as usize;
        let few = Worksheet::new(words, ranges_about_edges(random, &histogram, number));
        self.faulty_worksheets(random, answer, few);
        let damaged = damaged(random, words);
        self.damaged_worksheet(words, &damaged);
    }

    /// A good worksheet as it is, and with each fault that is not of its words.
    fn faulty_worksheets(&mut self, random: &mut Random, answer: Group, mut good: Worksheet) {
        if random.chance(1, 2) {
            good = good.roomy(random);
        }
        self.answer(answer, &good);
        for (group, faults) in [AnswerShort, AnswerTotals, AnswerOutside].into_iter().zip(&FAULTS[1..]) {
            for faulty in faults(&good) {
                self.answer(group, &faulty);
            }
        }
        // One bit of any place, also past those needed.
        let place = random.place(&good.totals);
        good.totals[place] ^= 1 << random.below(64);
        self.answer(AnswerTotals, &good);
    }

    /// Changed words with the running totals of those that were good and with their own, and with all that is refused
    /// after words.
    fn damaged_worksheet(&mut self, good: &[u32], words: &[u32]) {
        self.counts.damaged += 1;
        let ranges = [(0, good[0]), (0, 1), (good[0], good[0])];
        let good = Worksheet::new(good, ranges);
        let changed = Worksheet { words: words.to_vec(), ..good.clone() };
        self.answer(AnswerDamaged, &changed);
        self.answer(AnswerDamaged, &Worksheet { totals: vec![], ranges: vec![1, 0, 0], lent: 0, ..changed });
        self.answer(AnswerDamaged, &Worksheet::new(words, ranges));
        for lent in [0, good.totals.len()] {
            self.fill(FillDamaged, words, lent);
        }
    }

    /// The histogram of a short list with lists of every length, every two faults, every bit and every number of words.
    fn short_list_throughout(&mut self, random: &mut Random, frequencies: &[u32]) {
        let built = histogram(Way::FewerRanges, frequencies, BOUNDS[0]).expect("a good list");
        let words = write(&built);
        self.counts.lists += 1;
        self.counts.built += 1;
        self.own(SharperWorksheets, frequencies, BOUNDS[0], &words);
        let good = Worksheet::new(&words, ranges_about_edges(random, &built, 4));
        self.every_length(&good.roomy(random));
        self.two_faults_of(&good);
        self.two_faults_of(&good.roomy(random));
        for changed in every_change(&words) {
            self.damaged_worksheet(&words, &changed);
        }
    }

    fn every_length(&mut self, worksheet: &Worksheet) {
        for totals in 0..=worksheet.totals.len() {
            for ranges in 0..=worksheet.ranges.len() {
                for lent in 0..=worksheet.lent {
                    let (totals, ranges) = (worksheet.totals[..totals].to_vec(), worksheet.ranges[..ranges].to_vec());
                    self.answer(AnswerShort, &Worksheet { words: worksheet.words.clone(), totals, ranges, lent });
                }
            }
        }
    }

    /// Every two faults with different refusals. The first is made last, since it may leave too little for the second.
    fn two_faults_of(&mut self, good: &Worksheet) {
        for (place, first) in FAULTS.iter().enumerate() {
            for second in FAULTS[place + 1..].iter().flat_map(|second| second(good)) {
                for faulty in first(&second) {
                    self.answer(AnswerTwoFaults, &faulty);
                }
            }
        }
    }

    fn random_worksheet(&mut self, random: &mut Random) {
        self.counts.random += 1;
        let words = random_words(random);
        let d = words.first().map_or(0, |&d| d.min(2_000));
        let mut ranges = some_ranges(random, d, 6);
        if random.chance(1, 4) {
            let place = random.place(&ranges);
            ranges[place] = random.pick(&ranges_outside(d));
        }
        let mut worksheet = Worksheet::new(&words, ranges);
        if random.chance(1, 4) {
            let place = random.place(&worksheet.totals);
            worksheet.totals[place] ^= 1;
        }
        self.answer(AnswerRandom, &worksheet);
        self.fill(FillRandom, &words, random.between(0, 5) as usize);
    }

    /// Words whose q is about 8, with enough of everything and with too little.
    pub(super) fn worksheet_slips(&mut self, words: &[u32], d: u32) {
        for lent in [0, 4] {
            self.fill(FillSlips, words, lent);
        }
        let worksheet = Worksheet::new(words, [(0, d), (0, 1)]);
        self.answer(AnswerSlips, &worksheet);
        self.answer(AnswerSlips, &Worksheet { totals: vec![], ranges: vec![1, 0, 0], lent: 0, ..worksheet });
    }
}
