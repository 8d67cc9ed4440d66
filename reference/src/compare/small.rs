//! Small lists, with all that is asked of them, and words that are damaged or random.

use super::calls::most_words;
use super::Group::*;
use super::{Asking, Comparison, Group};
use crate::build::{histogram, Way, WAYS};
use crate::generate::damage::{damaged, every_change, random_words};
use crate::generate::foreign::{fitting, wild};
use crate::generate::lists::{bound, some_list, KINDS};
use crate::generate::ranges::{all_ranges, ranges_outside, some_ranges};
use crate::generate::Random;
use crate::list::{Bound, COUNT_LIMIT};
use crate::words::write;

const BUILT: Asking =
    Asking { check: CheckBuilt, estimate: EstimateBuilt, find: FindSmall, demand: (DemandBuilt, SumsBuilt) };

const FOREIGN: Asking =
    Asking { check: CheckForeign, estimate: EstimateForeign, find: FindSmall, demand: (DemandForeign, SumsForeign) };

impl Comparison<'_> {
    pub(super) fn small_lists(&mut self) {
        let mut random = self.random(2);
        for number in 0..self.volume.small {
            let kind = KINDS[number % KINDS.len()];
            let frequencies = some_list(&mut random, kind, 30);
            self.counts.lists += 1;
            for turn in 0..6 {
                let bound = bound(&mut random, &frequencies);
                let groups = ((BuildSmall, SharperSmall), BUILT, FOREIGN);
                self.small_list(&mut random, groups, &frequencies, bound, turn == 0);
            }
        }
    }

    /// Compares a list's histogram and a foreign one, each in groups of its own.
    pub(super) fn small_list(
        &mut self,
        random: &mut Random,
        ((build, sharper), built, foreign): ((Group, Group), Asking, Asking),
        frequencies: &[u32],
        bound: Bound,
        every: bool,
    ) {
        let lent = most_words(frequencies) + random.below(4) as usize;
        let words = self.build(build, Way::Rule, frequencies, bound, lent);
        let words = words.expect("the list is good and the words are enough");
        self.counts.built += 1;
        self.ways_agree(&WAYS, frequencies, bound);
        if every {
            let fewer = random.below(words.len() as u64) as usize;
            for lent in [words.len() - 1, words.len(), fewer] {
                self.build(BuildRefused, Way::FewerRanges, frequencies, bound, lent);
            }
        }
        let other = match random.below(2) {
            0 => wild(random, frequencies, bound),
            _ => fitting(random, frequencies, bound),
        };
        self.counts.foreign += 1;
        self.own(sharper, frequencies, bound, &words);
        if !self.ask_small(random, built, frequencies, &words, every) {
            self.fail(built.check, &format!("built and not accepted: {frequencies:?} {bound}"));
        }
        self.ask_small(random, foreign, frequencies, &write(&other), every);
    }

    /// Checks, estimates and finds, with all ranges and entries or with some; answers whether
    /// the pair is accepted.
    fn ask_small(
        &mut self,
        random: &mut Random,
        asking: Asking,
        frequencies: &[u32],
        words: &[u32],
        every: bool,
    ) -> bool {
        let d = frequencies.len() as u32;
        let (ranges, entries): (Vec<_>, Vec<_>) = if every {
            let ranges = all_ranges(d).chain(ranges_outside(d));
            (ranges.collect(), (0..d + 2).chain([u32::MAX]).collect())
        } else {
            (some_ranges(random, d, 24), vec![random.below(d.into()) as u32])
        };
        for range in ranges {
            self.estimate(asking.estimate, words, range);
        }
        for entry in entries {
            self.find(asking.find, words, entry);
        }
        let accepted = self.check(asking.check, frequencies, words);
        if accepted {
            self.demand_three(asking.demand, frequencies, words, all_ranges(d));
        }
        self.check_other_lists(random, frequencies, words);
        let damaged = damaged(random, words);
        self.damaged_words(random, frequencies, &damaged);
        accepted
    }

    /// The same words against lists that differ a little, or more.
    fn check_other_lists(&mut self, random: &mut Random, frequencies: &[u32], words: &[u32]) {
        let mut other = frequencies.to_vec();
        for _ in 0..random.between(1, 3) {
            let place = random.place(&other);
            let f = other[place];
            other[place] = random.pick(&[f + 1, f.saturating_sub(1), f + f / 2, f / 2 + 1, 1, 0]);
        }
        self.check(CheckOther, &other, words);
        if random.chance(1, 4) {
            spoil(random, &mut other);
            self.check(CheckOther, &other, words);
        }
    }

    pub(super) fn damaged_words(&mut self, random: &mut Random, frequencies: &[u32], words: &[u32]) {
        self.counts.damaged += 1;
        self.check(CheckDamaged, frequencies, words);
        let beyond = frequencies.len() as u64 + 2;
        let (x, y) = (random.below(beyond) as u32, random.below(beyond) as u32);
        self.estimate(EstimateDamaged, words, (x, y));
        self.estimate(EstimateDamaged, words, (x.min(y), x.max(y)));
        self.find(FindDamaged, words, x);
        if random.chance(1, 8) {
            // A fault of the list comes before one of the words.
            let mut other = frequencies.to_vec();
            spoil(random, &mut other);
            self.check(CheckDamaged, &other, words);
        }
    }

    /// Each bit of each word of some histograms, changed by itself, and each shorter list.
    pub(super) fn every_bit(&mut self) {
        let mut random = self.random(3);
        for _ in 0..self.volume.small.div_ceil(200) {
            let kind = random.pick(&KINDS);
            let frequencies = some_list(&mut random, kind, 40);
            let bound = bound(&mut random, &frequencies);
            let built = histogram(Way::FewerRanges, &frequencies, bound).expect("a good list");
            let foreign = wild(&mut random, &frequencies, bound);
            for words in [write(&built), write(&foreign)] {
                for changed in every_change(&words) {
                    self.damaged_words(&mut random, &frequencies, &changed);
                }
            }
        }
    }

    pub(super) fn random_words(&mut self) {
        let mut random = self.random(11);
        for _ in 0..10 * self.volume.small {
            self.counts.random += 1;
            let words = random_words(&mut random);
            let d = words.first().map_or(0, |&d| u64::from(d.min(2_000)));
            let (x, y) = (random.below(d + 1) as u32, random.below(d + 2) as u32);
            self.check(CheckRandom, &vec![random.below(2) as u32; d as usize], &words);
            self.estimate(EstimateRandom, &words, (x, y));
            self.find(FindRandom, &words, x);
        }
    }
}

/// Makes a list faulty, or of another length.
fn spoil(random: &mut Random, frequencies: &mut Vec<u32>) {
    let place = random.place(frequencies);
    match random.below(5) {
        0 => frequencies.push(random.below(2) as u32),
        1 => {
            frequencies.pop();
        }
        2 => frequencies[place] = u32::MAX,
        3 => frequencies.push(COUNT_LIMIT),
        _ => frequencies.clear(),
    }
}
