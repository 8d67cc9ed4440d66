//! Searches that are answered and that are refused.

use super::factors::Accepted;
use super::large::{bucket_for_each, REAL_BOUNDS};
use super::zeros::{of_three_entries, short_lists, BOUNDS, LISTS};
use super::Group::*;
use super::{Comparison, Group};
use crate::build::{histogram, Way};
use crate::generate::damage::{damaged, every_change, random_words};
use crate::generate::directed::{known, repeated, spikes, DirectedSearch};
use crate::generate::lists::{bound, some_list, KINDS};
use crate::generate::ranges::{ranges_outside, some_ranges};
use crate::generate::searches::{every_few_words, in_order, one_of_each, ranges_in_order, Search, FAULTS};
use crate::generate::Random;
use crate::list::Bound;
use crate::search::MOST_RANGES;
use crate::words::{read, write};

/// Longer lists are not repeated every number of times.
const SHORT: usize = 500;

/// Short lists. One search of each is given every two faults; the number is how many ranges it has.
const SHORT_LISTS: [(&[u32], usize); 4] =
    [(&[10; 4], 3), (&[0, 0, 5], 2), (&[1, 100, 1, 100, 1, 100, 1, 100, 1], MOST_RANGES), (&[1], 1)];

/// More words than these are not read for every number of ranges.
const MANY_WORDS: usize = 1_000;

impl Comparison<'_> {
    pub(super) fn searches(&mut self) {
        let mut random = self.random(15);
        for number in 0..self.volume.small / 5 {
            let frequencies = some_list(&mut random, KINDS[number % KINDS.len()], 30);
            let bound = bound(&mut random, &frequencies);
            self.searches_of(&mut random, [SearchBuilt, SearchForeign], &frequencies, bound);
        }
        self.searches_of_large_lists(&mut random);
        for frequencies in self.real.clone() {
            for bound in REAL_BOUNDS {
                self.searches_of(&mut random, [SearchReal; 2], &frequencies, bound);
            }
        }
        self.searches_with_zeros(&mut random);
        self.directed_searches();
        for (frequencies, number) in SHORT_LISTS {
            self.short_list_of_searches(&mut random, frequencies, number);
        }
        for _ in 0..self.volume.small {
            self.random_search(&mut random);
        }
    }

    /// A list's histogram and a foreign one, each in a group of its own.
    fn searches_of(&mut self, random: &mut Random, groups: [Group; 2], frequencies: &[u32], bound: Bound) {
        let [built, foreign] = self.built_and_foreign(random, SharperSearches, frequencies, bound);
        let accepted = Accepted::new(frequencies, &built);
        for ranges in self.good_searches(random, groups[0], &built) {
            self.rule_for_search(SumsSearches, &accepted, &ranges);
        }
        self.good_searches(random, groups[1], &foreign);
        for words in [built, foreign] {
            self.faulty_searches(random, &words);
        }
    }

    /// Searches of every number of ranges, or of some where reading takes long; hands back their ranges.
    fn good_searches(&mut self, random: &mut Random, group: Group, words: &[u32]) -> Vec<Vec<(u32, u32)>> {
        let histogram = read(words).expect("words that are read");
        let numbers = match words.len() <= MANY_WORDS {
            true => (1..=MOST_RANGES).collect(),
            false => vec![1, 2, random.between(3, MOST_RANGES as u64 - 1) as usize, MOST_RANGES],
        };
        let ranges = |&number: &usize| ranges_in_order(random, &histogram, number);
        let searches: Vec<Vec<(u32, u32)>> = numbers.iter().map(ranges).collect();
        for ranges in &searches {
            self.search(group, &Search::new(words, ranges.iter().copied()));
        }
        searches
    }

    /// A search with each fault that is not of its words, and by damaged words.
    fn faulty_searches(&mut self, random: &mut Random, words: &[u32]) {
        let histogram = read(words).expect("words that are read");
        let number = random.any_size(MOST_RANGES as u64) as usize;
        let good = Search::new(words, ranges_in_order(random, &histogram, number));
        for (group, faults) in [SearchOutside, SearchNumber, SearchOrder].into_iter().zip(&FAULTS[1..]) {
            for faulty in faults(&good) {
                self.search(group, &faulty);
            }
        }
        self.damaged_search(&good, &damaged(random, words));
    }

    /// Changed words, with a search that was good and with all that is refused after words.
    fn damaged_search(&mut self, good: &Search, words: &[u32]) {
        self.counts.damaged += 1;
        for ranges in one_of_each(good.words[0]).into_iter().chain([good.ranges.clone()]) {
            self.search(SearchDamaged, &Search { words: words.to_vec(), ranges });
        }
    }

    fn searches_of_large_lists(&mut self, random: &mut Random) {
        for frequencies in self.some_large_lists(random) {
            let bound = bound(random, &frequencies);
            self.searches_of(random, [SearchLarge; 2], &frequencies, bound);
        }
        // As many buckets as entries, with the largest sum of totals and with the smallest.
        for (class, total) in [(62, 4_087), (0, 0)] {
            let words = bucket_for_each(self.volume.longest as u32, BOUNDS[0], class, total);
            self.counts.foreign += 1;
            self.good_searches(random, SearchLarge, &words);
        }
    }

    fn searches_with_zeros(&mut self, random: &mut Random) {
        for (frequencies, bound) in LISTS {
            self.searches_of(random, [SearchZeros; 2], frequencies, bound);
        }
        for frequencies in short_lists(3) {
            self.searches_of(random, [SearchZeros; 2], &frequencies, BOUNDS[0]);
        }
        // Not all of these are read.
        for words in of_three_entries(BOUNDS[0]) {
            self.counts.foreign += 1;
            for ranges in [vec![(0, 3)], vec![(0, 1), (1, 3)], vec![(0, 0), (0, 2), (2, 3)]] {
                self.search(SearchZeros, &Search::new(&words, ranges));
            }
        }
    }

    /// Lists that come near to the rule's bound, so many times over, with the search that does so.
    fn directed_searches(&mut self) {
        let most = MOST_RANGES as u32;
        for times in 1..=most {
            self.directed_search(&spikes(times));
        }
        for directed in known() {
            let d = directed.frequencies.len();
            let mut numbers = if d <= SHORT { (2..=most).collect() } else { vec![2, most] };
            numbers.retain(|&times| d * times as usize <= self.volume.longest);
            for times in numbers {
                self.directed_search(&repeated(&directed, times));
            }
        }
    }

    fn directed_search(&mut self, directed: &DirectedSearch) {
        self.counts.lists += 1;
        self.counts.foreign += 1;
        let DirectedSearch { frequencies, histogram, ranges } = directed;
        let words = write(histogram);
        self.search(SearchDirected, &Search::new(&words, ranges.iter().copied()));
        if self.check(CheckDirected, frequencies, &words) {
            self.rule_for_search(SumsDirected, &Accepted::new(frequencies, &words), ranges);
        } else {
            self.fail(CheckDirected, &format!("{} ranges: not accepted", ranges.len()));
        }
    }

    /// The histogram of a short list with all searches of a few words, every two faults of one of so many ranges, every
    /// bit and every number of words.
    fn short_list_of_searches(&mut self, random: &mut Random, frequencies: &[u32], number: usize) {
        let built = histogram(Way::FewerRanges, frequencies, BOUNDS[0]).expect("a good list");
        let words = write(&built);
        self.counts.lists += 1;
        self.counts.built += 1;
        self.own(SharperSearches, frequencies, BOUNDS[0], &words);
        if frequencies.len() <= 4 {
            for ranges in every_few_words(words[0], self.volume.tiny + 1) {
                self.search(SearchShort, &Search { words: words.clone(), ranges });
            }
        }
        let good = Search::new(&words, ranges_in_order(random, &built, number));
        self.two_faults_of_search(&good);
        for changed in every_change(&words) {
            self.damaged_search(&good, &changed);
        }
    }

    /// Every two faults with different refusals that are not both of the words. The first is made last, since it may
    /// leave too little for the second.
    fn two_faults_of_search(&mut self, good: &Search) {
        for (place, first) in FAULTS.iter().enumerate() {
            for second in FAULTS[place + 1..].iter().flat_map(|second| second(good)) {
                for faulty in first(&second) {
                    self.search(SearchTwoFaults, &faulty);
                }
            }
        }
    }

    /// Random words and ranges, most of them in order.
    fn random_search(&mut self, random: &mut Random) {
        self.counts.random += 1;
        let words = random_words(random);
        let d = words.first().map_or(0, |&d| d.min(2_000));
        let number = random.any_size(20) as usize;
        let mut ranges = some_ranges(random, d, number);
        if random.chance(3, 4) {
            ranges = in_order(random, ranges);
        }
        if random.chance(1, 8) {
            let place = random.place(&ranges);
            ranges[place] = random.pick(&ranges_outside(d));
        }
        let mut search = Search::new(&words, ranges);
        if random.chance(1, 8) {
            search.ranges.pop();
        }
        self.search(SearchRandom, &search);
    }

    /// Words whose q is about 8, with a search that is taken and with such as are refused after words.
    pub(super) fn search_slips(&mut self, words: &[u32], d: u32) {
        for ranges in one_of_each(d) {
            self.search(SearchSlips, &Search { words: words.to_vec(), ranges });
        }
    }
}
