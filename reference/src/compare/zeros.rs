//! Lists with zeros, and class 0 and code 0 where they fit and where they do not.

use super::Group::*;
use super::{Asking, Comparison, Group};
use crate::coding::code_for;
use crate::generate::directed::bucket;
use crate::generate::every_list;
use crate::generate::ranges::all_ranges;
use crate::list::{count, Bound, COUNT_LIMIT, MOST_THETA};
use crate::words::{write, Histogram};

const BUILD: (Group, Group) = (BuildZeros, SharperZeros);

const ZEROS: Asking =
    Asking { check: CheckZeros, estimate: EstimateZeros, find: FindSmall, demand: (DemandZeros, SumsZeros) };

/// Zeros by themselves, at either end of a bucketlet and inside it, and bucketlets of zeros between others; the last
/// two are there for class 0 alone.
pub(super) const LISTS: [(&[u32], Bound); 11] = [
    (&[0], Bound::new(1, 5, 4)),
    (&[0, 0, 0], Bound::new(1, 3, 2)),
    (&[0, 0, 5, 0, 100], Bound::new(5, 3, 2)),
    (&[0, 0, 5, 0, 0, 7, 0], Bound::new(12, 3, 2)),
    (&[0, 0, 5, 0, 0], Bound::new(1, 3, 2)),
    (&[0, 100, 0, 100, 0, 100, 0, 100, 0, 100, 0], Bound::new(1, 5, 4)),
    (&[100, 0, 0, 0, 100, 0, 0, 0, 0, 0, 0, 0, 0, 0], Bound::new(1, 2, 1)),
    (&[0, COUNT_LIMIT, 0], Bound::new(1, 1_000, 125)),
    (&[0, COUNT_LIMIT, 0], Bound::new(MOST_THETA, 5, 4)),
    (&[10, 10, 10, 10], Bound::new(1, 3, 2)),
    (&[0, 5, 7], Bound::new(10, 3, 2)),
];

/// Of these the short lists are made that are all tried.
const FREQUENCIES: [u32; 4] = [0, 1, 5, 12];

pub(super) const BOUNDS: [Bound; 3] = [Bound::new(1, 3, 2), Bound::new(6, 5, 4), Bound::new(17, 2, 1)];

/// Every list of so many entries.
pub(super) fn short_lists(length: u32) -> impl Iterator<Item = Vec<u32>> {
    let frequencies = |list: Vec<usize>| list.into_iter().map(|kind| FREQUENCIES[kind]).collect();
    every_list(FREQUENCIES.len(), length).map(frequencies)
}

fn one_bucket(bucketlets: &[(u32, u32)], code: u32, bound: Bound) -> Vec<u32> {
    write(&Histogram::new(bound, vec![bucket(0, bucketlets, true, code)]))
}

/// Histograms of three entries, with class 0 and others at any width, and code 0 and others beside them.
pub(super) fn of_three_entries(bound: Bound) -> Vec<Vec<u32>> {
    let classes = [0, 1, 5, 8];
    let mut histograms = Vec::new();
    for (first, second) in classes.into_iter().flat_map(|first| classes.map(|second| (first, second))) {
        for (a, b) in [(0, 3), (1, 2), (3, 0)] {
            let bucketlets = [(a, first), (b, second)];
            histograms.extend([0, 1, 5, 12].map(|total| one_bucket(&bucketlets, code_for(total), bound)));
        }
    }
    histograms
}

impl Comparison<'_> {
    pub(super) fn lists_with_zeros(&mut self) {
        let mut random = self.random(12);
        let mut list = |comparison: &mut Self, frequencies: &[u32], bound: Bound| {
            comparison.small_list(&mut random, (BUILD, ZEROS, ZEROS), frequencies, bound, true);
        };
        for (frequencies, bound) in LISTS {
            self.counts.lists += 1;
            list(self, frequencies, bound);
            self.class_0_alone(frequencies, bound);
        }
        for frequencies in (1..=self.volume.tiny).flat_map(short_lists) {
            self.counts.lists += 1;
            for bound in BOUNDS {
                list(self, &frequencies, bound);
            }
        }
        for words in BOUNDS.into_iter().flat_map(of_three_entries) {
            self.by_lists(&words, short_lists(3));
        }
        self.one_other_class();
        let zeros = vec![0; self.volume.longest];
        self.large_list(&mut random, (BUILD, ZEROS), &zeros, Bound::new(1, 3, 2));
    }

    /// Class 0 for a whole list, with code 0, the list's own and another.
    fn class_0_alone(&mut self, frequencies: &[u32], bound: Bound) {
        for total in [0, count(frequencies), 1] {
            let words = one_bucket(&[(frequencies.len() as u32, 0)], code_for(total), bound);
            self.by_lists(&words, [frequencies.to_vec()]);
        }
    }

    /// One class that is not 0 at each of the eight places.
    fn one_other_class(&mut self) {
        for (place, total) in (0..8).flat_map(|place| [(place, 0), (place, 1)]) {
            let (mut bucketlets, mut frequencies) = ([(1, 0); 8], vec![0; 8]);
            (bucketlets[place], frequencies[place]) = ((1, 1), 1);
            let words = one_bucket(&bucketlets, code_for(total), BOUNDS[0]);
            self.by_lists(&words, [frequencies]);
        }
    }

    /// Asks all of a histogram, and checks lists by it, most of which it is not made for.
    fn by_lists(&mut self, words: &[u32], lists: impl IntoIterator<Item = Vec<u32>>) {
        self.counts.foreign += 1;
        let d = words[0];
        for frequencies in lists {
            if self.check(CheckZeros, &frequencies, words) {
                self.demand_three(ZEROS.demand, &frequencies, words, all_ranges(d));
            }
        }
        for range in all_ranges(d) {
            self.estimate(EstimateZeros, words, range);
        }
        self.find(FindSmall, words, d - 1);
    }
}
