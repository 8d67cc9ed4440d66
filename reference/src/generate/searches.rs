//! Searches, good ones and such as are refused.

use super::damage::faulty_words;
use super::ranges::{ranges_about_edges, ranges_outside};
use super::{every_list, some_places, Random};
use crate::search::MOST_RANGES;
use crate::words::Histogram;
use crate::worksheet::pairs;

/// What the call is given.
#[derive(Clone, Debug)]
pub struct Search {
    pub words: Vec<u32>,
    pub ranges: Vec<u32>,
}

/// Gives a search with each of some faults.
pub type Faults = fn(&Search) -> Vec<Search>;

/// In the order of their refusals.
pub const FAULTS: [Faults; 4] =
    [Search::of_other_words, Search::outside, Search::of_wrong_number, Search::out_of_order];

/// As many ranges as these with the same ends, but in order; some are empty, and some start where the one ahead ends.
pub fn in_order(random: &mut Random, ranges: Vec<(u32, u32)>) -> Vec<(u32, u32)> {
    let mut ends = flat(ranges);
    ends.sort_unstable();
    for end in 1..ends.len() {
        if random.chance(1, 6) {
            ends[end] = ends[end - 1];
        }
    }
    pairs(&ends).collect()
}

/// So many ranges in order, with ends about edges and anywhere.
pub fn ranges_in_order(random: &mut Random, histogram: &Histogram, number: usize) -> Vec<(u32, u32)> {
    let mut ranges = ranges_about_edges(random, histogram, number);
    for (x, y) in &mut ranges {
        let anywhere = random.between(0, histogram.head.d.into()) as u32;
        (*x, *y) = random.pick(&[(*x, *y), (*x, anywhere), (anywhere, *y)]);
    }
    in_order(random, ranges)
}

/// Every list of up to so many words that are at most one above d.
pub fn every_few_words(d: u32, most: u32) -> impl Iterator<Item = Vec<u32>> {
    let lists = (0..=most).flat_map(move |length| every_list(d as usize + 2, length));
    lists.map(|list| list.into_iter().map(|word| word as u32).collect())
}

/// One search that is taken, and one for each refusal that comes after those of words; 14 has 22 beside it.
pub fn one_of_each(d: u32) -> [Vec<u32>; 4] {
    [vec![0, 1, 1, d], vec![1, 0, 0], vec![], vec![d, d, 0, 0]]
}

fn flat(ranges: impl IntoIterator<Item = (u32, u32)>) -> Vec<u32> {
    ranges.into_iter().flat_map(|(x, y)| [x, y]).collect()
}

impl Search {
    pub fn new(words: &[u32], ranges: impl IntoIterator<Item = (u32, u32)>) -> Search {
        Search { words: words.to_vec(), ranges: flat(ranges) }
    }

    fn d(&self) -> u32 {
        self.words[0]
    }

    fn number(&self) -> usize {
        self.ranges.len() / 2
    }

    pub fn of(&self, ranges: Vec<u32>) -> Search {
        Search { words: self.words.clone(), ranges }
    }

    /// With some ranges in place of as many from a place on.
    fn with(&self, place: usize, ranges: &[(u32, u32)]) -> Search {
        let words = flat(ranges.iter().copied());
        let mut changed = self.clone();
        changed.ranges[2 * place..2 * place + words.len()].copy_from_slice(&words);
        changed
    }

    /// With empty ranges at the list's end after the others, so many in all, then some words.
    fn filled(&self, number: usize, more: &[u32]) -> Search {
        let mut ranges = self.ranges.clone();
        ranges.resize(ranges.len().max(2 * number), self.d());
        ranges.extend(more);
        self.of(ranges)
    }

    /// What 7, 24 and 8 to 12 name.
    fn of_other_words(&self) -> Vec<Search> {
        faulty_words(&self.words).map(|words| Search { words, ranges: self.ranges.clone() }).collect()
    }

    /// What 14 names: a range outside the list at the first, a middle and the last place, and after the last. A word
    /// left over stays so.
    fn outside(&self) -> Vec<Search> {
        let places = some_places(self.number());
        let mut all = Vec::new();
        for range in ranges_outside(self.d()) {
            all.extend(places.iter().map(|&place| self.with(place, &[range])));
            let (complete, left_over) = self.ranges.split_at(2 * self.number());
            all.push(self.of([complete, &[range.0, range.1], left_over].concat()));
        }
        all
    }

    /// What 22 names: no range, more than sixteen, the excess in front or behind, and a word left over, beside no range
    /// or any number of them.
    fn of_wrong_number(&self) -> Vec<Search> {
        let beyond = self.d() + 1;
        let mut all: Vec<Search> = [vec![], vec![0], vec![beyond]].map(|ranges| self.of(ranges)).into();
        all.extend([0, beyond - 1, beyond, u32::MAX].map(|word| self.filled(0, &[word])));
        // The last two wrap to one range in a byte and to none.
        all.extend([17, 18, 32, 257, 256].map(|number| self.filled(number, &[])));
        all.extend([16, 17].map(|number| self.filled(number, &[beyond])));
        all.push(self.of([vec![0; 2 * MOST_RANGES], self.ranges.clone()].concat()));
        all.extend(self.ranges.split_last().map(|(_, shorter)| self.of(shorter.to_vec())));
        all
    }

    /// What 23 names, where there is a range: the first two, some in the middle and the last two, off by one or by all,
    /// neither of them empty, one of them or both.
    fn out_of_order(&self) -> Vec<Search> {
        let Some((_, last)) = pairs(&self.ranges).last() else {
            return vec![];
        };
        let d = self.d();
        let two = if self.number() == 1 { self.of([&self.ranges[..], &[last, last]].concat()) } else { self.clone() };
        let ranges: Vec<(u32, u32)> = pairs(&two.ranges).collect();
        let mut all = Vec::new();
        for place in some_places(ranges.len() - 1) {
            let ((x, y), (next, end)) = (ranges[place], ranges[place + 1]);
            let mut instead = vec![[(d, d), (0, 0)], [(0, d), (0, d)]];
            if 0 < y {
                instead.extend([[(x, y), (y - 1, end)], [(x, y), (y - 1, y - 1)]]);
            }
            if next < d {
                instead.extend([[(x, next + 1), (next, end)], [(next + 1, next + 1), (next, end)]]);
            }
            if x < end {
                instead.push([(next, end), (x, y)]);
            }
            all.extend(instead.iter().map(|neighbours| two.with(place, neighbours)));
        }
        all
    }
}
