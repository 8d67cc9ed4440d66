//! Lists aimed at the bound of the accuracy rule, for one range and for several.

use super::Comparison;
use super::Group::*;
use crate::demand::{KS, SIDES};
use crate::generate::directed::{directed, jostled, known, Directed};
use crate::generate::ranges::ranges_about;
use crate::generate::Random;
use crate::search::MOST_RANGES;
use crate::words::write;

/// The most lists that are made for one number of ranges, k and side.
const MOST_TRIES: usize = 300;

impl Comparison<'_> {
    pub(super) fn directed_lists(&mut self) {
        let mut random = self.random(8);
        for directed in known() {
            self.directed_list(&mut random, &directed);
        }
        let aims = || (0..KS.len()).flat_map(|place| SIDES.map(|side| (place, side)));
        for (place, side) in aims() {
            for _ in 0..self.volume.directed {
                let directed = directed(&mut random, side, 1, KS[place]);
                self.directed_list(&mut random, &directed);
                let other = jostled(&mut random, &directed);
                self.directed_list(&mut random, &other);
            }
        }
        for (place, side) in aims() {
            self.near_enough(DemandNear, 1, place, side);
        }
        self.lists_directed_at_several();
    }

    /// For each number of ranges and each k that is aimed at, lists are made until one comes near enough.
    fn lists_directed_at_several(&mut self) {
        let mut random = self.random(16);
        let places = 0..self.volume.ks_of_several;
        let aims = (2..=MOST_RANGES).flat_map(|ranges| places.clone().map(move |place| (ranges, place)));
        for ((ranges, place), side) in aims.flat_map(|aim| SIDES.map(|side| (aim, side))) {
            let mut tries = 0..MOST_TRIES;
            while !self.near(ranges, place, side) && tries.next().is_some() {
                let directed = directed(&mut random, side, ranges as u64, KS[place]);
                self.directed_list(&mut random, &directed);
            }
            self.near_enough(SumsNear, ranges, place, side);
        }
    }

    fn directed_list(&mut self, random: &mut Random, directed: &Directed) {
        self.counts.lists += 1;
        self.counts.foreign += 1;
        let Directed { frequencies, histogram, x, y } = directed;
        let ranges = ranges_about(random, histogram.head.d, (*x, *y));
        self.ask_directed(frequencies, &write(histogram), ranges);
    }

    /// Estimates the ranges and checks; answers whether the pair is accepted.
    pub(super) fn ask_directed(&mut self, frequencies: &[u32], words: &[u32], ranges: Vec<(u32, u32)>) -> bool {
        for &range in &ranges {
            self.estimate(EstimateDirected, words, range);
        }
        let accepted = self.check(CheckDirected, frequencies, words);
        if accepted {
            self.demand_three((DemandDirected, SumsDirected), frequencies, words, ranges);
        }
        accepted
    }
}
