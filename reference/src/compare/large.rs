//! Lists with wide bucketlets, long lists, real ones, and the ends of what is possible.

use super::calls::most_words;
use super::Group::*;
use super::{Asking, Comparison, Group};
use crate::build::{Way, WAYS};
use crate::coding::{class_for, code_for};
use crate::generate::damage::damaged;
use crate::generate::foreign::wild;
use crate::generate::lists::{any_q, list, KINDS};
use crate::generate::ranges::{all_ranges, some_ranges};
use crate::generate::Random;
use crate::list::{count, Bound, COUNT_LIMIT, MOST_THETA};
use crate::words::{write, Bucket, Histogram};

const LARGE: Asking =
    Asking { check: CheckLarge, estimate: EstimateLarge, find: FindLarge, demand: (DemandLarge, SumsLarge) };

const REAL: Asking =
    Asking { check: CheckReal, estimate: EstimateReal, find: FindReal, demand: (DemandReal, SumsReal) };

pub(super) const REAL_BOUNDS: [Bound; 5] = [
    Bound::new(1, 5, 4),
    Bound::new(32, 2, 1),
    Bound::new(100, 3, 2),
    Bound::new(1_000, 5, 4),
    Bound::new(50_000, 3, 1),
];

/// Narrow bucketlets first, so that any place may be the wide one, then runs of a level whose
/// bucketlets come to about 511 or 4,095 entries.
pub(super) fn wide_list(random: &mut Random) -> Vec<u32> {
    let narrow = random.below(9) as usize;
    let mut frequencies: Vec<u32> = (0..narrow).map(|place| [1, 1_000][place % 2]).collect();
    for _ in 0..random.between(1, 3) {
        let run = match random.below(4) {
            0 => random.pick(&[510, 511, 512, 513, 1_000, 1_022, 1_023]),
            1 => random.pick(&[4_094, 4_095, 4_096, 4_097, 4_606]),
            2 => random.pick(&[3_577, 3_578, 4_606]),
            _ => random.between(1, 600),
        };
        let level = if random.chance(1, 6) { 0 } else { random.any_size(20_000) };
        frequencies.extend((0..run).map(|_| (level + random.below(1 + level / 20)) as u32));
        if random.chance(1, 2) {
            frequencies.push(COUNT_LIMIT / 8);
        }
    }
    while count(&frequencies) > COUNT_LIMIT.into() {
        frequencies.iter_mut().for_each(|f| *f = f.div_ceil(2));
    }
    frequencies
}

/// No two neighbours go together: the builder makes a bucket for each eight entries.
pub(super) fn most_buckets(length: usize) -> Vec<u32> {
    (0..length).map(|place| [1, 30_000][place % 2]).collect()
}

/// A histogram of a bucket for each entry, each with one bucketlet in the middle.
pub(super) fn bucket_for_each(d: u32, bound: Bound, class: u32, total: u32) -> Vec<u32> {
    let bucket = |start: u32| {
        let mut bucket = Bucket::empty(start, start % 2 == 1);
        (bucket.widths[3], bucket.classes[3], bucket.total) = (1, class, total);
        bucket
    };
    write(&Histogram::new(bound, (0..d).map(bucket).collect()))
}

impl Comparison<'_> {
    pub(super) fn wide_lists(&mut self) {
        let mut random = self.random(4);
        for number in 0..self.volume.wide {
            let frequencies = wide_list(&mut random);
            let top = u64::from(*frequencies.iter().max().expect("not empty"));
            let theta = random.any_size((4 * top).clamp(1, MOST_THETA.into())) as u32;
            let (qn, qd) = random.pick(&[(5, 4), (3, 2), (2, 1), (999, 799)]);
            let bound = Bound::new(theta, qn, qd);
            self.large_list(&mut random, ((BuildWide, SharperLarge), LARGE), &frequencies, bound);
            if number % 12 == 0 {
                self.faster_ways_agree(&frequencies, bound);
            }
        }
        // Every width about the two limits, at the first place and at the eighth.
        for run in [510, 511, 512, 513, 4_094, 4_095, 4_096, 4_097, 4_606, 7_672, 7_673] {
            for before in [&[][..], &[1, 100, 1, 100, 1, 100, 1]] {
                let frequencies = [before, &vec![5_000; run]].concat();
                let bound = Bound::new(1, 5, 4);
                self.build(BuildWide, Way::FewerRanges, &frequencies, bound, 60);
            }
        }
    }

    /// One list that is too long for all ranges.
    pub(super) fn large_list(
        &mut self,
        random: &mut Random,
        ((build, sharper), asking): ((Group, Group), Asking),
        frequencies: &[u32],
        bound: Bound,
    ) {
        self.counts.lists += 1;
        let lent = most_words(frequencies) + 3;
        let words = self.build(build, Way::FewerRanges, frequencies, bound, lent);
        let words = words.expect("the list is good and the words are enough");
        self.counts.built += 1;
        self.own(sharper, frequencies, bound, &words);
        if !self.ask_large(random, asking, frequencies, &words, 300) {
            self.fail(build, &format!("not accepted: {} entries, {bound}", frequencies.len()));
        }
        // One frequency changed: the failing range is somewhere in the middle.
        let mut other = frequencies.to_vec();
        let place = random.place(&other);
        let f = other[place];
        other[place] = random.pick(&[0, 1, f * 2, f + bound.theta.min(1_000)]);
        self.check(asking.check, &other, &words);
        for _ in 0..2 {
            let damaged = damaged(random, &words);
            self.damaged_words(random, frequencies, &damaged);
        }
        self.counts.foreign += 1;
        let foreign = write(&wild(random, frequencies, bound));
        self.ask_large(random, asking, frequencies, &foreign, 30);
    }

    fn ask_large(
        &mut self,
        random: &mut Random,
        asking: Asking,
        frequencies: &[u32],
        words: &[u32],
        number: usize,
    ) -> bool {
        let d = frequencies.len() as u32;
        let ranges = some_ranges(random, d, number);
        for &range in &ranges {
            self.estimate(asking.estimate, words, range);
        }
        for _ in 0..number / 5 {
            self.find(asking.find, words, random.below(u64::from(d) + 2) as u32);
        }
        let accepted = self.check(asking.check, frequencies, words);
        if accepted {
            self.demand_three(asking.demand, frequencies, words, ranges);
        }
        accepted
    }

    fn faster_ways_agree(&mut self, frequencies: &[u32], bound: Bound) {
        self.ways_agree(&WAYS[1..], frequencies, bound);
    }

    pub(super) fn large_lists(&mut self) {
        let mut random = self.random(5);
        let groups = ((BuildLarge, SharperLarge), LARGE);
        let longest = self.volume.longest;
        for kind in KINDS {
            for length in [longest, longest / 3] {
                let frequencies = list(&mut random, kind, length);
                let theta = random.any_size(1_000) as u32;
                let (qn, qd) = any_q(&mut random);
                let bound = Bound::new(theta, qn, qd);
                self.large_list(&mut random, groups, &frequencies, bound);
                if length < longest {
                    self.faster_ways_agree(&frequencies, bound);
                }
            }
        }
        for theta in [1, 64, 4_096] {
            let bound = Bound::new(theta, 2, 1);
            self.large_list(&mut random, groups, &vec![10; longest], bound);
        }
        // The limit of the sum, in one entry and in all.
        let bound = Bound::new(MOST_THETA, 5, 4);
        self.large_list(&mut random, groups, &[COUNT_LIMIT], bound);
        let level = COUNT_LIMIT / longest as u32;
        let mut full = vec![level; longest];
        full[0] += COUNT_LIMIT - level * longest as u32;
        self.large_list(&mut random, groups, &full, bound);
    }

    /// Histograms and lists at the ends of what is possible, and beyond.
    pub(super) fn extremes(&mut self) {
        let mut random = self.random(10);
        // The largest q with the largest parts.
        let bound = Bound::new(1, 1_000, 125);
        // Estimates past 32 bits, accepted: each total is as far above its count as q allows.
        let words = bucket_for_each(8, bound, 56, 4_087);
        let frequencies = [133_603_487; 8];
        for range in all_ranges(8) {
            self.estimate(EstimateLarge, &words, range);
        }
        if self.check(CheckLarge, &frequencies, &words) {
            self.demand_three(LARGE.demand, &frequencies, &words, all_ranges(8));
        } else {
            self.fail(CheckLarge, "estimates past 32 bits are not accepted");
        }
        // As many buckets as entries, with the largest sum of totals, and with fitting ones.
        let level = COUNT_LIMIT / self.volume.longest as u32;
        let frequencies = vec![level; self.volume.longest];
        for (class, total) in [(62, 4_087), (class_for(level.into()), code_for(level.into()))] {
            let words = bucket_for_each(frequencies.len() as u32, bound, class, total);
            self.ask_large(&mut random, LARGE, &frequencies, &words, 30);
        }
        // The smallest sum, of as many.
        let frequencies = vec![0; self.volume.longest];
        let words = bucket_for_each(frequencies.len() as u32, bound, 0, 0);
        self.ask_large(&mut random, LARGE, &frequencies, &words, 30);
        // The most words that the builder makes, and one too few.
        let steep = most_buckets(self.volume.longest);
        let most = most_words(&steep);
        for lent in [most - 1, most, most + 1] {
            let bound = Bound::new(1, 5, 4);
            self.build(BuildLarge, Way::FewerRanges, &steep, bound, lent);
        }
        self.widest_bucketlets();
    }

    /// Two cuts of the widest bucketlets with the largest class, and far too long lists.
    fn widest_bucketlets(&mut self) {
        let half = |start: u32, eighth_free: bool| {
            let mut bucket = Bucket::empty(start, eighth_free);
            let place = bucket.free();
            (bucket.widths[place], bucket.classes[place], bucket.total) = (4_095, 62, 4_087);
            bucket
        };
        let bound = Bound::new(MOST_THETA, 1_000, 125);
        let histogram = Histogram::new(bound, vec![half(0, false), half(4_095, true)]);
        let words = write(&histogram);
        let cuts = [(1, 8_189), (1, 8_190), (0, 8_189), (4_094, 4_096), (1, 4_094), (0, 8_190)];
        for range in cuts {
            self.estimate(EstimateLarge, &words, range);
        }
        self.check(CheckLarge, &[1; 8_190], &words);
        if self.volume.widest_accepted {
            self.check(CheckLarge, &[131_071; 8_190], &words);
        }
        let long = vec![0; 1_000_000];
        self.build(BuildLarge, Way::FewerRanges, &long, bound, 9);
        self.check(CheckLarge, &long, &words);
        let padded = [words, long].concat();
        self.check(CheckLarge, &[1; 8_190], &padded);
        self.estimate(EstimateLarge, &padded, (0, 1));
        self.find(FindLarge, &padded, 0);
    }

    pub(super) fn real_lists(&mut self) {
        let mut random = self.random(6);
        for frequencies in self.real.clone() {
            for bound in REAL_BOUNDS {
                self.large_list(&mut random, ((BuildReal, SharperReal), REAL), &frequencies, bound);
                self.faster_ways_agree(&frequencies, bound);
            }
        }
    }
}
