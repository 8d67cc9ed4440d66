//! Values of q about 8, alone and beside what is refused before 24 and after it.

use super::Comparison;
use super::Group::*;
use crate::build::{histogram, Way};
use crate::coding::{class_number, code_for};
use crate::generate::bytes::input;
use crate::generate::damage::{damaged, WORD_FAULTS};
use crate::generate::directed::bucket;
use crate::generate::foreign::wild;
use crate::generate::lists::{bound, some_list, KINDS};
use crate::generate::ranges::all_ranges;
use crate::generate::slips::{about_most, some_q, with_q, WIDE};
use crate::generate::Random;
use crate::list::{Bound, COUNT_LIMIT, MOST_ENTRIES, MOST_THETA};
use crate::words::{write, Histogram};

/// Lists with one bucket and with two, then such as 1 and 3 refuse.
const LISTS: [&[u32]; 7] = [
    &[10; 4],
    &[0; 3],
    &[1, 100, 1, 100, 1, 100, 1, 100, 1],
    &[],
    &[1; MOST_ENTRIES + 1],
    &[COUNT_LIMIT, 1],
    &[u32::MAX, 2],
];

/// About as many words as one bucket needs, and two.
const LENT: [usize; 6] = [0, 8, 9, 13, 14, 20];

/// Two that are taken, two that 24 refuses and one that 7 does.
const BESIDE_TWO_FAULTS: [(u32, u32); 5] = [(8, 1), (1_000, 125), (9, 1), (1_000, 124), (1_001, 125)];

/// Lists with histograms: the first two are accepted by every q that is taken, and the others, which estimate an entry
/// at 8 times its count and at an eighth, by 8 alone.
fn accepted_by_most() -> [(Vec<u32>, Vec<u32>); 4] {
    let least = Bound::new(1, 5, 4);
    let built = |list: &[u32]| {
        let histogram = histogram(Way::FewerRanges, list, least).expect("a good list");
        (list.to_vec(), write(&histogram))
    };
    let alone = |frequency: u32, class: u32| {
        let bucket = bucket(0, &[(1, class)], true, code_for(class_number(class).into()));
        (vec![frequency], write(&Histogram::new(least, vec![bucket])))
    };
    // Class 7 stands for 8, and class 1 for 1.
    [built(LISTS[0]), built(LISTS[2]), alone(1, 7), alone(8, 1)]
}

impl Comparison<'_> {
    pub(super) fn slips(&mut self) {
        let accepted = accepted_by_most();
        for q in about_most(self.volume.last_qd) {
            self.build_slips(q);
            self.sheet_slips(q);
            for (frequencies, words) in &accepted {
                self.read_slips(frequencies, &with_q(words, q));
            }
        }
        for q in WIDE {
            self.build_slips(q);
            self.sheet_slips(q);
        }
        for (frequencies, words) in &accepted {
            for q in BESIDE_TWO_FAULTS {
                self.two_faults(frequencies, &with_q(words, q));
            }
        }
        let mut random = self.random(13);
        for _ in 0..self.volume.small / 5 {
            self.random_slips(&mut random);
        }
    }

    fn build_slips(&mut self, (qn, qd): (u32, u32)) {
        for frequencies in LISTS {
            for (theta, lent) in [1, 0, MOST_THETA + 1].into_iter().flat_map(|theta| LENT.map(|lent| (theta, lent))) {
                self.build(BuildSlips, Way::FewerRanges, frequencies, Bound::new(theta, qn, qd), lent);
            }
        }
    }

    fn sheet_slips(&mut self, (qn, qd): (u32, u32)) {
        for (frequencies, theta) in [(&[1, 100], 1), (&[1, 100], 0), (&[COUNT_LIMIT, 1], 1)] {
            self.sheet(SheetSlips, &input(frequencies, Bound::new(theta, qn, qd)));
        }
        // No line feed after the last number.
        let mut unended = input(&[1, 100], Bound::new(1, qn, qd));
        unended.pop();
        self.sheet(SheetSlips, &unended);
    }

    /// Asks all of a histogram of a short list, with what is refused before its words and after them.
    fn ask_slips(&mut self, frequencies: &[u32], words: &[u32]) {
        let d = frequencies.len() as u32;
        if self.check(CheckSlips, frequencies, words) {
            self.demand_three((DemandSlips, SumsSlips), frequencies, words, all_ranges(d));
        }
        let longer = [frequencies, &[1]].concat();
        for other in [&longer[..], &[], &[COUNT_LIMIT, 1]] {
            self.check(CheckSlips, other, words);
        }
        for range in [(0, d), (0, 1), (d, d), (1, 0), (0, d + 1)] {
            self.estimate(EstimateSlips, words, range);
        }
        for entry in [0, d - 1, d] {
            self.find(FindSlips, words, entry);
        }
        self.worksheet_slips(words, d);
        self.search_slips(words, d);
    }

    /// A histogram of a short list as it is, and with each fault.
    fn read_slips(&mut self, frequencies: &[u32], words: &[u32]) {
        self.counts.foreign += 1;
        self.ask_slips(frequencies, words);
        for fault in WORD_FAULTS {
            let mut words = words.to_vec();
            fault(&mut words);
            self.counts.damaged += 1;
            self.ask_slips(frequencies, &words);
        }
    }

    /// Every two faults. The first is made last, since it may leave too few words for the second.
    fn two_faults(&mut self, frequencies: &[u32], words: &[u32]) {
        for (place, first) in WORD_FAULTS.iter().enumerate() {
            for second in &WORD_FAULTS[place + 1..] {
                let mut words = words.to_vec();
                second(&mut words);
                first(&mut words);
                self.counts.damaged += 1;
                self.ask_slips(frequencies, &words);
            }
        }
    }

    /// A list and its histogram or another one, with some q about 8 and with faults.
    fn random_slips(&mut self, random: &mut Random) {
        let kind = random.pick(&KINDS);
        let frequencies = some_list(random, kind, 30);
        self.counts.lists += 1;
        let (bound, q) = (bound(random, &frequencies), some_q(random));
        let slipped = Bound::new(bound.theta, q.0, q.1);
        let lent = random.below(40) as usize;
        self.build(BuildSlips, Way::FewerRanges, &frequencies, slipped, lent);
        let built = histogram(Way::FewerRanges, &frequencies, bound).expect("a good list");
        for histogram in [built, wild(random, &frequencies, bound)] {
            let words = with_q(&write(&histogram), q);
            self.counts.foreign += 1;
            self.ask_slips(&frequencies, &words);
            self.counts.damaged += 1;
            self.ask_slips(&frequencies, &damaged(random, &words));
        }
    }
}
