//! Counts, classes, totals and codes; and what the builder refuses.

use super::Comparison;
use super::Group::*;
use crate::build::Way;
use crate::coding::{class_start, code_number};
use crate::generate::foreign::codes;
use crate::generate::Random;
use crate::list::{Bound, COUNT_LIMIT, MOST_ENTRIES, MOST_THETA};

/// Parts of q about their limits; the last but one wraps to 4 when it is multiplied by 4, the one before it to 0 by 8.
const Q_PARTS: [u32; 17] =
    [0, 1, 2, 4, 5, 8, 9, 100, 124, 125, 800, 801, 1_000, 1_001, 1 << 29, 1_073_741_825, u32::MAX];

/// Small counts, those about every edge, and random ones.
fn counts(random: &mut Random, number: u32) -> Vec<u32> {
    let mut edges: Vec<u32> = (1..=63).map(class_start).collect();
    edges.extend(codes().iter().map(|&code| code_number(code)));
    // The first total of each code.
    let codes = (0..25).flat_map(|shift| (64..128).map(move |bits| bits << shift));
    edges.extend(codes);
    edges.extend([COUNT_LIMIT, u32::MAX - 1, 1 << 31]);
    let about = |edge: u32| [edge.saturating_sub(1), edge, edge + 1];
    let mut counts: Vec<u32> = edges.into_iter().flat_map(about).collect();
    counts.extend(0..number);
    counts.extend((0..number).map(|_| random.word() as u32));
    counts.extend((0..number).map(|_| random.any_size(COUNT_LIMIT.into()) as u32));
    counts
}

impl Comparison<'_> {
    pub(super) fn codings(&mut self) {
        let mut random = self.random(1);
        for count in counts(&mut random, self.volume.codings) {
            self.coding(ClassOf, count, |program, count| program.class_of(count));
            self.coding(CodeOfTotal, count, |program, count| program.code_of_total(count));
        }
        let mut codes: Vec<u32> = (0..20_000).collect();
        codes.extend((0..32).map(|bit| 1 << bit));
        codes.extend([u32::MAX, u32::MAX - 1]);
        codes.extend((0..2_000).map(|_| random.word() as u32));
        for code in codes {
            self.coding(NumberOfClass, code, |program, code| program.number_of_class(code));
            self.coding(NumberOfTotal, code, |program, code| program.number_of_total(code));
        }
    }

    fn refused(&mut self, frequencies: &[u32], bound: Bound, lent: usize) {
        self.build(BuildRefused, Way::FewerRanges, frequencies, bound, lent);
    }

    pub(super) fn build_refusals(&mut self) {
        let (good, bad) = (Bound::new(1, 3, 2), Bound::new(0, 0, 0));
        for lent in [0, 8, 9, 40_969] {
            self.refused(&[], bad, lent);
            self.refused(&[1; MOST_ENTRIES + 1], good, lent);
            self.refused(&[0; MOST_ENTRIES + 1], good, lent);
            self.refused(&[u32::MAX; MOST_ENTRIES], bad, lent);
            self.refused(&[COUNT_LIMIT], good, lent);
            self.refused(&[COUNT_LIMIT, 1], good, lent);
            // The sum wraps to 1 in 32 bits.
            self.refused(&[u32::MAX, 2], good, lent);
            self.refused(&[0, u32::MAX], bad, lent);
            self.refused(&[0, 0], bad, lent);
            self.refused(&[0; 9], good, lent);
            self.refused(&[3; 9], good, lent);
        }
        for (qn, qd) in Q_PARTS.iter().flat_map(|&qn| Q_PARTS.map(|qd| (qn, qd))) {
            for theta in [0, 1, MOST_THETA, MOST_THETA + 1, u32::MAX] {
                self.refused(&[10; 4], Bound::new(theta, qn, qd), 12);
            }
        }
        let mut random = self.random(7);
        for _ in 0..self.volume.small / 5 {
            self.several_faults(&mut random);
        }
    }

    /// Several faults at once: the first in order is answered.
    fn several_faults(&mut self, random: &mut Random) {
        let length = random.below(12);
        let mut frequencies: Vec<u32> = (0..length).map(|_| random.any_size(500) as u32 - 1).collect();
        if length > 0 && random.chance(1, 2) {
            let place = random.place(&frequencies);
            frequencies[place] = random.pick(&[COUNT_LIMIT, COUNT_LIMIT + 1, u32::MAX]);
        }
        let theta = random.pick(&[0, 1, 7, MOST_THETA, MOST_THETA + 1]);
        let bound = Bound::new(theta, random.pick(&Q_PARTS), random.pick(&Q_PARTS));
        let lent = random.below(16) as usize;
        self.refused(&frequencies, bound, lent);
    }
}
