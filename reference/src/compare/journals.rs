//! Journals that are replayed and that are refused.

use super::calls::shown_journal;
use super::Group::*;
use super::{Comparison, Group};
use crate::generate::journals::{
    every_journal, good_journal, random_journal, Faults, Journal, EXTREME_CHANGES, FAULTS,
};
use crate::generate::lists::{list, some_list, KINDS};
use crate::generate::Random;
use crate::journal::{lines, MOST_LINES};
use crate::list::{count, COUNT_LIMIT};
use crate::program::QhReplayed;
use std::collections::BTreeMap;

/// How often a group met a refusal, or 0 for a journal that is replayed.
pub(super) type Outcomes = BTreeMap<(usize, u32), u64>;

/// What each group is to meet; it means little without.
const TO_MEET: [(Group, &[u32]); 14] = [
    (ReplayGood, &[0]),
    (ReplayBeside, &[0, 27]),
    (ReplayLarge, &[0, 1, 3, 25, 26, 27]),
    (ReplayReal, &[0, 1, 3, 25, 26, 27]),
    (ReplayFew, &[0, 26, 27]),
    (ReplayExtreme, &[0, 26, 27]),
    (ReplayRandom, &[0, 1, 3, 25, 26, 27]),
    (ReplayLists, &[1, 3]),
    (ReplayNumber, &[25]),
    (ReplayOutside, &[26]),
    (ReplayBelow, &[27]),
    (ReplayAbove, &[27]),
    (ReplayTwoFaults, &[1, 3, 25, 26]),
    (ReplayPairs, &[0, 26, 27]),
];

/// What is made of a good journal; most of it is refused.
const SORTS: [Faults; 7] = [
    Journal::up_to_the_bounds,
    Journal::of_no_entry,
    Journal::over_the_limit,
    Journal::unequal,
    Journal::outside,
    Journal::below_zero,
    Journal::above_the_limit,
];

/// The groups of these sorts on small lists.
const SMALL: [Group; 7] = [ReplayGood, ReplayLists, ReplayLists, ReplayNumber, ReplayOutside, ReplayBelow, ReplayAbove];

/// Short lists on which all journals of a few lines are tried, the last three of them about the limit; and one journal
/// with every two faults.
const SHORT_LISTS: [&[u32]; 9] =
    [&[0], &[1], &[2], &[0, 0], &[1, 2], &[2, 0, 1], &[COUNT_LIMIT], &[COUNT_LIMIT - 1], &[1, COUNT_LIMIT - 2]];

const SMALL_CHANGES: [i32; 7] = [-3, -2, -1, 0, 1, 2, 3];

/// The most lines of the journals that are given two faults.
const FEW: usize = 4;

impl Comparison<'_> {
    pub(super) fn journals(&mut self) {
        let mut random = self.random(19);
        for number in 0..self.volume.small / 2 {
            let frequencies = some_list(&mut random, KINDS[number % KINDS.len()], 30);
            let lines = if number % 2 == 0 { random.below(4) } else { random.any_size(60) };
            self.journals_of(&mut random, (ReplayGood, ReplayBeside, SMALL), &frequencies, lines as usize);
        }
        self.journals_of_large_lists(&mut random);
        self.journals_of_real_lists(&mut random);
        self.most_lines(&mut random);
        for frequencies in SHORT_LISTS {
            self.every_journal_of(frequencies);
        }
        for (place, frequencies) in SHORT_LISTS.into_iter().enumerate().step_by(self.volume.one_in) {
            let good = good_journal(&mut random, frequencies, FEW - place % (FEW + 1));
            self.two_faults_of_journal(&good);
        }
        for _ in 0..10 * self.volume.small {
            let journal = random_journal(&mut random);
            self.replay(ReplayRandom, &journal);
        }
        self.pairs_of_journals();
        self.every_outcome_is_met();
    }

    /// A good journal of a list, the same on lists beside it, and what else is made of it.
    fn journals_of(
        &mut self,
        random: &mut Random,
        (good, beside, sorts): (Group, Group, [Group; 7]),
        frequencies: &[u32],
        number: usize,
    ) {
        self.counts.lists += 1;
        let journal = good_journal(random, frequencies, number);
        self.replay(good, &journal);
        for other in journal.beside(random) {
            self.replay(beside, &other);
        }
        for (group, sort) in sorts.into_iter().zip(SORTS) {
            for other in sort(&journal) {
                self.replay(group, &other);
            }
        }
    }

    /// Long lists with a few lines, with more, and with the most or so few less that one or two can be added; then
    /// lists and journals of any length.
    fn journals_of_large_lists(&mut self, random: &mut Random) {
        let groups = (ReplayLarge, ReplayLarge, [ReplayLarge; 7]);
        let longest = self.volume.longest;
        for (place, kind) in KINDS.into_iter().enumerate() {
            let frequencies = list(random, kind, [longest, longest / 3][place % 2]);
            for number in [40, longest / 16, longest - place % 3] {
                self.journals_of(random, groups, &frequencies, number);
            }
        }
        for number in 0..self.volume.wide {
            let length = random.any_size(longest as u64) as usize;
            let frequencies = list(random, KINDS[number % KINDS.len()], length);
            let lines = random.any_size(longest as u64) as usize;
            self.journals_of(random, groups, &frequencies, lines);
        }
    }

    fn journals_of_real_lists(&mut self, random: &mut Random) {
        let longest = self.volume.longest;
        for frequencies in self.real.clone() {
            for number in [0, 1, 40, longest / 16, longest - 2, longest] {
                self.journals_of(random, (ReplayReal, ReplayReal, [ReplayReal; 7]), &frequencies, number);
            }
        }
    }

    /// As many lines on a short list as a journal may have, and too many; and too many entries.
    fn most_lines(&mut self, random: &mut Random) {
        self.counts.lists += 1;
        let frequencies = [7, 0, 5];
        let good = good_journal(random, &frequencies, MOST_LINES);
        self.replay(ReplayLarge, &good);
        let few = good_journal(random, &frequencies, FEW);
        for faulty in few.of_too_many_entries() {
            self.replay(ReplayLists, &faulty);
        }
        for faulty in [few.of_too_many_lines(), few.of_too_many_and_unequal()].concat() {
            self.replay(ReplayNumber, &faulty);
        }
    }

    fn every_journal_of(&mut self, frequencies: &[u32]) {
        self.counts.lists += 1;
        for journal in every_journal(frequencies, &SMALL_CHANGES, self.volume.lines) {
            let whole = self.replay(ReplayFew, &journal);
            self.cut_everywhere(&journal, &whole);
        }
        for journal in every_journal(frequencies, &EXTREME_CHANGES, self.volume.lines - 1) {
            let whole = self.replay(ReplayExtreme, &journal);
            self.cut_everywhere(&journal, &whole);
        }
    }

    /// Every two faults with different refusals, or some. The first is made last, since it may leave too little for the
    /// second.
    fn two_faults_of_journal(&mut self, good: &Journal) {
        self.counts.lists += 1;
        let one_in = self.volume.one_in;
        let faults = &FAULTS[..self.volume.sorts];
        for (number, first) in faults {
            let later = faults.iter().filter(|(other, _)| number < other);
            for second in later.flat_map(|(_, second)| second(good).into_iter().step_by(one_in)) {
                for faulty in first(&second).into_iter().step_by(one_in) {
                    self.replay(ReplayTwoFaults, &faulty);
                }
            }
        }
    }

    pub(super) fn met(&mut self, group: Group, outcome: u32) {
        *self.outcomes.entry((group as usize, outcome)).or_default() += 1;
    }

    fn every_outcome_is_met(&mut self) {
        for (group, outcome) in TO_MEET.into_iter().flat_map(|(group, all)| all.iter().map(move |&one| (group, one))) {
            let times = self.outcomes.get(&(group as usize, outcome)).copied().unwrap_or(0);
            let seldom = times < self.volume.outcomes;
            self.note(group, seldom.then(|| format!("outcome {outcome} only {times} times")));
        }
    }

    /// What the request says of a list that the other program replayed a journal over: each frequency is its old one
    /// plus the sum of its entry's changes, the sum moved by the sum of all, and the list is one that is taken.
    pub(super) fn moved(&mut self, journal: &Journal, answer: QhReplayed, after: &[u32]) {
        let Journal { frequencies, entries, changes } = journal;
        let mut moves = vec![0; frequencies.len()];
        for (entry, change) in lines(entries, changes).filter(|line| line.0 < frequencies.len()) {
            moves[entry] += change;
        }
        let moved = |((&old, change), &new): ((&u32, i64), &u32)| i64::from(old) + change == i64::from(new);
        let each_moved = frequencies.iter().zip(moves).zip(after).all(moved);
        let all: i64 = changes.iter().map(|&change| i64::from(change)).sum();
        let sum_moved = count(frequencies) as i64 + all == i64::from(answer.sum);
        let mut again = after.to_vec();
        let taken = self.program.replay_journal(&mut again, &[], &[]) == answer && again == after;
        let good = each_moved && sum_moved && taken;
        self.note(ReplayMoved, (!good).then(|| format!("{}: {answer:?}", shown_journal(journal))));
    }
}
