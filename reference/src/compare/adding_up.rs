//! What request (viii) says, tried on the other program's own answers: two journals in turn and joined, and a journal
//! read backwards.

use super::calls::{shown, shown_journal, Left};
use super::Comparison;
use super::Group::*;
use crate::generate::journals::{good_journal, pairs, Journal};
use crate::generate::lists::{list, some_list, KINDS};
use crate::generate::Random;
use crate::journal::{backward, if_joined, MOST_LINES};
use crate::list::count;
use std::collections::BTreeMap;

/// How often two journals met three refusals: of the first, of the second after it, and of the joined one. 0 is none.
pub(super) type PairOutcomes = BTreeMap<[u32; 3], u64>;

/// What is to be met. In the last but one the first breaks a bound and an entry of the second is outside; in the last
/// only the joined one has too many lines.
const TO_MEET: [[u32; 3]; 9] =
    [[0, 0, 0], [1, 0, 1], [3, 0, 3], [26, 0, 26], [27, 0, 27], [0, 26, 26], [0, 27, 27], [27, 0, 26], [0, 0, 25]];

/// One in so many journals is cut in two at the first of its five places, the next one at the second, and so on.
const TURNS: usize = 24;

impl Comparison<'_> {
    pub(super) fn pairs_of_journals(&mut self) {
        let mut random = self.random(20);
        for number in 0..self.volume.small / 25 {
            let frequencies = some_list(&mut random, KINDS[number % KINDS.len()], 30);
            let lines = random.below(12) as usize;
            self.pairs_of(&mut random, &frequencies, lines);
        }
        let longest = self.volume.longest;
        for (length, number) in [(longest, 40), (longest / 3, longest / 8)] {
            let kind = random.pick(&KINDS);
            let frequencies = list(&mut random, kind, length);
            self.pairs_of(&mut random, &frequencies, number);
        }
        for frequencies in self.real.clone() {
            self.pairs_of(&mut random, &frequencies, longest / 64);
        }
        self.pairs_of_most_lines(&mut random);
        self.every_pair_is_met();
    }

    /// Pairs of journals with so many lines each. The second is replayed over what the first leaves.
    fn pairs_of(&mut self, random: &mut Random, frequencies: &[u32], number: usize) {
        self.counts.lists += 1;
        for [first, second] in pairs(random, frequencies, number) {
            let (_, list) = self.replay(ReplayPairs, &first);
            self.replay(ReplayPairs, &second.over(&list));
            let joined = first.joined(&second);
            let whole = self.replay(ReplayPairs, &joined);
            self.in_turn(&joined, first.number(), &whole);
        }
    }

    /// Two journals with as many lines together as one may have, and with one line more. The first has from one line to
    /// the most.
    fn pairs_of_most_lines(&mut self, random: &mut Random) {
        let steps = self.volume.outcomes as usize - 1;
        for number in [MOST_LINES, MOST_LINES + 1] {
            let joined = good_journal(random, &[7, 0, 5], number);
            let whole = self.replay(ReplayPairs, &joined);
            for step in 0..=steps {
                self.in_turn(&joined, 1 + (MOST_LINES - 1) * step / steps, &whole);
            }
        }
    }

    fn every_pair_is_met(&mut self) {
        for refusals in TO_MEET {
            let times = self.pair_outcomes.get(&refusals).copied().unwrap_or(0);
            let seldom = times < self.volume.outcomes;
            self.note(ReplayJoined, seldom.then(|| format!("refusals {refusals:?} only {times} times")));
        }
    }

    /// A journal that was replayed or refused as a whole, in two parts, if it is of two equal lists and its turn.
    pub(super) fn cut_by_turns(&mut self, journal: &Journal, whole: &Left) {
        let equal = journal.entries.len() == journal.changes.len();
        let turn = self.counts.journals as usize % TURNS;
        if let Some(&place) = journal.cuts().get(turn).filter(|_| equal) {
            self.in_turn(journal, place, whole);
        }
    }

    pub(super) fn cut_everywhere(&mut self, journal: &Journal, whole: &Left) {
        for place in 0..=journal.number() {
            self.in_turn(journal, place, whole);
        }
    }

    /// What is said of two journals, which are the lines before a place and those from there on, and of the whole.
    fn in_turn(&mut self, journal: &Journal, place: usize, whole: &Left) {
        let Journal { frequencies, entries, changes } = journal;
        let (first_entries, second_entries) = entries.split_at(place);
        let (first_changes, second_changes) = changes.split_at(place);
        let mut list = frequencies.clone();
        let first = self.program.replay_journal(&mut list, first_entries, first_changes);
        let replay_second = || self.program.replay_journal(&mut list, second_entries, second_changes);
        let second = (first.refusal == 0).then(replay_second);
        let last = second.unwrap_or(first);
        let in_turn = match last.refusal {
            0 => Ok((last, &list)),
            number => Err(number),
        };
        let second_outside = second_entries.iter().any(|&entry| entry as usize >= frequencies.len());
        let expected = if_joined(in_turn, entries.len(), second_outside);
        let expected = expected.unwrap_or_else(|number| (Err(number).into(), frequencies));
        let (answer, left) = whole;
        let text = || {
            let parts = format!("{}, cut at {place}: {first:?}, {second:?}", shown_journal(journal));
            format!("{parts}, joined {answer:?} {}", shown(left))
        };
        self.counts.pairs += 1;
        let refusals = [first, second.unwrap_or_default(), *answer].map(|answer| answer.refusal);
        *self.pair_outcomes.entry(refusals).or_default() += 1;
        self.note(ReplayJoined, ((*answer, left) != expected).then(text));
    }

    /// What is said of a journal that the other program replayed: backwards over what it made of the list.
    pub(super) fn backwards(&mut self, journal: &Journal, after: &[u32]) {
        let Journal { frequencies, entries, changes } = journal;
        let mut list = after.to_vec();
        let answer = backward(entries, changes)
            .map(|(entries, changes)| self.program.replay_journal(&mut list, &entries, &changes));
        let old_sum = Ok(count(frequencies) as u32).into();
        let good = answer == Some(old_sum) && list == *frequencies;
        let text = || format!("{} and back: {answer:?} {}", shown_journal(journal), shown(&list));
        self.counts.backwards += 1;
        self.note(ReplayBackwards, (!good).then(text));
    }
}
