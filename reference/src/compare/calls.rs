//! Each call made to both programs with the same input, and how a mismatch is shown.

use super::{Comparison, Group};
use crate::build::{histogram, Way};
use crate::check::{self, check_by};
use crate::generate::journals::Journal;
use crate::generate::searches::Search;
use crate::generate::worksheets::Worksheet;
use crate::journal::{replay_journal, WAYS};
use crate::list::Bound;
use crate::program::*;
use crate::words::{write, HEADS, PER_BUCKET};
use crate::worksheet::pairs;
use std::fmt::{Debug, Display};

const REFERENCE: Reference = Reference(Way::FewerRanges);

/// How much lies beyond a lent list in memory, for no call to touch.
const BEYOND: u32 = 8;

/// The most entries times lines of a journal that is replayed straight from the rule too.
const MOST_LOOKED_AT: usize = 2_000;

/// How many letters of an input or an answer are shown.
const LETTERS: usize = 500;

/// The answer of a call that replays a journal, and what it left of the list.
pub(super) type Left = (QhReplayed, Vec<u32>);

/// As many words as the builder writes at the most.
pub(super) fn most_words(frequencies: &[u32]) -> usize {
    HEADS + PER_BUCKET * frequencies.len().div_ceil(8)
}

fn shortened(text: String) -> String {
    match text.char_indices().nth(LETTERS) {
        Some((end, _)) => format!("{} ... {} bytes", &text[..end], text.len()),
        None => text,
    }
}

/// A list with runs drawn together.
pub(super) fn shown<T: PartialEq + Display>(list: &[T]) -> String {
    let runs = list.chunk_by(|a, b| a == b);
    let runs: Vec<String> = runs
        .map(|run| match run.len() {
            1 => run[0].to_string(),
            length => format!("{length}x{}", run[0]),
        })
        .collect();
    shortened(format!("[{}]", runs.join(" ")))
}

pub(super) fn shown_journal(journal: &Journal) -> String {
    let Journal { frequencies, entries, changes } = journal;
    format!("{} to {} of {}", shown(changes), shown(entries), shown(frequencies))
}

fn hexadecimal(words: &[u32]) -> String {
    shortened(format!("{words:X?}"))
}

fn mismatch<A: Debug>(input: &str, expected: A, got: A) -> String {
    format!("{input}\n  expected {expected:?}\n  got      {got:?}")
}

/// Where two lent lists first differ after the call.
fn difference<T: PartialEq + Debug>(expected: &[T], got: &[T]) -> String {
    let mut places = expected.iter().zip(got).enumerate();
    match places.find(|(_, (expected, got))| expected != got) {
        Some((at, pair)) => format!("\n  lent place {at}, expected and got: {pair:X?}"),
        None => String::new(),
    }
}

/// The contents of lent words before the call, each place with its own.
fn lent_words(length: usize) -> Vec<u32> {
    let word = |place: u32| 0xA5A5_0000 ^ place.wrapping_mul(0x0101_0007);
    (0..length as u32 + BEYOND).map(word).collect()
}

/// The same for places of 64 bits, both halves of which are to stay.
fn lent_places(length: usize) -> Vec<u64> {
    lent_words(length).into_iter().map(|word| u64::from(word) << 32 | u64::from(!word)).collect()
}

/// The same for the bytes of a sheet.
pub(super) fn sheet_contents() -> Vec<u8> {
    (0..SHEET_BYTES as u32 + BEYOND).map(|place| (place % 251) as u8).collect()
}

fn lent_bytes(bytes: &mut [u8]) -> &mut Sheet {
    bytes.first_chunk_mut().expect("enough bytes are lent")
}

impl Comparison<'_> {
    pub(super) fn coding(&mut self, group: Group, value: u32, call: fn(&dyn Program, u32) -> QhCoded) {
        let (expected, got) = (call(&REFERENCE, value), call(self.program, value));
        let differs = expected != got;
        let text = differs.then(|| mismatch(&value.to_string(), expected, got));
        self.note(group, text);
    }

    /// Makes a call to both programs, each with the same contents of what is lent and lies beyond it, and hands back
    /// the answers and what was left there, the reference's first.
    fn lent<T: Clone + PartialEq + Debug, A: PartialEq + Debug>(
        &mut self,
        group: Group,
        reference: Reference,
        contents: Vec<T>,
        call: impl Fn(&dyn Program, &mut [T]) -> A,
        input: impl Fn() -> String,
    ) -> [(A, Vec<T>); 2] {
        let (mut right, mut other) = (contents.clone(), contents);
        let expected = call(&reference, &mut right);
        let got = call(self.program, &mut other);
        let differs = expected != got || right != other;
        let text = differs.then(|| mismatch(&input(), &expected, &got) + &difference(&right, &other));
        self.note(group, text);
        [(expected, right), (got, other)]
    }

    /// Compares a build into `lent` words, tests what is built, and hands back the reference's words.
    pub(super) fn build(
        &mut self,
        group: Group,
        way: Way,
        frequencies: &[u32],
        bound: Bound,
        lent: usize,
    ) -> Option<Vec<u32>> {
        let call = |program: &dyn Program, words: &mut [u32]| program.build(frequencies, bound, &mut words[..lent]);
        let input = || format!("{}, {bound}, {lent} words lent", shown(frequencies));
        let [(expected, mut words), (got, others)] = self.lent(group, Reference(way), lent_words(lent), call, input);
        if got.refusal == 0 {
            self.wholes(frequencies, bound, &others[..got.words.min(lent)]);
        }
        words.truncate(expected.words);
        (expected.refusal == 0).then_some(words)
    }

    /// Compares a check and answers whether the pair is accepted.
    pub(super) fn check(&mut self, group: Group, frequencies: &[u32], words: &[u32]) -> bool {
        self.verdict(group, frequencies, words).accepted == 1
    }

    /// Compares a check, by every pair of ends and by the reference's other way, and hands back the verdict.
    pub(super) fn verdict(&mut self, group: Group, frequencies: &[u32], words: &[u32]) -> QhVerdict {
        self.counts.checks += 1;
        let [expected, passed] = check::WAYS.map(|way| check_by(way, frequencies, words).into());
        let got = self.program.check(frequencies, words);
        let input = || format!("{} by {}", shown(frequencies), hexadecimal(words));
        let differs = expected != got;
        let mut text = differs.then(|| mismatch(&input(), expected, got));
        if expected != passed {
            text = Some(mismatch(&format!("the reference's ways, {}", input()), expected, passed));
        }
        self.note(group, text);
        expected
    }

    pub(super) fn estimate(&mut self, group: Group, words: &[u32], (x, y): (u32, u32)) {
        self.estimate_as(group, words, (x, y), REFERENCE.estimate(words, x, y));
    }

    /// Makes the other program's single call, whose answer by the builder's own words is tested as well.
    fn answer_of(&mut self, words: &[u32], (x, y): (u32, u32)) -> QhEstimate {
        let answer = self.program.estimate(words, x, y);
        self.sharper_rule(words, (x, y), answer);
        answer
    }

    /// Compares an estimate with one that is known.
    fn estimate_as(&mut self, group: Group, words: &[u32], (x, y): (u32, u32), expected: QhEstimate) {
        self.counts.estimates += 1;
        let got = self.answer_of(words, (x, y));
        let differs = expected != got;
        let text = differs.then(|| {
            let input = format!("{x}..{y} by {}", hexadecimal(words));
            mismatch(&input, expected, got)
        });
        self.note(group, text);
    }

    pub(super) fn find(&mut self, group: Group, words: &[u32], entry: u32) {
        let expected = REFERENCE.find(words, entry);
        let got = self.program.find(words, entry);
        let differs = expected != got;
        let text = differs.then(|| {
            let input = format!("{entry} in {}", hexadecimal(words));
            mismatch(&input, expected, got)
        });
        self.note(group, text);
    }

    /// Compares running totals of which `lent` places are lent.
    pub(super) fn fill(&mut self, group: Group, words: &[u32], lent: usize) {
        let call = |program: &dyn Program, places: &mut [u64]| program.fill_totals(words, &mut places[..lent]);
        let input = || format!("{lent} places lent for {}", hexadecimal(words));
        self.lent(group, REFERENCE, lent_places(lent), call, input);
    }

    /// Compares the answers to a worksheet, then each of them with what the single call gives.
    pub(super) fn answer(&mut self, group: Group, worksheet: &Worksheet) {
        let Worksheet { words, totals, ranges, lent } = worksheet;
        let call = |program: &dyn Program, places: &mut [u64]| {
            program.answer_worksheet(words, totals, ranges, &mut places[..*lent])
        };
        let input = || {
            let totals = shortened(format!("{totals:?}"));
            format!("{}, {lent} places lent, totals {totals}, by {}", shown(ranges), hexadecimal(words))
        };
        let [(QhAnswered { answers, .. }, estimates), _] = self.lent(group, REFERENCE, lent_places(*lent), call, input);
        self.counts.worksheets += 1;
        self.counts.answers += answers as u64;
        for (range, &estimate) in pairs(ranges).zip(&estimates[..answers]) {
            self.estimate_as(Group::EstimateWorksheets, words, range, Ok(estimate).into());
        }
    }

    /// Compares a search, then its answer, or 14, with what the single calls give for its ranges.
    pub(super) fn search(&mut self, group: Group, search: &Search) {
        let Search { words, ranges } = search;
        let expected = REFERENCE.estimate_search(words, ranges);
        let got = self.program.estimate_search(words, ranges);
        let input = || format!("{} by {}", shown(ranges), hexadecimal(words));
        let differs = expected != got;
        self.note(group, differs.then(|| mismatch(&input(), expected, got)));
        self.counts.searches += 1;
        if expected.refusal == 0 {
            self.counts.summed += ranges.len() as u64 / 2;
        }
        if matches!(expected.refusal, 0 | 14) {
            let alone = self.one_by_one(words, ranges);
            let differs = expected != alone;
            self.note(Group::EstimateSearches, differs.then(|| mismatch(&input(), expected, alone)));
        }
    }

    /// The sum of what the single call answers, or its first refusal.
    fn one_by_one(&mut self, words: &[u32], ranges: &[u32]) -> QhEstimate {
        let mut sum = QhEstimate::default();
        for range in pairs(ranges) {
            let QhEstimate { refusal, estimate } = self.answer_of(words, range);
            if refusal > 0 {
                return Err(refusal).into();
            }
            sum.estimate += estimate;
        }
        sum
    }

    /// Compares what a journal makes of the list that is lent, and whether its own lists stay as they were; then tests
    /// what the other program made of it, and hands it back.
    pub(super) fn replay(&mut self, group: Group, journal: &Journal) -> Left {
        let Journal { frequencies, entries, changes } = journal;
        let length = frequencies.len();
        let call = |program: &dyn Program, list: &mut [u32]| {
            let (own_entries, own_changes) = (entries.clone(), changes.clone());
            let answer = program.replay_journal(&mut list[..length], &own_entries, &own_changes);
            (answer, own_entries == *entries, own_changes == *changes)
        };
        let input = || shown_journal(journal);
        let contents = [&frequencies[..], &lent_words(0)].concat();
        let [((expected, ..), _), ((got, ..), mut others)] = self.lent(group, REFERENCE, contents, call, input);
        others.truncate(length);
        self.counts.journals += 1;
        self.met(group, expected.refusal);
        if expected.refusal == 0 {
            self.counts.replayed += 1;
            self.counts.lines += entries.len() as u64;
        }
        if length * entries.len() <= MOST_LOOKED_AT {
            self.replay_ways_agree(journal);
        }
        if got.refusal == 0 {
            self.moved(journal, got, &others);
            self.backwards(journal, &others);
        }
        let left = (got, others);
        self.cut_by_turns(journal, &left);
        left
    }

    fn replay_ways_agree(&mut self, journal: &Journal) {
        let all = WAYS.map(|way| {
            let mut list = journal.frequencies.clone();
            (replay_journal(way, &mut list, &journal.entries, &journal.changes), list)
        });
        self.note(Group::ReplayWays, (all[0] != all[1]).then(|| shown_journal(journal)));
    }

    pub(super) fn sheet(&mut self, group: Group, input: &[u8]) {
        let call = |program: &dyn Program, bytes: &mut [u8]| program.sheet(input, lent_bytes(bytes));
        let text = || shortened(input.escape_ascii().to_string());
        self.lent(group, REFERENCE, self.sheet_contents.clone(), call, text);
        self.listing(input);
    }

    fn listing(&mut self, input: &[u8]) {
        let (expected, got) = (REFERENCE.listing(input), self.program.listing(input));
        let differs = expected != got;
        let text = differs.then(|| {
            let input = shortened(input.escape_ascii().to_string());
            mismatch(&input, expected.explained, got.explained) + &difference(&expected.printed, &got.printed)
        });
        self.note(Group::SheetProgram, text);
    }

    /// Builds by some of the reference's ways, which must agree.
    pub(super) fn ways_agree(&mut self, ways: &[Way], frequencies: &[u32], bound: Bound) {
        let words = |way: &Way| write(&histogram(*way, frequencies, bound).expect("a good list"));
        let all: Vec<Vec<u32>> = ways.iter().map(words).collect();
        let differs = all.iter().any(|words| *words != all[0]);
        let text = differs.then(|| format!("{}, {bound}: {ways:?}", shown(frequencies)));
        self.note(Group::Ways, text);
    }
}
