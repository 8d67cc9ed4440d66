//! Journals, good ones and such as are refused.

use super::{every_list, some_places, Random};
use crate::journal::{joined, MOST_LINES};
use crate::list::{count, COUNT_LIMIT, MOST_ENTRIES};
use std::slice::from_ref;

/// What the call is given.
#[derive(Clone, Debug)]
pub struct Journal {
    pub frequencies: Vec<u32>,
    pub entries: Vec<u32>,
    pub changes: Vec<i32>,
}

/// An entry and the change to its frequency.
pub type Line = (u32, i32);

/// Gives a journal with each of some faults.
pub type Faults = fn(&Journal) -> Vec<Journal>;

/// Each sort with its refusal; the last two are longer than may be.
pub const FAULTS: [(u32, Faults); 8] = [
    (1, Journal::of_no_entry),
    (3, Journal::over_the_limit),
    (25, Journal::unequal),
    (26, Journal::outside),
    (27, Journal::below_zero),
    (27, Journal::above_the_limit),
    (1, Journal::of_too_many_entries),
    (25, Journal::of_too_many_lines),
];

/// The sorts of which a line is the fault.
const FAULTY_LINES: [Faults; 3] = [Journal::outside, Journal::below_zero, Journal::above_the_limit];

const LIMIT: i32 = COUNT_LIMIT as i32;

/// Changes at the ends of what 32 bits hold and of what a bound allows.
pub const EXTREME_CHANGES: [i32; 11] =
    [i32::MIN, i32::MIN + 1, -LIMIT - 1, -LIMIT, -1, 0, 1, LIMIT, LIMIT + 1, i32::MAX - 1, i32::MAX];

/// A number from 0 to a most, small ones as likely as large ones.
fn up_to(random: &mut Random, most: i32) -> i32 {
    random.any_size(most as u64 + 1) as i32 - 1
}

/// A change that takes a frequency to 0 at the least and the sum to its limit at the most, if it grows by `left`.
fn good_change(random: &mut Random, frequency: i32, left: i32) -> i32 {
    match random.below(8) {
        0 => -frequency,
        1 => left,
        2 => 0,
        3 => up_to(random, left),
        4 => -up_to(random, frequency),
        5 => up_to(random, left.min(9)),
        _ => -up_to(random, frequency.min(9)),
    }
}

/// So many lines that break no bound, though many come right up to one. They are of any entries, of a few or of one,
/// and some undo the line ahead of them.
pub fn good_journal(random: &mut Random, frequencies: &[u32], number: usize) -> Journal {
    let mut journal = Journal::new(frequencies, []);
    let mut after: Vec<i32> = frequencies.iter().map(|&frequency| frequency as i32).collect();
    let mut left = LIMIT - after.iter().sum::<i32>();
    let ends = [0, after.len() - 1, random.place(&after), random.place(&after)];
    let few = random.pick(&[&ends[..], &ends[3..], &[]]);
    for _ in 0..number {
        let undone = journal.last().filter(|_| random.chance(1, 6));
        let (entry, change) = undone.map(|(entry, change)| (entry, -change)).unwrap_or_else(|| {
            let entry = if few.is_empty() { random.place(&after) } else { random.pick(few) };
            (entry as u32, good_change(random, after[entry], left))
        });
        after[entry as usize] += change;
        left -= change;
        journal.entries.push(entry);
        journal.changes.push(change);
    }
    journal
}

/// Two journals with so many lines each, the second for what the first makes of a list: as they are, and either or both
/// with a faulty line of each sort. Then the first with itself, and with another one that is made for the same list.
pub fn pairs(random: &mut Random, frequencies: &[u32], number: usize) -> Vec<[Journal; 2]> {
    let first = good_journal(random, frequencies, number);
    let second = good_journal(random, &first.after(), number);
    let other = good_journal(random, frequencies, number);
    let [firsts, seconds] = [&first, &second].map(|good| {
        let faulty = FAULTY_LINES.map(|faults| {
            let mut all = faults(good);
            all.swap_remove(random.place(&all))
        });
        [from_ref(good), &faulty].concat()
    });
    let mut pairs: Vec<[Journal; 2]> =
        firsts.iter().flat_map(|first| seconds.iter().map(|second| [first.clone(), second.clone()])).collect();
    pairs.extend([[first.clone(), first.clone()], [first, other]]);
    pairs
}

/// Every journal of up to so many lines with these changes, on a list and at the first entry outside it.
pub fn every_journal<'a>(
    frequencies: &'a [u32],
    changes: &'a [i32],
    most: u32,
) -> impl Iterator<Item = Journal> + use<'a> {
    let kinds = (frequencies.len() + 1) * changes.len();
    let line = |kind: usize| ((kind / changes.len()) as u32, changes[kind % changes.len()]);
    let lists = (0..=most).flat_map(move |length| every_list(kinds, length));
    lists.map(move |list| Journal::new(frequencies, list.into_iter().map(line)))
}

/// A short list with a few lines, most of them small; some are extreme, outside or left over, and some lists faulty.
pub fn random_journal(random: &mut Random) -> Journal {
    let length = random.between(1, 6);
    let mut frequencies: Vec<u32> = (0..length).map(|_| random.below(9) as u32).collect();
    if random.chance(1, 3) {
        // Near to the limit.
        let place = random.place(&frequencies);
        frequencies[place] += COUNT_LIMIT - count(&frequencies) as u32 - random.below(4) as u32;
    }
    let lines: Vec<Line> = (0..random.below(10)).map(|_| random_line(random, length)).collect();
    let mut journal = Journal::new(&frequencies, lines);
    match random.below(30) {
        0 => journal.entries.push(random.below(length + 1) as u32),
        1 => journal.changes.push(random.below(3) as i32),
        2 => journal.frequencies.push(COUNT_LIMIT),
        3 => journal.frequencies.clear(),
        _ => {}
    }
    journal
}

fn random_line(random: &mut Random, length: u64) -> Line {
    let outside = random.chance(1, 60);
    let entry = random.below(length + u64::from(outside)) as u32;
    let extreme = random.chance(1, 30);
    let change = if extreme { random.pick(&EXTREME_CHANGES) } else { random.below(9) as i32 - 4 };
    (entry, change)
}

impl Journal {
    pub fn new(frequencies: &[u32], lines: impl IntoIterator<Item = Line>) -> Journal {
        let (entries, changes) = lines.into_iter().unzip();
        Journal { frequencies: frequencies.to_vec(), entries, changes }
    }

    pub fn number(&self) -> usize {
        self.entries.len()
    }

    fn last(&self) -> Option<Line> {
        Some((*self.entries.last()?, *self.changes.last()?))
    }

    /// The same lines over another list.
    pub fn over(&self, frequencies: &[u32]) -> Journal {
        Journal { frequencies: frequencies.to_vec(), ..self.clone() }
    }

    /// With the lines of another after its own.
    pub fn joined(&self, second: &Journal) -> Journal {
        let (entries, changes) = joined((&self.entries, &self.changes), (&second.entries, &second.changes));
        Journal { frequencies: self.frequencies.clone(), entries, changes }
    }

    /// Where it is cut in two: at both ends, one line from them and in the middle.
    pub fn cuts(&self) -> [usize; 5] {
        let number = self.number();
        [0, 1.min(number), number / 2, number.saturating_sub(1), number]
    }

    fn changed(&self, change: impl FnOnce(&mut Journal)) -> Journal {
        let mut changed = self.clone();
        change(&mut changed);
        changed
    }

    /// With more lines at a place.
    pub fn with(&self, place: usize, lines: &[Line]) -> Journal {
        self.changed(|journal| {
            journal.entries.splice(place..place, lines.iter().map(|line| line.0));
            journal.changes.splice(place..place, lines.iter().map(|line| line.1));
        })
    }

    /// With so many entries and so many changes; those that are added change nothing.
    fn of_lengths(&self, entries: usize, changes: usize) -> Journal {
        self.changed(|journal| {
            journal.entries.resize(entries, 0);
            journal.changes.resize(changes, 0);
        })
    }

    /// With a frequency that is one lower or one higher, so that lines which came up to a bound may break it.
    pub fn beside(&self, random: &mut Random) -> [Journal; 2] {
        let entry = match random.below(2 + self.number() as u64) as usize {
            line if line < self.number() => self.entries[line] as usize,
            _ => random.place(&self.frequencies),
        };
        let frequency = self.frequencies[entry];
        [frequency.saturating_sub(1), frequency + 1].map(|other| self.changed(|it| it.frequencies[entry] = other))
    }

    /// What the lines of a good journal before a place make of the list.
    fn after_lines(&self, place: usize) -> Vec<i32> {
        let mut after: Vec<i32> = self.frequencies.iter().map(|&frequency| frequency as i32).collect();
        for (&entry, change) in self.entries.iter().zip(&self.changes).take(place) {
            after[entry as usize] += change;
        }
        after
    }

    /// What a good journal makes of the list.
    pub fn after(&self) -> Vec<u32> {
        self.after_lines(self.number()).into_iter().map(|frequency| frequency as u32).collect()
    }

    /// Before a place in a good journal: an entry, its frequency, and by how much the sum may grow. For the first place
    /// it is the first entry, and for the last the last.
    fn before(&self, place: usize) -> (u32, i32, i32) {
        let after = self.after_lines(place);
        let entry = (after.len() - 1) * place / self.number().max(1);
        (entry as u32, after[entry], LIMIT - after.iter().sum::<i32>())
    }

    /// At the first, a middle and the last place, lines that come right up to either bound and go back.
    pub fn up_to_the_bounds(&self) -> Vec<Journal> {
        let lines = |place: usize| {
            let (entry, frequency, left) = self.before(place);
            [-frequency, left].map(|change| self.with(place, &[(entry, change), (entry, -change)]))
        };
        some_places(self.number() + 1).into_iter().flat_map(lines).collect()
    }

    /// What 1 names.
    pub fn of_no_entry(&self) -> Vec<Journal> {
        vec![self.changed(|journal| journal.frequencies.clear())]
    }

    /// What 1 names too; the entries that are added have frequency 0.
    pub fn of_too_many_entries(&self) -> Vec<Journal> {
        vec![self.changed(|journal| journal.frequencies.resize(MOST_ENTRIES + 1, 0))]
    }

    /// What 3 names: a sum that is one above the limit, in the first entry or the last, also if the first line would
    /// take it back; and a sum that is small in 32 bits.
    pub fn over_the_limit(&self) -> Vec<Journal> {
        let last = self.frequencies.len() - 1;
        let excess = COUNT_LIMIT + 1 - count(&self.frequencies) as u32;
        let raised = |entry: usize| self.changed(|journal| journal.frequencies[entry] += excess);
        let wrapped = self.changed(|journal| {
            journal.frequencies.fill(0);
            journal.frequencies[last] = 2;
            journal.frequencies[0] = u32::MAX;
        });
        vec![raised(0), raised(0).with(0, &[(0, -1)]), wrapped, raised(last)]
    }

    /// What 25 names by two lists of unequal length.
    pub fn unequal(&self) -> Vec<Journal> {
        let number = self.number();
        let fewer = number.saturating_sub(1);
        let lengths =
            [(number + 1, number), (fewer, number), (0, number), (number, 0), (number, fewer), (number, number + 1)];
        let unequal = lengths.into_iter().filter(|(entries, changes)| entries != changes);
        unequal.map(|(entries, changes)| self.of_lengths(entries, changes)).collect()
    }

    /// What 25 names by one line too many; those that are added, after the others or before them, change nothing.
    pub fn of_too_many_lines(&self) -> Vec<Journal> {
        let added = vec![(0, 0); MOST_LINES + 1 - self.number()];
        [self.number(), 0].map(|place| self.with(place, &added)).into()
    }

    /// What 25 names twice, by too many lines and by lists of unequal length.
    pub fn of_too_many_and_unequal(&self) -> Vec<Journal> {
        let (many, number) = (MOST_LINES + 1, self.number());
        let lengths = [(many, MOST_LINES), (MOST_LINES, many), (many, number), (number, many)];
        lengths.map(|(entries, changes)| self.of_lengths(entries, changes)).into()
    }

    /// What 26 names: a line at the first, a middle and the last place. The second entry is one of the list in 16 bits.
    pub fn outside(&self) -> Vec<Journal> {
        let d = self.frequencies.len() as u32;
        let lines = [(d, 0), (MOST_ENTRIES as u32, 0), (d + 1, 1), (1 << 31, i32::MIN), (u32::MAX, i32::MAX)];
        let at = |place: usize| lines.map(|line| self.with(place, &[line]));
        some_places(self.number() + 1).into_iter().flat_map(at).collect()
    }

    /// What 27 names by a frequency.
    pub fn below_zero(&self) -> Vec<Journal> {
        self.broken(|frequency, _| -frequency - 1, i32::MIN)
    }

    /// What 27 names by the sum.
    pub fn above_the_limit(&self) -> Vec<Journal> {
        self.broken(|_, left| left + 1, i32::MAX)
    }

    /// At the first, a middle and the last place of a good journal, a line that breaks a bound by 1 or by as much as
    /// can be, and one that the next line or the last takes back.
    fn broken(&self, by_one: impl Fn(i32, i32) -> i32, by_most: i32) -> Vec<Journal> {
        let lines = |place: usize| {
            let (entry, frequency, left) = self.before(place);
            let change = by_one(frequency, left);
            let broken = self.with(place, &[(entry, change)]);
            [
                self.with(place, &[(entry, change), (entry, -change)]),
                broken.with(broken.number(), &[(entry, -change)]),
                self.with(place, &[(entry, by_most)]),
                broken,
            ]
        };
        some_places(self.number() + 1).into_iter().flat_map(lines).collect()
    }
}
