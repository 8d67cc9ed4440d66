//! Request (vii) of document 02: the lending journal, replayed over a frequency list. Request (viii): two journals
//! joined, and one backwards.

use crate::list::{count, list_fault, COUNT_LIMIT};

pub const MOST_LINES: usize = 65_536;

/// How both bounds are tested after a line.
#[derive(Clone, Copy, Debug, PartialEq, Eq)]
pub enum Way {
    /// Straight from the rule: every frequency is looked at, and all are summed.
    Rule,
    /// The line moves one frequency: this one is looked at, and the sum is kept from line to line.
    Incremental,
}

pub const WAYS: [Way; 2] = [Way::Rule, Way::Incremental];

/// Each line as an entry and its change. 64 bits hold every sum of them.
pub fn lines<'a>(entries: &'a [u32], changes: &'a [i32]) -> impl Iterator<Item = (usize, i64)> + 'a {
    entries.iter().zip(changes).map(|(&entry, &change)| (entry as usize, change.into()))
}

fn within_bounds(lowest: i64, sum: i64) -> bool {
    lowest >= 0 && sum <= i64::from(COUNT_LIMIT)
}

/// Replays the lines and answers whether both bounds held after each; it stops at the first that breaks one.
fn replay(way: Way, frequencies: &mut [i64], mut lines: impl Iterator<Item = (usize, i64)>) -> bool {
    let mut sum: i64 = frequencies.iter().sum();
    lines.all(|(entry, change)| {
        frequencies[entry] += change;
        sum += change;
        match way {
            Way::Rule => {
                let lowest = frequencies.iter().min().expect("a list has an entry");
                within_bounds(*lowest, frequencies.iter().sum())
            }
            Way::Incremental => within_bounds(frequencies[entry], sum),
        }
    })
}

/// Replays a journal over a lent list and answers the list's sum afterwards. Refusals 1, 3 and 25 to 27, each tested
/// over all lines before the next, leave the list as it was.
pub fn replay_journal(way: Way, frequencies: &mut [u32], entries: &[u32], changes: &[i32]) -> Result<u32, u32> {
    list_fault(frequencies)?;
    if entries.len() != changes.len() || entries.len() > MOST_LINES {
        return Err(25);
    }
    if entries.iter().any(|&entry| entry as usize >= frequencies.len()) {
        return Err(26);
    }
    let mut replayed: Vec<i64> = frequencies.iter().map(|&frequency| frequency.into()).collect();
    if !replay(way, &mut replayed, lines(entries, changes)) {
        return Err(27);
    }
    for (frequency, after) in frequencies.iter_mut().zip(replayed) {
        *frequency = u32::try_from(after).expect("it is within the bounds");
    }
    Ok(count(frequencies) as u32)
}

/// The lines of a journal and, after them, those of another, as two lists.
pub fn joined(first: (&[u32], &[i32]), second: (&[u32], &[i32])) -> (Vec<u32>, Vec<i32>) {
    ([first.0, second.0].concat(), [first.1, second.1].concat())
}

/// What comes of two journals joined, each of two equal lists, by what comes of them in turn: of the first if it is
/// refused, and else of the second over the list that the first made. 1 and 3 are said of the list, 25 of the lines of
/// both, and 26 of any line before 27: of a line of the second too, where the first breaks a bound.
pub fn if_joined<T>(in_turn: Result<T, u32>, lines: usize, second_outside: bool) -> Result<T, u32> {
    match in_turn {
        Err(1 | 3) => in_turn,
        _ if lines > MOST_LINES => Err(25),
        Err(27) if second_outside => Err(26),
        _ => in_turn,
    }
}

/// The lines in reverse order with every change negated; none if a change has no negation in 32 bits.
pub fn backward(entries: &[u32], changes: &[i32]) -> Option<(Vec<u32>, Vec<i32>)> {
    let negated: Option<Vec<i32>> = changes.iter().rev().map(|change| change.checked_neg()).collect();
    Some((entries.iter().rev().copied().collect(), negated?))
}
