//! What request (vii) of document 02 makes of a journal, in numbers.

#[path = "common/replayed.rs"]
mod replayed;

use reference::generate::journals::{
    every_journal, good_journal, random_journal, Journal, Line, EXTREME_CHANGES, FAULTS,
};
use reference::generate::lists::{list, some_list, KINDS};
use reference::generate::Random;
use reference::journal::{Way, MOST_LINES, WAYS};
use reference::list::{count, COUNT_LIMIT, MOST_ENTRIES};
use replayed::replayed;
use std::collections::BTreeSet;

fn refusal(journal: &Journal) -> Option<u32> {
    replayed(Way::Incremental, journal).err()
}

/// A journal, and the list that it makes or the number that refuses it.
type Expected<'a> = (&'a [Line], Result<&'a [u32], u32>);

/// Journals of a list, each replayed by both ways.
#[track_caller]
fn expect(frequencies: &[u32], answers: &[Expected]) {
    for (lines, answer) in answers {
        let journal = Journal::new(frequencies, lines.iter().copied());
        for way in WAYS {
            assert_eq!(replayed(way, &journal), answer.map(<[u32]>::to_vec), "{way:?} {lines:?}");
        }
    }
}

#[test]
fn an_empty_list_of_books() {
    expect(
        &[0],
        &[
            (&[], Ok(&[0])),
            (&[(0, 5)], Ok(&[5])),
            (&[(0, 0)], Ok(&[0])),
            // No frequency may fall below 0, and after any line.
            (&[(0, -5), (0, 5)], Err(27)),
            (&[(0, 5), (0, -5)], Ok(&[0])),
            (&[(0, 5), (0, -6), (0, 1)], Err(27)),
            (&[(0, -1)], Err(27)),
            (&[(0, i32::MIN)], Err(27)),
            // The sum may not pass its limit.
            (&[(0, i32::MAX)], Err(27)),
            (&[(0, 1_073_741_823)], Ok(&[1_073_741_823])),
            (&[(0, 1_073_741_824)], Err(27)),
            (&[(0, 1_073_741_823), (0, -1_073_741_823)], Ok(&[0])),
            (&[(0, 1_073_741_823), (0, 1), (0, -1)], Err(27)),
            (&[(0, 1_073_741_823), (0, -1), (0, 1)], Ok(&[1_073_741_823])),
        ],
    );
}

#[test]
fn each_entry_has_its_own_lines() {
    expect(
        &[3, 0, 10],
        &[
            (&[], Ok(&[3, 0, 10])),
            (&[(0, -3), (1, 4), (2, -1)], Ok(&[0, 4, 9])),
            (&[(2, -5), (1, 1), (2, -5), (1, 1)], Ok(&[3, 2, 0])),
            (&[(2, -5), (1, 1), (2, -6), (1, 1)], Err(27)),
            // The others make up for nothing.
            (&[(1, -1), (0, 100)], Err(27)),
            (&[(0, 100), (1, -1)], Err(27)),
            // The sum is that of all.
            (&[(1, 1_073_741_810)], Ok(&[3, 1_073_741_810, 10])),
            (&[(1, 1_073_741_811)], Err(27)),
            (&[(0, -3), (1, 1_073_741_813)], Ok(&[0, 1_073_741_813, 10])),
            (&[(1, 1_073_741_813), (0, -3)], Err(27)),
        ],
    );
}

#[test]
fn a_line_outside_is_refused_with_26() {
    expect(
        &[3, 0, 10],
        &[
            (&[(2, 0)], Ok(&[3, 0, 10])),
            (&[(3, 0)], Err(26)),
            (&[(4, 0)], Err(26)),
            (&[(65_536, 0)], Err(26)),
            (&[(u32::MAX, 0)], Err(26)),
            (&[(3, 1), (0, 1)], Err(26)),
            (&[(0, 1), (3, 1)], Err(26)),
            // Before 27, wherever the two are.
            (&[(0, -4), (3, 0)], Err(26)),
            (&[(3, 0), (0, -4)], Err(26)),
            (&[(0, i32::MAX), (1, 1), (3, 0)], Err(26)),
            (&[(3, i32::MIN)], Err(26)),
        ],
    );
}

/// A journal of lists that may be unequal, by both ways.
#[track_caller]
fn expect_refusal(frequencies: &[u32], entries: &[u32], changes: &[i32], number: u32) {
    let journal = Journal { frequencies: frequencies.to_vec(), entries: entries.to_vec(), changes: changes.to_vec() };
    for way in WAYS {
        assert_eq!(replayed(way, &journal), Err(number), "{} entries, {} changes", entries.len(), changes.len());
    }
}

#[test]
fn unequal_lists_and_too_many_lines_are_refused_with_25() {
    for (entries, changes) in [(&[0][..], &[][..]), (&[], &[1]), (&[0, 0], &[1]), (&[0], &[1, 1]), (&[0, 0], &[])] {
        expect_refusal(&[7], entries, changes, 25);
    }
    // Before 26 and 27, also of lines that are not in both lists.
    expect_refusal(&[7], &[1], &[], 25);
    expect_refusal(&[7], &[1, 0], &[0], 25);
    expect_refusal(&[7], &[0], &[-8, 0], 25);
    let many = MOST_LINES + 1;
    for (entries, changes) in [(many, many), (many, MOST_LINES), (MOST_LINES, many), (many, 1), (1, many), (many, 0)] {
        expect_refusal(&[7], &vec![0; entries], &vec![0; changes], 25);
        expect_refusal(&[7], &vec![1; entries], &vec![i32::MIN; changes], 25);
    }
}

#[test]
fn a_list_is_refused_before_its_journal() {
    let long = vec![0; MOST_ENTRIES + 1];
    let over = [COUNT_LIMIT, 1];
    for (entries, changes) in [
        (&[][..], &[][..]),
        (&[0], &[0]),
        (&[0], &[-1]),
        (&[0, 0], &[-1]),
        (&[0], &[]),
        (&[u32::MAX], &[0]),
        (&[0], &[i32::MIN]),
        (&vec![0; MOST_LINES + 1], &vec![0; MOST_LINES + 1]),
    ] {
        expect_refusal(&[], entries, changes, 1);
        expect_refusal(&long, entries, changes, 1);
        expect_refusal(&over, entries, changes, 3);
        // Its sum is 1 in 32 bits.
        expect_refusal(&[u32::MAX, 2], entries, changes, 3);
    }
    expect_refusal(&[u32::MAX; MOST_ENTRIES + 1], &[], &[], 1);
}

#[test]
fn the_least_change_is_always_refused() {
    let mut random = Random::new(25);
    for number in 0..200 {
        let frequencies = some_list(&mut random, KINDS[number % KINDS.len()], 20);
        let good = good_journal(&mut random, &frequencies, number % 7);
        for place in 0..=good.entries.len() {
            let entry = random.place(&frequencies) as u32;
            let least = good.with(place, &[(entry, i32::MIN)]);
            assert_eq!(refusal(&least), Some(27));
            assert_eq!(refusal(&least.with(place, &[(frequencies.len() as u32, 0)])), Some(26));
        }
    }
}

#[test]
fn the_most_lines_on_the_longest_list() {
    let frequencies = vec![1; MOST_ENTRIES];
    let entries: Vec<u32> = (0..MOST_LINES as u32).rev().collect();
    let changes: Vec<i32> = entries.iter().map(|entry| [-1, 2][*entry as usize % 2]).collect();
    let journal = Journal { frequencies, entries, changes };
    let after = replayed(Way::Incremental, &journal).expect("a good journal");
    assert!((0..MOST_ENTRIES).all(|entry| after[entry] == [0, 3][entry % 2]));
    let last = Journal { changes: [&journal.changes[1..], &[-2]].concat(), ..journal };
    assert_eq!(refusal(&last), Some(27));
}

/// All journals of a few lines, straight from the request: the frequencies that the first lines make, for every number
/// of first lines.
#[test]
fn all_journals_of_three_lines() {
    for (frequencies, changes, most) in [
        (&[0][..], &[-2, -1, 0, 1, 2][..], 3),
        (&[1, 2], &[-3, -2, -1, 0, 1, 2], 3),
        (&[COUNT_LIMIT - 1], &[-2, -1, 0, 1, 2], 3),
        (&[1, COUNT_LIMIT - 2], &[-1, 0, 1], 3),
        (&[0, 0, 4], &EXTREME_CHANGES, 2),
        (&[5, COUNT_LIMIT - 5], &EXTREME_CHANGES, 2),
    ] {
        for journal in every_journal(frequencies, changes, most) {
            let lines = || journal.entries.iter().zip(&journal.changes);
            let after = |number: usize| -> Vec<i128> {
                let moved = |entry: usize| {
                    let own = lines().take(number).filter(|line| *line.0 as usize == entry);
                    i128::from(frequencies[entry]) + own.map(|line| i128::from(*line.1)).sum::<i128>()
                };
                (0..frequencies.len()).map(moved).collect()
            };
            let good =
                |list: Vec<i128>| list.iter().all(|f| *f >= 0) && list.iter().sum::<i128>() <= COUNT_LIMIT.into();
            let number = journal.entries.len();
            let expected = match number {
                _ if lines().any(|line| *line.0 as usize >= frequencies.len()) => Err(26),
                _ if !(0..=number).all(|first| good(after(first))) => Err(27),
                _ => Ok(after(number).into_iter().map(|frequency| frequency as u32).collect()),
            };
            for way in WAYS {
                assert_eq!(replayed(way, &journal), expected, "{way:?} {journal:?}");
            }
        }
    }
}

#[test]
fn ways_agree() {
    let mut random = Random::new(26);
    let agree = |journal: &Journal| {
        let [rule, incremental] = WAYS.map(|way| replayed(way, journal));
        assert_eq!(rule, incremental, "{journal:?}");
    };
    for _ in 0..5_000 {
        agree(&random_journal(&mut random));
    }
    for kind in KINDS {
        let frequencies = list(&mut random, kind, 300);
        let good = good_journal(&mut random, &frequencies, 200);
        agree(&good);
        FAULTS.iter().flat_map(|(_, faults)| faults(&good)).for_each(|faulty| agree(&faulty));
    }
}

/// Each kind of made faults, alone and beside those that are named after it.
#[test]
fn made_faults_are_refused_in_their_order() {
    let mut random = Random::new(27);
    for (frequencies, number) in [(&[0][..], 0), (&[4], 1), (&[0, 5, 2], 6), (&[1, COUNT_LIMIT - 1], 3)] {
        let good = good_journal(&mut random, frequencies, number);
        for (number, first) in FAULTS {
            let later = FAULTS.iter().filter(|(other, _)| number < *other);
            for journal in later.flat_map(|(_, second)| second(&good)).chain([good.clone()]) {
                let found: Option<BTreeSet<u32>> = first(&journal).iter().map(refusal).collect();
                assert_eq!(found, Some(BTreeSet::from([number])), "{journal:?}");
            }
        }
    }
}

#[test]
fn good_journals_are_replayed_and_come_up_to_both_bounds() {
    let mut random = Random::new(28);
    let (mut zeros, mut limits, mut broken_beside) = (0, 0, 0);
    for number in 0..600 {
        let frequencies = some_list(&mut random, KINDS[number % KINDS.len()], 20);
        let good = good_journal(&mut random, &frequencies, number % 40);
        assert_eq!(refusal(&good), None, "{good:?}");
        assert!(good.up_to_the_bounds().iter().all(|other| refusal(other).is_none()));
        for lines in 1..=good.entries.len() {
            let first = Journal::new(&frequencies, good.entries.iter().copied().zip(good.changes.clone()).take(lines));
            let after = replayed(Way::Incremental, &first).expect("a good journal");
            let moved = good.changes[lines - 1] != 0;
            zeros += usize::from(moved && after[good.entries[lines - 1] as usize] == 0);
            limits += usize::from(moved && count(&after) == COUNT_LIMIT.into());
        }
        broken_beside += good.beside(&mut random).iter().filter(|other| refusal(other) == Some(27)).count();
    }
    assert!(zeros > 1_000 && limits > 1_000 && broken_beside > 200, "{zeros} {limits} {broken_beside}");
}
