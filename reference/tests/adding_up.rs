//! What request (viii) of document 02 says of two journals in turn and joined, and of one backwards, in numbers.

#[path = "common/replayed.rs"]
mod replayed;

use reference::generate::journals::{every_journal, good_journal, pairs, random_journal, Journal, Line};
use reference::generate::lists::{some_list, KINDS};
use reference::generate::Random;
use reference::journal::{backward, if_joined, Way, MOST_LINES, WAYS};
use reference::list::COUNT_LIMIT;
use replayed::replayed;
use std::collections::BTreeSet;

/// A list, or the number that refuses a journal.
type Answer = Result<Vec<u32>, u32>;

/// What comes of the first, and of the second over the list that is left.
fn in_turn(way: Way, first: &Journal, second: &Journal) -> [Answer; 2] {
    let answer = replayed(way, first);
    let left = answer.clone().unwrap_or(first.frequencies.clone());
    [answer, replayed(way, &second.over(&left))]
}

/// Two journals of a list with what comes of them in turn, of the second over the old list, and of the joined one.
#[track_caller]
fn expect(frequencies: &[u32], [first, second]: [&[Line]; 2], expected: [Result<&[u32], u32>; 4]) {
    let [first, second] = [first, second].map(|lines| Journal::new(frequencies, lines.iter().copied()));
    for way in WAYS {
        let [one, other] = in_turn(way, &first, &second);
        let answers = [one, other, replayed(way, &second), replayed(way, &first.joined(&second))];
        assert_eq!(answers, expected.map(|answer| answer.map(<[u32]>::to_vec)), "{way:?}");
    }
}

#[test]
fn two_journals_in_turn_and_joined() {
    // Each of them could be the first, but not one after the other.
    expect(&[5], [&[(0, -3)], &[(0, -3)]], [Ok(&[2]), Err(27), Ok(&[2]), Err(27)]);
    // The second needs the first.
    expect(&[0], [&[(0, 5)], &[(0, -5)]], [Ok(&[5]), Ok(&[0]), Err(27), Ok(&[0])]);
    expect(&[0], [&[(0, -5)], &[(0, 5)]], [Err(27), Ok(&[5]), Ok(&[5]), Err(27)]);
    expect(&[3, 0], [&[(1, 4), (0, -3)], &[(1, -4), (0, 1)]], [Ok(&[0, 4]), Ok(&[1, 0]), Err(27), Ok(&[1, 0])]);
    // The sum is that of both entries.
    let (limit, below) = (COUNT_LIMIT, COUNT_LIMIT - 1);
    expect(&[1, below], [&[(0, -1)], &[(1, 1)]], [Ok(&[0, below]), Ok(&[0, limit]), Err(27), Ok(&[0, limit])]);
    expect(&[1, below], [&[(1, 1)], &[(0, -1)]], [Err(27), Ok(&[0, below]), Ok(&[0, below]), Err(27)]);
    // Without lines.
    expect(&[5], [&[], &[(0, -5)]], [Ok(&[5]), Ok(&[0]), Ok(&[0]), Ok(&[0])]);
    expect(&[5], [&[(0, -5)], &[]], [Ok(&[0]), Ok(&[0]), Ok(&[5]), Ok(&[0])]);
}

#[test]
fn a_line_outside_is_named_before_a_bound_is() {
    // The first is refused with 27; joined, with 26.
    expect(&[1], [&[(0, -2)], &[(1, 0)]], [Err(27), Err(26), Err(26), Err(26)]);
    expect(&[1], [&[(0, i32::MAX)], &[(0, 1), (7, 0)]], [Err(27), Err(26), Err(26), Err(26)]);
    expect(&[1], [&[(1, 0)], &[(0, -2)]], [Err(26), Err(27), Err(27), Err(26)]);
    expect(&[1], [&[(0, -1)], &[(0, -1), (1, 0)]], [Ok(&[0]), Err(26), Err(26), Err(26)]);
    expect(&[1], [&[(0, -2)], &[(0, 1)]], [Err(27), Ok(&[2]), Ok(&[2]), Err(27)]);
}

/// That all are of two equal lists is needed: these are not, though joined they are.
#[test]
fn unequal_lists_may_join_to_equal_ones() {
    let [first, second] = [(vec![0], vec![]), (vec![], vec![1])].map(|(entries, changes)| Journal {
        frequencies: vec![7],
        entries,
        changes,
    });
    for way in WAYS {
        assert_eq!(in_turn(way, &first, &second), [Err(25), Err(25)]);
        assert_eq!(replayed(way, &first.joined(&second)), Ok(vec![8]));
    }
}

/// That both are within the line limit together is needed too.
#[test]
fn two_journals_may_have_too_many_lines_together() {
    let idle = |number: usize| Journal::new(&[7], vec![(0, 0); number]);
    for (first, second) in [(MOST_LINES, 1), (1, MOST_LINES), (MOST_LINES / 2, MOST_LINES / 2 + 1)] {
        for way in WAYS {
            assert_eq!(in_turn(way, &idle(first), &idle(second)), [Ok(vec![7]), Ok(vec![7])]);
            assert_eq!(replayed(way, &idle(first).joined(&idle(second))), Err(25));
            expect_joined(way, &idle(first), &idle(second));
            assert_eq!(replayed(way, &idle(first).joined(&idle(second - 1))), Ok(vec![7]));
        }
    }
}

/// Asserts what is said of two journals and answers whether it is 27 in turn and 26 joined.
fn expect_joined(way: Way, first: &Journal, second: &Journal) -> bool {
    let [one, other] = in_turn(way, first, second);
    let in_turn = one.and(other);
    let joined = replayed(way, &first.joined(second));
    let outside = second.entries.iter().any(|&entry| entry as usize >= first.frequencies.len());
    let lines = first.number() + second.number();
    assert_eq!(joined, if_joined(in_turn.clone(), lines, outside), "{way:?} {first:?} {second:?}");
    // Within the line limit the numbers differ in one case only, and the lists never.
    if lines <= MOST_LINES && joined != in_turn {
        assert_eq!((in_turn, joined), (Err(27), Err(26)), "{way:?} {first:?} {second:?}");
        assert!(outside);
        return true;
    }
    false
}

/// Asserts what is said of a journal backwards, if it is accepted, and answers whether the order of its lines matters.
fn expect_back(way: Way, journal: &Journal) -> bool {
    let Ok(after) = replayed(way, journal) else {
        return false;
    };
    let (entries, changes) = backward(&journal.entries, &journal.changes).expect("no change is the least");
    let back = Journal { frequencies: after.clone(), entries, changes };
    assert_eq!(replayed(way, &back), Ok(journal.frequencies.clone()), "{way:?} {journal:?}");
    let negated = journal.changes.iter().map(|change| -change).collect();
    replayed(way, &Journal { frequencies: after, changes: negated, ..journal.clone() }).is_err()
}

/// All pairs of journals of up to two lines, and all journals of up to three.
#[test]
fn all_of_a_few_lines() {
    let (mut otherwise, mut reversed) = (0, 0);
    for (frequencies, changes) in [
        (&[0][..], &[-2, -1, 0, 1, 2][..]),
        (&[2], &[-2, -1, 0, 1, 2]),
        (&[COUNT_LIMIT - 1], &[-2, -1, 0, 1, 2]),
        (&[0, 1], &[-1, 0, 1]),
        (&[1, COUNT_LIMIT - 1], &[-1, 0, 1]),
        (&[3], &[i32::MIN, -3, i32::MAX]),
    ] {
        let short: Vec<Journal> = every_journal(frequencies, changes, 2).collect();
        for way in WAYS {
            for first in &short {
                otherwise += short.iter().filter(|second| expect_joined(way, first, second)).count();
            }
            reversed += every_journal(frequencies, changes, 3).filter(|journal| expect_back(way, journal)).count();
        }
    }
    assert!(otherwise > 1_000 && reversed > 100, "{otherwise} {reversed}");
}

#[test]
fn journals_cut_anywhere() {
    let mut random = Random::new(29);
    let mut reversed = 0;
    for number in 0..400 {
        let frequencies = some_list(&mut random, KINDS[number % KINDS.len()], 20);
        let journal = match number % 2 {
            0 => good_journal(&mut random, &frequencies, number % 40),
            _ => random_journal(&mut random),
        };
        reversed += usize::from(expect_back(Way::Incremental, &journal));
        if journal.entries.len() != journal.changes.len() {
            continue;
        }
        for place in 0..=journal.number() {
            let parts = [(0, place), (place, journal.number())].map(|(from, to)| Journal {
                frequencies: journal.frequencies.clone(),
                entries: journal.entries[from..to].to_vec(),
                changes: journal.changes[from..to].to_vec(),
            });
            expect_joined(Way::Incremental, &parts[0], &parts[1]);
        }
    }
    assert!(reversed > 50, "{reversed}");
}

/// What is made for the comparison: the good ones, and either or both with a faulty line of each sort.
#[test]
fn made_pairs_are_refused_in_turn_and_joined() {
    let mut random = Random::new(30);
    for number in 0..60 {
        let frequencies = some_list(&mut random, KINDS[number % KINDS.len()], 12);
        let made = pairs(&mut random, &frequencies, number % 9);
        let refusals = |[first, second]: &[Journal; 2]| -> [u32; 2] {
            assert_eq!(first.frequencies, frequencies);
            expect_joined(Way::Incremental, first, second);
            let [one, other] = in_turn(Way::Incremental, first, second);
            let joined = replayed(Way::Incremental, &first.joined(second));
            [one.and(other), joined].map(|answer| answer.err().unwrap_or(0))
        };
        let sorts = [0, 26, 27, 27];
        for (pair, (first, second)) in made.iter().zip(sorts.iter().flat_map(|one| sorts.map(|other| (*one, other)))) {
            let in_turn = if first == 0 { second } else { first };
            let joined = if in_turn == 27 && second == 26 { 26 } else { in_turn };
            assert_eq!(refusals(pair), [in_turn, joined], "{pair:?}");
        }
        // One journal twice, and two for the same list.
        let rest: BTreeSet<[u32; 2]> = made[16..].iter().map(refusals).collect();
        assert!(made.len() == 18 && rest.is_subset(&BTreeSet::from([[0, 0], [27, 27]])), "{rest:?}");
    }
}

/// A journal's list, its lines, and those of the backward journal.
type Back<'a> = (&'a [u32], &'a [Line], &'a [Line]);

#[test]
fn backwards_in_numbers() {
    let examples: [Back; 6] = [
        (&[0], &[], &[]),
        (&[0], &[(0, 5)], &[(0, -5)]),
        // Negated only, its first line would take 5 from 0.
        (&[0], &[(0, 5), (0, -5)], &[(0, 5), (0, -5)]),
        (&[4], &[(0, -1), (0, -3), (0, 2)], &[(0, -2), (0, 3), (0, 1)]),
        (&[2, 0], &[(0, -2), (1, 3), (0, 1), (1, -1)], &[(1, 1), (0, -1), (1, -3), (0, 2)]),
        // The sum is at its limit at the end.
        (&[1, COUNT_LIMIT - 1], &[(0, -1), (1, 1)], &[(1, -1), (0, 1)]),
    ];
    for (frequencies, lines, reversed) in examples {
        let journal = Journal::new(frequencies, lines.iter().copied());
        let back = Journal::new(&journal.after(), reversed.iter().copied());
        assert_eq!(backward(&journal.entries, &journal.changes), Some((back.entries.clone(), back.changes.clone())));
        for way in WAYS {
            assert_eq!(replayed(way, &journal), Ok(journal.after()));
            assert_eq!(replayed(way, &back), Ok(frequencies.to_vec()));
        }
    }
    for way in WAYS {
        assert!(expect_back(way, &Journal::new(&[0], [(0, 5), (0, -5)])));
    }
}

#[test]
fn the_least_change_has_no_negation() {
    assert_eq!(backward(&[0], &[i32::MIN]), None);
    assert_eq!(backward(&[0, 1, 0], &[1, i32::MIN, 1]), None);
    assert_eq!(backward(&[0, 1], &[i32::MIN + 1, 4]), Some((vec![1, 0], vec![-4, i32::MAX])));
    assert_eq!(backward(&[0], &[i32::MAX]), Some((vec![0], vec![i32::MIN + 1])));
    assert_eq!(backward(&[], &[]), Some((vec![], vec![])));
}

/// Twice backwards is forwards, and a joined journal goes back through the second first.
#[test]
fn backwards_of_backwards_and_of_joined_journals() {
    let mut random = Random::new(31);
    let back = |journal: &Journal| backward(&journal.entries, &journal.changes);
    for number in 0..100 {
        let first = good_journal(&mut random, &[9, 0, 4], number % 8);
        let second = good_journal(&mut random, &first.after(), number % 5);
        let (entries, changes) = back(&first).expect("a good journal");
        assert_eq!(backward(&entries, &changes), Some((first.entries.clone(), first.changes.clone())));
        let (last_entries, last_changes) = back(&second).expect("a good journal");
        let both = ([last_entries, entries].concat(), [last_changes, changes].concat());
        assert_eq!(back(&first.joined(&second)), Some(both));
    }
}
