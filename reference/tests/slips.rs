//! What request (v) of document 02 makes of a q above 8, in numbers.

use reference::build::{build, histogram, Way, WAYS};
use reference::check::{check, Verdict};
use reference::coding::code_for;
use reference::estimate::estimate;
use reference::fits::Sort;
use reference::generate::directed::bucket;
use reference::generate::lists::{any_q, bound, some_list, KINDS};
use reference::generate::slips::{about_most, some_q, LAST_QD, WIDE};
use reference::generate::Random;
use reference::list::{Bound, COUNT_LIMIT, MOST_ENTRIES, MOST_THETA};
use reference::sheet::printed;
use reference::words::{find, read, write, Histogram};

/// Each with what a build by it is refused with, 0 being taken.
const QS: [((u32, u32), u32); 19] = [
    ((15, 10), 0),
    ((15, 1), 24),
    ((7, 1), 0),
    ((8, 1), 0),
    ((9, 1), 24),
    ((80, 10), 0),
    ((81, 10), 24),
    ((16, 2), 0),
    ((17, 2), 24),
    ((999, 125), 0),
    ((1_000, 125), 0),
    ((1_000, 124), 24),
    ((1_000, 1), 24),
    ((1_000, 2), 24),
    ((1_001, 125), 5),
    ((9, 8), 5),
    ((9, 0), 5),
    ((u32::MAX, 536_870_911), 5),
    ((8, u32::MAX), 5),
];

/// The histogram of four tens with theta 1 and another q.
fn four_tens((qn, qd): (u32, u32)) -> Vec<u32> {
    vec![4, 1, qn << 10 | qd, 1, 0x40000204, 0x8B000000, 0x80000500, 0xC0000000, 0xC0000000]
}

fn q(qn: u32, qd: u32) -> Bound {
    Bound::new(1, qn, qd)
}

/// A histogram of one bucket for each entry.
fn bucket_for_each(d: u32, bound: Bound, class: u32, total: u32) -> Vec<u32> {
    let buckets = (0..d).map(|start| bucket(start, &[(1, class)], true, total)).collect();
    write(&Histogram::new(bound, buckets))
}

#[test]
fn builds_by_q() {
    for (way, ((qn, qd), refusal)) in WAYS.into_iter().flat_map(|way| QS.map(|of| (way, of))) {
        let mut lent = [7; 12];
        let answer = build(way, &[10; 4], q(qn, qd), &mut lent);
        let (expected, words) = match refusal {
            0 => (Ok(9), four_tens((qn, qd))),
            _ => (Err(refusal), vec![]),
        };
        assert_eq!(answer, expected, "{qn}/{qd}");
        assert_eq!(lent.to_vec(), [&words[..], &vec![7; 12 - words.len()]].concat(), "{qn}/{qd}");
    }
}

#[test]
fn the_builder_tests_24_after_5_and_before_6() {
    let nine = |theta| Bound::new(theta, 9, 1);
    for (frequencies, bound, lent, refusal) in [
        (&[][..], nine(0), 0, 1),
        (&[1; MOST_ENTRIES + 1], nine(1), 9, 1),
        (&[COUNT_LIMIT, 1], nine(0), 0, 3),
        (&[10; 4], nine(0), 0, 4),
        (&[10; 4], nine(MOST_THETA + 1), 9, 4),
        (&[10; 4], q(1_001, 1), 0, 5),
        (&[10; 4], nine(1), 0, 24),
        (&[10; 4], nine(1), 8, 24),
        (&[10; 4], nine(1), 9, 24),
        (&[10; 4], q(8, 1), 8, 6),
    ] {
        let answer = build(Way::FewerRanges, frequencies, bound, &mut vec![7; lent]);
        assert_eq!(answer, Err(refusal), "{} entries, {bound}, {lent} lent", frequencies.len());
    }
}

#[test]
fn histograms_by_q() {
    for ((qn, qd), refusal) in QS.into_iter().filter(|&((qn, qd), _)| qn.max(qd) < 1_024) {
        let words = four_tens((qn, qd));
        // What the builder names by 5 is a matter of 7 here.
        let refusal = [refusal, 7][usize::from(refusal == 5)];
        assert_eq!(read(&words).err().unwrap_or(0), refusal, "{qn}/{qd}");
        let answers = match refusal {
            0 => (Ok(Verdict::Accepted), Ok(17), Ok(&words[4..])),
            _ => (Err(refusal), Err(refusal), Err(refusal)),
        };
        assert_eq!((check(&[10; 4], &words), estimate(&words, 1, 3), find(&words, 3)), answers, "{qn}/{qd}");
    }
}

#[test]
fn reading_tests_24_after_7_and_before_8() {
    let nine = four_tens((9, 1));
    for (place, word, refusal) in [
        (0, 0, 7),
        (1, 0, 7),
        (2, 9 << 10 | 1 | 1 << 20, 7),
        (3, 0, 7),
        (3, 5, 7),
        (3, 2, 24),
        (5, 0x4B000000, 24),
        (7, 0xC8000000, 24),
        (4, 0x40000604, 24),
        (8, 0xC0000001, 24),
        (5, 0xBF000000, 24),
        (6, 0x80000000, 24),
    ] {
        let mut words = nine.clone();
        words[place] = word;
        assert_eq!(read(&words).err(), Some(refusal), "{place} {word:X}");
    }
    for (length, refusal) in [(0, 7), (3, 7), (4, 24), (8, 24)] {
        assert_eq!(read(&nine[..length]).err(), Some(refusal), "{length} words");
    }
}

#[test]
fn the_calls_test_24_after_the_list_and_before_what_is_asked() {
    let nine = four_tens((9, 1));
    assert_eq!(check(&[], &nine), Err(1));
    assert_eq!(check(&[COUNT_LIMIT, 1], &nine), Err(3));
    assert_eq!(check(&[10; 5], &nine), Err(24));
    assert_eq!((estimate(&nine, 2, 2), estimate(&nine, 3, 2)), (Err(24), Err(24)));
    assert_eq!(find(&nine, 4), Err(24));
    let eight = four_tens((8, 1));
    assert_eq!(check(&[10; 5], &eight), Err(13));
    assert_eq!((estimate(&eight, 2, 2), estimate(&eight, 3, 2)), (Ok(0), Err(14)));
    assert_eq!(find(&eight, 4), Err(15));
}

#[test]
fn the_slip_on_the_sheet() {
    for (input, refusal) in [
        ("1\n15\n1\n1\n100\n", 24),
        ("1\n9\n1\n0\n", 24),
        ("1\n1000\n124\n1\n", 24),
        ("0\n15\n1\n1\n", 4),
        ("1\n15\n1\n1073741824\n", 3),
        ("1\n4294967295\n536870911\n1\n", 5),
        ("1\n15\n1\n1", 18),
        ("1\n15\n1\n", 18),
    ] {
        assert_eq!(printed(Way::Rule, input.as_bytes()), format!("refused {refusal}\n"), "{input}");
    }
    let heads = [("1\n15\n10\n1\n", "codes 1 theta 1 q 15/10 "), ("1\n8\n1\n1\n", "codes 1 theta 1 q 8/1 ")];
    for (input, head) in heads {
        assert!(printed(Way::Rule, input.as_bytes()).starts_with(head), "{input}");
    }
}

#[test]
fn eight_itself_decides_what_fits() {
    // An entry of 1 estimated at 8, and one of 8 estimated at 1.
    for (frequency, class, total) in [(1, 7, 8), (8, 1, 1)] {
        let verdict = |qn, qd| check(&[frequency], &bucket_for_each(1, q(qn, qd), class, code_for(total)));
        assert_eq!(verdict(8, 1), Ok(Verdict::Accepted));
        assert_eq!(verdict(799, 100), Ok(Verdict::Fails { sort: Sort::Bucketlet, start: 0, end: 1 }));
        assert_eq!(verdict(801, 100), Err(24));
    }
}

#[test]
fn accepted_estimates_still_pass_32_bits() {
    let words = bucket_for_each(8, q(1_000, 125), 56, 4_087);
    assert_eq!(check(&[133_603_487; 8], &words), Ok(Verdict::Accepted));
    assert_eq!(estimate(&words, 0, 8), Ok(8 * 1_068_827_891));
}

#[test]
fn lists_are_given_a_q_up_to_8() {
    let mut random = Random::new(15);
    let mut eights = 0;
    for number in 0..3_000 {
        let frequencies = some_list(&mut random, KINDS[number % KINDS.len()], 30);
        let bound = bound(&mut random, &frequencies);
        assert!(histogram(Way::FewerRanges, &frequencies, bound).is_ok(), "{bound}");
        let (qn, qd) = any_q(&mut random);
        let any = q(qn, qd);
        assert!(any.q_within_limits() && !any.q_too_large(), "{any}");
        eights += usize::from(qn == 8 * qd);
    }
    assert!(eights > 100, "{eights}");
}

#[test]
fn slips_are_on_both_sides_of_8() {
    let mut random = Random::new(16);
    let some: Vec<(u32, u32)> = (0..1_000).map(|_| some_q(&mut random)).collect();
    for qs in [about_most(LAST_QD), about_most(4), some] {
        let answers = qs.iter().map(|&(qn, qd)| build(Way::FewerRanges, &[10; 4], q(qn, qd), &mut [0; 9]));
        let answers: Vec<_> = answers.collect();
        assert!([Ok(9), Err(5), Err(24)].iter().all(|answer| answers.contains(answer)));
    }
    for (qn, qd) in WIDE {
        assert_eq!(build(Way::FewerRanges, &[10; 4], q(qn, qd), &mut [0; 9]), Err(5), "{qn}/{qd}");
    }
}
