//! What request (xiii) of document 02 asks for: fewer pairs of ends are tried, and the answer stays.

use reference::check::{check_by, Verdict, WAYS};
use reference::coding::{class_number, code_for};
use reference::fits::{self, Failing, Sort};
use reference::generate::directed::bucket;
use reference::generate::every_list;
use reference::generate::passes::{placed, Aimed, AIMS, PLACES, WIDTHS};
use reference::generate::Random;
use reference::list::{list_fault, Bound, COUNT_LIMIT, MOST_THETA};
use reference::pass;
use reference::words::{read, write, Histogram};

/// The first failing range, which both ways find.
fn first_failing(part: &[u32], s: u64, bound: Bound) -> Option<Failing> {
    let expected = fits::first_failing(part, s, bound);
    assert_eq!(pass::first_failing(part, s, bound), expected, "{part:?} stands for {s}, {bound}");
    expected
}

/// How many bucketlets have no failing range, the whole one, a part from the first entry and one from a later entry.
fn outcomes(all: impl Iterator<Item = Option<Failing>>) -> [usize; 4] {
    let mut outcomes = [0; 4];
    for failing in all {
        let place = match failing {
            None => 0,
            Some((_, _, Sort::Bucketlet)) => 1,
            Some((0, ..)) => 2,
            Some(_) => 3,
        };
        outcomes[place] += 1;
    }
    outcomes
}

const QS: [(u32, u32); 5] = [(5, 4), (3, 2), (2, 1), (1_000, 800), (8, 1)];

#[test]
fn all_short_bucketlets() {
    const NUMBERS: [u64; 11] = [0, 1, 2, 3, 4, 6, 8, 12, 17, 24, 47];
    let parts = |frequencies: &'static [u32], lengths: std::ops::RangeInclusive<u32>| {
        let part = |list: Vec<usize>| -> Vec<u32> { list.into_iter().map(|kind| frequencies[kind]).collect() };
        lengths.flat_map(move |length| every_list(frequencies.len(), length)).map(part)
    };
    let parts = parts(&[0, 1, 2, 5, 9], 1..=5).chain(parts(&[0, 1, 4, 11], 6..=6));
    let bounds: Vec<Bound> =
        [1, 2, 4, 9, 30].into_iter().flat_map(|theta| QS.map(|(qn, qd)| Bound::new(theta, qn, qd))).collect();
    let answers = parts.flat_map(|part| {
        let (bounds, numbers) = (&bounds, NUMBERS.into_iter());
        let answers = numbers.flat_map(|s| bounds.iter().map(move |&bound| (s, bound)));
        answers.map(|(s, bound)| first_failing(&part, s, bound)).collect::<Vec<_>>()
    });
    let outcomes = outcomes(answers);
    assert!(outcomes.iter().all(|&times| times > 10_000), "{outcomes:?}");
}

/// Even frequencies of about s/w, some of them changed a little or much.
fn wide(random: &mut Random, w: usize, s: u64) -> Vec<u32> {
    let level = (s / w as u64).min(u64::from(COUNT_LIMIT) / w as u64);
    let mut part: Vec<u32> = (0..w).map(|_| (level + random.below(1 + level / 16)) as u32).collect();
    for _ in 0..random.below(4) {
        let place = random.place(&part);
        part[place] = random.pick(&[0, level / 2, 2 * level, level + 1_000]) as u32;
    }
    part
}

#[test]
fn wide_bucketlets_and_large_numbers() {
    let mut random = Random::new(31);
    let mut answers = Vec::new();
    for (w, times) in [(1, 200), (2, 200), (40, 400), (511, 60), (4_095, 12)] {
        for _ in 0..times {
            let largest = (1 << 31) - 1;
            let s = random.any_size(largest);
            let s = random.pick(&[s, s, s.max(50 * w as u64), largest]);
            let part = wide(&mut random, w, s);
            let (qn, qd) = random.pick(&QS);
            answers.push(first_failing(&part, s, Bound::new(random.any_size(MOST_THETA.into()) as u32, qn, qd)));
        }
    }
    let outcomes = outcomes(answers.into_iter());
    assert!(outcomes.iter().all(|&times| times > 10), "{outcomes:?}");
}

#[test]
fn the_largest_products() {
    // The most entries, the largest sum, number, theta and parts of q: all in the first, in the last and in all.
    let (w, bound) = (4_095, Bound::new(MOST_THETA, 1_000, 800));
    let level = COUNT_LIMIT / w as u32;
    let mut first = vec![0; w];
    first[0] = COUNT_LIMIT;
    let last: Vec<u32> = first.iter().rev().copied().collect();
    for s in [0, 1, u64::from(class_number(62)), (1 << 31) - 1] {
        for part in [&first, &last, &vec![level; w], &vec![0; w]] {
            first_failing(part, s, bound);
        }
    }
}

#[test]
fn the_whole_comes_before_a_later_start() {
    // By its count: 9 is above twice 4, alone and with the 0 before it, which theta excuses.
    assert_eq!(first_failing(&[0, 9], 4, Bound::new(8, 2, 1)), Some((0, 2, Sort::Bucketlet)));
    // By its estimate: 17 is above twice 8; 0 is estimated at 8 1/2, and 8 at as much.
    assert_eq!(first_failing(&[8, 0], 17, Bound::new(8, 2, 1)), Some((0, 2, Sort::Bucketlet)));
    // By a part from the first entry, which comes before the whole.
    assert_eq!(first_failing(&[9, 0], 4, Bound::new(8, 2, 1)), Some((0, 1, Sort::Part)));
}

#[test]
fn equal_numbers_fit() {
    let bound = Bound::new(1, 2, 1);
    // Each entry is estimated at 2: 4 is twice as much and 1 half of it.
    assert_eq!(first_failing(&[4, 2, 1, 1], 8, bound), None);
    assert_eq!(first_failing(&[5, 2, 1, 1], 8, bound), Some((0, 1, Sort::Part)));
    assert_eq!(first_failing(&[4, 2, 1, 0], 8, bound), Some((2, 4, Sort::Part)));
    // A count of theta, and an estimate of theta, are excused.
    assert_eq!(first_failing(&[5, 1, 1, 1], 8, Bound::new(5, 2, 1)), None);
    assert_eq!(first_failing(&[5, 1, 1, 1], 8, Bound::new(4, 2, 1)), Some((0, 1, Sort::Part)));
    assert_eq!(first_failing(&[0, 2, 3, 3], 8, Bound::new(2, 2, 1)), None);
    assert_eq!(first_failing(&[0, 2, 3, 3], 8, bound), Some((0, 1, Sort::Part)));
    // The whole, at q times the number and at a q-th of it.
    assert_eq!([16, 4].map(|f| first_failing(&[f], 8, bound)), [None; 2]);
    assert_eq!([17, 3].map(|f| first_failing(&[f], 8, bound)), [Some((0, 1, Sort::Bucketlet)); 2]);
}

#[test]
fn both_ways_go_on_to_the_totals() {
    let bucketlets = [(2, class_of_four()), (1, class_of_four())];
    for (total, answer) in [(8, Verdict::Accepted), (17, Verdict::Fails { sort: Sort::Bucket, start: 0, end: 3 })] {
        let histogram = Histogram::new(Bound::new(1, 2, 1), vec![bucket(0, &bucketlets, true, code_for(total))]);
        let words = write(&histogram);
        assert_eq!(WAYS.map(|way| check_by(way, &[2, 2, 4], &words)), [Ok(answer); 2], "{total}");
        let later = Verdict::Fails { sort: Sort::Part, start: 1, end: 2 };
        assert_eq!(WAYS.map(|way| check_by(way, &[2, 5, 4], &words)), [Ok(later); 2], "{total}");
        assert_eq!(WAYS.map(|way| check_by(way, &[2, 2], &words)), [Err(13); 2]);
    }
}

/// It stands for 4.
fn class_of_four() -> u32 {
    assert_eq!(class_number(5), 4);
    5
}

#[test]
fn aimed_bucketlets_stand_in_histograms_that_are_read() {
    let mut random = Random::new(32);
    for w in WIDTHS {
        let mut made = 0;
        for (aim, place) in AIMS.into_iter().flat_map(|aim| PLACES.map(|place| (aim, place))) {
            let all: Vec<Aimed> = (0..20).filter_map(|_| aim(&mut random, w, place)).flatten().collect();
            for aimed in all {
                made += 1;
                assert_eq!(aimed.part.len() as u64, w);
                let placed = placed(&mut random, &aimed);
                let start = placed.start as usize;
                assert_eq!(placed.frequencies[start..start + w as usize], aimed.part);
                assert_eq!(list_fault(&placed.frequencies), Ok(()));
                assert_eq!(read(&write(&placed.histogram)), Ok(placed.histogram));
            }
        }
        assert!(made > 100, "{made} of width {w}");
    }
}
