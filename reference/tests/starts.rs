//! A builder that keeps one start for each bound finds the widths that every range gives.

use reference::build::{grow, Way, WAYS};
use reference::generate::every_list;
use reference::generate::starts::{after, fitted, slow, AIMS, LONG, MOST_AHEAD, SHORT};
use reference::generate::Random;
use reference::list::{list_fault, Bound, COUNT_LIMIT, MOST_THETA};

/// The width that all of these ways find.
fn width(ways: &[Way], list: &[u32], bound: Bound) -> usize {
    let limit = list.len().min(4_095);
    let widths: Vec<usize> = ways.iter().map(|&way| grow(way, list, limit, bound)).collect();
    assert!(widths.iter().all(|&width| width == widths[0]), "{list:?} {bound}: {widths:?}");
    widths[0]
}

#[test]
fn all_short_bucketlets() {
    let lists = |frequencies: &'static [u32], length: u32| {
        let list = |kinds: Vec<usize>| -> Vec<u32> { kinds.into_iter().map(|kind| frequencies[kind]).collect() };
        every_list(frequencies.len(), length).map(list)
    };
    let mut stopped = [0; 8];
    for list in lists(&[0, 1, 2, 5, 9], 5).chain(lists(&[0, 1, 3], 7)) {
        for (theta, (qn, qd)) in [1, 2, 3, 4, 5, 9].into_iter().flat_map(|theta| QS.map(|q| (theta, q))) {
            stopped[width(&WAYS, &list, Bound::new(theta, qn, qd))] += 1;
        }
    }
    assert!(stopped[1..].iter().all(|&times| times > 1_000), "{stopped:?}");
}

const QS: [(u32, u32); 5] = [(5, 4), (3, 2), (2, 1), (5, 2), (8, 1)];

#[test]
fn aimed_lists() {
    let mut random = Random::new(51);
    for (aim, length) in AIMS.into_iter().flat_map(|aim| SHORT.map(|length| (aim, length))) {
        for _ in 0..100 {
            let (list, bound) = aim(&mut random, length);
            for bound in [Some(bound), fitted(&mut random, &list, bound)].into_iter().flatten() {
                assert_eq!(list.len(), length);
                assert!(bound.theta_within_limits() && bound.q_within_limits() && !bound.q_too_large(), "{bound}");
                width(&WAYS, &list, bound);
                let ahead = random.below(MOST_AHEAD as u64 + 1) as usize;
                let frequencies = after(ahead, &list, bound);
                assert_eq!(list_fault(&frequencies), Ok(()));
                // Those ahead stay alone, so that the list starts a bucketlet.
                for start in 0..frequencies.len() - length {
                    assert_eq!(grow(Way::Rule, &frequencies[start..], 2, bound), 1, "{frequencies:?} {bound}");
                }
            }
        }
    }
}

#[test]
fn long_lists() {
    let mut random = Random::new(52);
    for (aim, length) in AIMS.into_iter().flat_map(|aim| LONG.map(|length| (aim, length))) {
        let (list, bound) = aim(&mut random, length);
        assert_eq!(list_fault(&list), Ok(()));
        width(&WAYS[1..], &list, bound);
    }
    for _ in 0..10 {
        let (list, bound) = slow(&mut random, 5_000);
        assert_eq!(width(&WAYS[1..], &list, bound), 4_095);
    }
}

#[test]
fn the_largest_products() {
    // The most entries, the largest sum, theta and parts of q: all in the first, in the last and in all.
    let w = 4_095;
    let mut first = vec![0; w];
    first[0] = COUNT_LIMIT;
    let last: Vec<u32> = first.iter().rev().copied().collect();
    let even = vec![COUNT_LIMIT / w as u32; w];
    for bound in [Bound::new(MOST_THETA, 1_000, 800), Bound::new(1, 1_000, 800), Bound::new(MOST_THETA, 1_000, 125)] {
        assert_eq!([&first, &last, &even].map(|list| width(&WAYS[1..], list, bound)), [1, w - 1, w], "{bound}");
    }
}

#[test]
fn counts_of_the_threshold_are_light() {
    // Each entry is estimated at 2: 4 is twice as much, and a theta of 4 excuses it.
    assert_eq!(width(&WAYS, &[4, 1, 1], Bound::new(4, 3, 2)), 3);
    assert_eq!(width(&WAYS, &[4, 1, 1], Bound::new(3, 3, 2)), 1);
    // 1, 0 is estimated at 2 2/3, which is more than twice 1; a q-th of theta is 1 1/2, and theta excuses it.
    assert_eq!(width(&WAYS, &[1, 0, 3], Bound::new(3, 2, 1)), 3);
    assert_eq!(width(&WAYS, &[1, 0, 3], Bound::new(2, 2, 1)), 2);
}

#[test]
fn the_lowest_start_moves_with_the_line() {
    // At the third entry the start of 1, 3, 2 lies lowest and 3, 2 is steepest, which moves the line; at the fourth
    // 3, 2, 3 is, with 2 2/3 an entry. The four stand for 8, so that each is estimated at 2.
    let list = [1, 3, 2, 3, 1];
    assert_eq!(width(&WAYS, &list, Bound::new(4, 4, 3)), 4);
    assert_eq!(width(&WAYS, &list, Bound::new(4, 100, 76)), 3);
}
