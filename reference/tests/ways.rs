//! The four ways of building agree, and what they build is accepted and cannot be wider.

use reference::build::{grow, histogram, Way, WAYS};
use reference::check::{check, Verdict};
use reference::coding::{class_for, class_number};
use reference::fits::first_failing;
use reference::generate::foreign::fitting;
use reference::generate::lists::{bound, list, some_list, KINDS};
use reference::generate::Random;
use reference::list::{count, Bound};
use reference::words::write;

#[test]
fn ways_agree_on_small_lists() {
    let mut random = Random::new(11);
    for number in 0..1_800 {
        let frequencies = some_list(&mut random, KINDS[number % KINDS.len()], 40);
        let bound = bound(&mut random, &frequencies);
        let all = WAYS.map(|way| histogram(way, &frequencies, bound).expect("a good list"));
        assert!(all.iter().all(|built| *built == all[0]), "{frequencies:?} {bound:?}");
        assert_eq!(check(&frequencies, &write(&all[0])), Ok(Verdict::Accepted));
    }
}

#[test]
fn ways_agree_on_all_tiny_lists() {
    for number in 0..7usize.pow(4) {
        let frequency = |place| [0, 1, 2, 3, 5, 8, 21][number / 7usize.pow(place) % 7];
        let frequencies: Vec<u32> = (0..4).map(frequency).collect();
        for theta in [1, 2, 5, 9, 22] {
            for (qn, qd) in [(5, 4), (3, 2), (2, 1)] {
                let bound = Bound::new(theta, qn, qd);
                let widths = WAYS.map(|way| grow(way, &frequencies, 4, bound));
                assert_eq!(widths, [widths[0]; WAYS.len()], "{frequencies:?} {bound:?}");
            }
        }
    }
}

#[test]
fn ways_agree_on_longer_lists() {
    let mut random = Random::new(12);
    for kind in KINDS {
        for (length, ways) in [(160, &WAYS[..]), (3_000, &WAYS[1..])] {
            let frequencies = list(&mut random, kind, length);
            let bound = bound(&mut random, &frequencies);
            let built = |&way: &Way| histogram(way, &frequencies, bound).expect("a good list");
            let first = built(&ways[0]);
            assert!(ways.iter().all(|way| built(way) == first), "{kind:?} {bound:?}");
        }
    }
}

/// The definition once more: every width up to the one found fits, and the next does not.
#[test]
fn widths_are_the_largest() {
    let mut random = Random::new(13);
    for number in 0..300 {
        let frequencies = list(&mut random, KINDS[number % KINDS.len()], 30);
        let bound = bound(&mut random, &frequencies);
        let width = grow(Way::FewerRanges, &frequencies, 30, bound);
        let fits = |w: usize| {
            let s = class_number(class_for(count(&frequencies[..w])));
            first_failing(&frequencies[..w], s.into(), bound).is_none()
        };
        assert!((1..=width).all(fits), "{frequencies:?} {bound:?}");
        assert!(width == 30 || !fits(width + 1), "{frequencies:?} {bound:?}");
    }
}

#[test]
fn foreign_histograms_made_to_fit_are_accepted() {
    let mut random = Random::new(14);
    for number in 0..300 {
        let frequencies = list(&mut random, KINDS[number % KINDS.len()], 25);
        let bound = bound(&mut random, &frequencies);
        let words = write(&fitting(&mut random, &frequencies, bound));
        assert_eq!(check(&frequencies, &words), Ok(Verdict::Accepted));
    }
}
