//! What request (vi) of document 02 says of the builder's own histograms, in numbers.

use reference::broken::{Broken, Fault};
use reference::build::{histogram, Way};
use reference::check::{check, Verdict};
use reference::coding::code_for;
use reference::demand::{Pair, Rule, Side};
use reference::estimate::estimate;
use reference::fits::Sort;
use reference::generate::directed::bucket;
use reference::generate::sharper::{known, Near};
use reference::list::{count, Bound};
use reference::program::{Program, QhBuilt};
use reference::sharper::{first_beyond, strictest, wholes, Half, Sharper};
use reference::words::{read, write, Histogram};

const SPIKES: [u32; 19] = [1, 1, 1, 1, 1, 1, 1, 1, 90, 116, 90, 1, 1, 1, 1, 1, 1, 1, 1];

fn built(frequencies: &[u32], bound: Bound) -> Vec<u32> {
    write(&histogram(Way::Rule, frequencies, bound).expect("a good list"))
}

/// Three bucketlets of the same class.
fn foreign_spikes(bound: Bound, class: u32) -> Vec<u32> {
    let total = code_for(count(&SPIKES));
    write(&Histogram::new(bound, vec![bucket(0, &[9, 1, 9].map(|width| (width, class)), true, total)]))
}

fn asked(frequencies: &[u32], words: &[u32], (x, y): (u32, u32)) -> Pair {
    let count = count(&frequencies[x as usize..y as usize]);
    Pair { count, estimate: estimate(words, x, y).expect("a range of the list") }
}

#[test]
fn the_factor_for_q_2() {
    let rule = |k: u64| Sharper { bound: Bound::new(1, 2, 1), k };
    assert_eq!([3, 12, 100].map(|k| rule(k).factor()), [(15, 4), (24, 11), (200, 99)]);
    assert_eq!([3, 12, 100].map(|k| format!("{:.4}", rule(k).promise())), ["3.7500", "2.1818", "2.0202"]);
}

#[test]
fn the_factor_is_never_above_that_of_demand_3() {
    for (qn, qd) in [(5, 4), (1_000, 799), (3, 2), (2, 1), (5, 2), (8, 1), (1_000, 125)] {
        for k in (3..200).chain([1_000_000, 1 << 32]) {
            let (numerator, denominator) = Sharper { bound: Bound::new(1, qn, qd), k }.factor();
            let of_demand_3 = (u128::from(qn) * u128::from(k), u128::from(qd) * u128::from(k - 2));
            let (sharper, general) = (numerator * of_demand_3.1, of_demand_3.0 * denominator);
            assert!(sharper <= general, "q {qn}/{qd}, k {k}");
            assert_eq!(sharper == general, 4 * qn == 5 * qd, "q {qn}/{qd}, k {k}");
        }
    }
}

/// Fails unless a range goes beyond the other half alone; answers the rule for the largest k.
fn needing(half: Half, side: Side, bound: Bound, pair: Pair) -> Sharper {
    let rule = strictest(bound, pair).expect("a range that the rule speaks of");
    assert!(rule.applies(pair) && !Sharper { k: rule.k + 1, ..rule }.applies(pair), "{pair:?}");
    let [larger, other] = rule.halves();
    assert_eq!(larger, half, "{pair:?}");
    assert!(rule.goes_beyond(other, pair, side) && rule.holds(pair), "{pair:?}");
    rule
}

#[test]
fn either_half_alone_is_too_small() {
    let bound = Bound::new(98, 5, 4);
    let pair = asked(&SPIKES, &built(&SPIKES, bound), (8, 11));
    assert_eq!(pair, Pair { count: 296, estimate: 152 });
    // 1.94 is more than q k/(k - 1), 1.875.
    assert_eq!(needing(Half::TwoExcused, Side::Count, bound, pair).k, 3);

    let bound = Bound::new(1, 2, 1);
    let pair = asked(&[8, 2], &built(&[8, 2], bound), (0, 1));
    assert_eq!(pair, Pair { count: 8, estimate: 4 });
    // 2 is more than 5k/(4(k - 2)), which is 1.75, and 1.875 for k 6.
    assert_eq!(needing(Half::OneExcused, Side::Count, bound, pair).k, 7);
    let rule = Sharper { bound, k: 6 };
    assert!(rule.goes_beyond(Half::TwoExcused, pair, Side::Count));
    // But it is q.
    assert!(!rule.needs_larger_half(pair, Side::Count));
}

#[test]
fn the_one_for_rounding_is_needed() {
    let (frequencies, bound) = ([21, 21, 9, 0, 0, 0, 0, 0, 0, 3], Bound::new(3, 7, 4));
    let pair = asked(&frequencies, &built(&frequencies, bound), (2, 9));
    assert_eq!(pair, Pair { count: 9, estimate: 19 });
    let rule = needing(Half::OneExcused, Side::Estimate, bound, pair);
    assert_eq!((rule.k, rule.factor()), (6, (42, 20)));
    // 9 times 42/20 is 18.9: that is more than 19 less 1, but not than 19.
    assert!(!rule.holds(Pair { estimate: 19 + 1, ..pair }));
}

#[test]
fn known_lists_use_up_nearly_all() {
    use {Half::*, Side::*};
    // The half and the side that are aimed at; k, count and answer, and the share of the factor that is used up.
    let expected = [
        (TwoExcused, Count, 3, 296, 152, 0.5192),
        (TwoExcused, Count, 4, 9, 5, 0.7199),
        (TwoExcused, Count, 3, 331, 107, 0.8249),
        (TwoExcused, Count, 3, 331, 96, 0.9194),
        (TwoExcused, Estimate, 3, 255_116, 812_140, 0.8489),
        (TwoExcused, Estimate, 3, 182_226, 638_211, 0.9339),
        (TwoExcused, Estimate, 5, 700_038, 1_345_765, 0.9227),
        (TwoExcused, Estimate, 4, 255_116, 603_713, 0.9465),
        (OneExcused, Count, 7, 8, 4, 0.8571),
        (OneExcused, Count, 3, 63_139, 15_108, 0.9287),
        (OneExcused, Count, 4, 447, 173, 0.9689),
        (OneExcused, Count, 12, 12_495, 5_782, 0.9904),
        (OneExcused, Count, 3, 25_771, 5_742, 0.9973),
        (OneExcused, Estimate, 3, 3_341, 15_034, 0.9998),
        (OneExcused, Estimate, 5, 10_023, 25_056, 0.9998),
        (OneExcused, Estimate, 21, 8_909, 14_031, 0.9998),
        (OneExcused, Estimate, 6, 9, 19, 0.9523),
        (TwoExcused, Count, 3, 208, 57, 0.9730),
    ];
    let known = known();
    assert_eq!(known.len(), expected.len());
    for (near, (half, side, k, count, estimate, share)) in known.iter().zip(expected) {
        let Near { frequencies, bound, x, y } = near;
        let built = histogram(Way::FewerRanges, frequencies, *bound).expect("a good list");
        let pair = asked(frequencies, &write(&built), (*x, *y));
        assert_eq!(pair, Pair { count, estimate });
        let rule = needing(half, side, *bound, pair);
        let used = rule.used(pair, side).value();
        assert!(rule.k == k && used > share, "{rule:?} {pair:?} {used}");
    }
}

#[test]
fn accepted_histograms_of_others_may_break_it() {
    // Of q 5/4 the factor is that of demand 3, which they keep to.
    let bound = Bound::new(98, 5, 4);
    let words = foreign_spikes(bound, 14);
    assert_eq!(check(&SPIKES, &words), Ok(Verdict::Accepted));
    let pair = asked(&SPIKES, &words, (8, 11));
    assert_eq!(pair, Pair { count: 296, estimate: 114 });
    assert!(strictest(bound, pair).is_some_and(|rule| rule.holds(pair)));

    let bound = Bound::new(98, 5, 2);
    let words = foreign_spikes(bound, 12);
    assert_eq!(check(&SPIKES, &words), Ok(Verdict::Accepted));
    let pair = asked(&SPIKES, &words, (8, 11));
    assert_eq!(pair, Pair { count: 296, estimate: 58 });
    let rule = strictest(bound, pair).expect("a range that the rule speaks of");
    assert_eq!((rule.k, rule.factor()), (3, (15, 4)));
    assert!(!rule.holds(pair) && Rule::of_one_range(bound, 3).holds(pair));
}

#[test]
fn five_and_ten_are_off_by_five_quarters() {
    for (frequency, number) in [(5, 4), (10, 8)] {
        let built = histogram(Way::Rule, &[frequency], Bound::new(1, 5, 4)).expect("a good list");
        let numbers: Vec<(Sort, u64)> = wholes(&[frequency], &built).map(|whole| (whole.sort, whole.number)).collect();
        assert_eq!(numbers, [(Sort::Bucketlet, number), (Sort::Bucket, frequency.into())]);
        assert_eq!(first_beyond(&[frequency], &built), None);
    }
}

#[test]
fn accepted_and_beyond_five_quarters() {
    let faults = [
        (Fault::ClassHigherWithinQ, Sort::Bucketlet, 131),
        (Fault::ClassLowerWithinQ, Sort::Bucketlet, 67),
        (Fault::TotalHighestWithinQ, Sort::Bucket, 200),
        (Fault::TotalLowestWithinQ, Sort::Bucket, 50),
    ];
    for (fault, sort, number) in faults {
        let mut words = [0; 9];
        let built = Broken { fault, call: "build" }.build(&[100], Bound::new(1, 2, 1), &mut words);
        assert_eq!(built, QhBuilt { refusal: 0, words: 9 });
        assert_eq!(check(&[100], &words), Ok(Verdict::Accepted), "{fault:?}");
        let histogram = read(&words).expect("an accepted histogram");
        let beyond = first_beyond(&[100], &histogram).expect("one beyond 5/4");
        assert_eq!((beyond.sort, beyond.count, beyond.number), (sort, 100, number), "{fault:?}");
    }
}
