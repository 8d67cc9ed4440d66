//! What request (ii) of document 02 makes of a search of several ranges, in numbers.

mod common;

use common::{words, EXAMPLE, FOUR_TENS, WORD_FAULTS};
use reference::build::{histogram, Way};
use reference::check::{check, Verdict};
use reference::demand::{broken_rule, strictest, Form, Pair, Rule, Side, FORMS, SIDES};
use reference::estimate::{answered, estimate};
use reference::generate::directed::{bucket, directed, known, repeated, spikes, DirectedSearch};
use reference::generate::foreign::{fitting, wild};
use reference::generate::lists::{bound, some_list, KINDS};
use reference::generate::ranges::all_ranges;
use reference::generate::searches::{every_few_words, one_of_each, ranges_in_order, Search, FAULTS};
use reference::generate::Random;
use reference::list::{count, Bound, MOST_ENTRIES};
use reference::search::{estimate_search, MOST_RANGES};
use reference::words::{write, Bucket, Histogram};
use reference::worksheet::pairs;
use std::collections::BTreeSet;

#[track_caller]
fn expect(words: &[u32], answers: &[(&[u32], Result<u64, u32>)]) {
    for (ranges, answer) in answers {
        assert_eq!(estimate_search(words, ranges), *answer, "{ranges:?}");
    }
}

/// So many ranges that are each the same.
fn same(range: [u32; 2], number: usize) -> Vec<u32> {
    range.repeat(number)
}

#[test]
fn four_tens() {
    expect(
        &FOUR_TENS,
        &[
            // One range is answered as the single call answers it.
            (&[1, 3], Ok(17)),
            (&[0, 3], Ok(26)),
            (&[0, 4], Ok(40)),
            (&[2, 2], Ok(0)),
            // 8.5 and 17, each rounded up by itself.
            (&[0, 1, 1, 2], Ok(18)),
            (&[0, 2, 2, 4], Ok(34)),
            (&[0, 1, 2, 3, 3, 4], Ok(27)),
            // Empty ranges add nothing, also where they touch others or each other.
            (&[0, 0, 0, 4, 4, 4], Ok(40)),
            (&[1, 1, 1, 1, 1, 3, 3, 3], Ok(17)),
        ],
    );
}

#[test]
fn a_range_outside_is_refused_with_14() {
    expect(
        &FOUR_TENS,
        &[
            (&[3, 2], Err(14)),
            (&[0, 5], Err(14)),
            (&[5, 5], Err(14)),
            (&[0, u32::MAX], Err(14)),
            (&[3, 2, 2, 4], Err(14)),
            (&[0, 2, 2, 5], Err(14)),
            // Before 22 and 23, but never for the word left over.
            (&[0, 5, 7], Err(14)),
            (&[0, 4, 5], Err(22)),
            (&[0, 4, u32::MAX], Err(22)),
            (&[5], Err(22)),
            (&[0, 3, 2, 5], Err(14)),
            (&[4, 3, 0, 1], Err(14)),
        ],
    );
    for number in [16, 17, 100] {
        let broken = [same([4, 4], number), vec![4, 5]].concat();
        expect(&FOUR_TENS, &[(&broken, Err(14)), (&[broken.clone(), vec![0]].concat(), Err(14))]);
    }
}

#[test]
fn the_number_of_ranges_is_refused_with_22() {
    expect(&FOUR_TENS, &[(&[], Err(22)), (&[0], Err(22)), (&[0, 4, 4], Err(22))]);
    for number in [17, 18, 256, 257, 65_536, 65_537] {
        // Before 23, and whether they are empty or not.
        for range in [[0, 0], [4, 4], [0, 4]] {
            expect(&FOUR_TENS, &[(&same(range, number), Err(22))]);
        }
    }
    expect(&FOUR_TENS, &[(&same([4, 4], 16), Ok(0)), (&same([0, 4], 16), Err(23))]);
    expect(&FOUR_TENS, &[(&[same([4, 4], 16), vec![4]].concat(), Err(22))]);
    expect(&FOUR_TENS, &[(&[0, 3, 2, 4, 0], Err(22))]);
}

#[test]
fn a_range_that_starts_before_the_one_ahead_ends_is_refused_with_23() {
    expect(
        &FOUR_TENS,
        &[
            (&[0, 3, 2, 4], Err(23)),
            (&[0, 2, 2, 4], Ok(34)),
            (&[2, 4, 0, 2], Err(23)),
            (&[0, 4, 0, 4], Err(23)),
            // Where one of them is empty, or both are.
            (&[3, 3, 2, 4], Err(23)),
            (&[0, 4, 2, 2], Err(23)),
            (&[0, 4, 3, 3, 4, 4], Err(23)),
            (&[4, 4, 0, 0], Err(23)),
            (&[0, 4, 4, 4], Ok(40)),
            // The first two, the last two and those between.
            (&[0, 2, 1, 2, 2, 3, 3, 4], Err(23)),
            (&[0, 1, 1, 3, 2, 3, 3, 4], Err(23)),
            (&[0, 1, 1, 2, 2, 4, 3, 4], Err(23)),
            // Only neighbours count: the third starts where the first ends.
            (&[0, 2, 1, 1, 2, 3], Err(23)),
        ],
    );
}

#[test]
fn words_are_refused_before_all_else() {
    for (place, word, refusal) in WORD_FAULTS {
        let mut words = FOUR_TENS;
        words[place] = word;
        for ranges in one_of_each(4) {
            assert_eq!(estimate_search(&words, &ranges), Err(refusal), "{ranges:?}");
        }
    }
}

#[test]
fn only_empty_ranges_are_estimated_at_0() {
    let zeros = words(&[0; 3]);
    expect(&zeros, &[(&[0, 1, 1, 1, 1, 3], Ok(2)), (&[0, 3], Ok(1)), (&[0, 0, 3, 3], Ok(0))]);
    // Touching ranges are not joined: 1 and 93 in one would be 100.
    expect(&words(&[0, 0, 100]), &[(&[0, 2, 2, 3], Ok(94)), (&[0, 3], Ok(100))]);
}

#[test]
fn the_sum_has_64_bits() {
    let alone = |start: u32| bucket(start, &[(1, 62)], true, 4_087);
    let buckets: Vec<Bucket> = (0..MOST_ENTRIES as u32).map(alone).collect();
    let words = write(&Histogram::new(EXAMPLE, buckets));
    let sixteenths: Vec<u32> = (0..16).flat_map(|part| [4_096 * part, 4_096 * (part + 1)]).collect();
    assert_eq!(estimate_search(&words, &sixteenths), Ok(70_046_704_664_576));
}

/// Every list of up to four words of a short list, straight from the request.
#[test]
fn all_searches_of_two_ranges() {
    let words = words(&[1, 100, 0]);
    for ranges in every_few_words(3, 4) {
        let alone: Result<Vec<u64>, u32> = pairs(&ranges).map(|(x, y)| estimate(&words, x, y)).collect();
        let expected = match (alone, &ranges[..]) {
            (Err(refusal), _) => Err(refusal),
            (_, [] | [_] | [_, _, _]) => Err(22),
            (_, [_, end, start, _]) if start < end => Err(23),
            (Ok(estimates), _) => Ok(estimates.iter().sum()),
        };
        assert_eq!(estimate_search(&words, &ranges), expected, "{ranges:?}");
    }
}

#[test]
fn each_answer_is_the_sum_of_the_single_calls() {
    let mut random = Random::new(19);
    for number in 0..300 {
        let frequencies = some_list(&mut random, KINDS[number % KINDS.len()], 25);
        let bound = bound(&mut random, &frequencies);
        let foreign = wild(&mut random, &frequencies, bound);
        let words = write(&foreign);
        for number in 1..=MOST_RANGES {
            let ranges = ranges_in_order(&mut random, &foreign, number);
            let alone = ranges.iter().map(|&(x, y)| estimate(&words, x, y).expect("a range of the list"));
            assert_eq!(estimate_search(&words, &Search::new(&words, ranges.clone()).ranges), Ok(alone.sum()));
        }
    }
}

/// Each kind of made faults, alone and beside those that are named after it.
#[test]
fn made_faults_are_refused_in_their_order() {
    let words = words(&[1, 100, 1, 100, 1, 100, 1, 100, 1]);
    let refusal = |of: &Search| estimate_search(&of.words, &of.ranges).err();
    let numbers: [&[u32]; 4] = [&[7, 8, 9, 10, 11, 12, 24], &[14], &[22], &[23]];
    for ranges in [vec![(0, 9)], vec![(0, 0), (9, 9)], vec![(1, 3), (3, 3), (5, 9)], vec![(2, 2); 16]] {
        let good = Search::new(&words, ranges);
        assert_eq!(refusal(&good), None);
        for (place, first) in FAULTS.iter().enumerate() {
            let beside = FAULTS[place + 1..].iter().flat_map(|second| second(&good));
            for search in beside.chain([good.clone()]) {
                let found: Option<BTreeSet<u32>> = first(&search).iter().map(refusal).collect();
                assert!(found.is_some_and(|found| found.iter().eq(numbers[place])), "{search:?}");
            }
        }
    }
}

#[test]
fn ranges_in_order_are_of_every_sort() {
    let frequencies: Vec<u32> = (0..200).map(|place| [1, 100][place / 5 % 2]).collect();
    let built = histogram(Way::FewerRanges, &frequencies, EXAMPLE).expect("a good list");
    let starts: Vec<u32> = built.buckets.iter().map(|bucket| bucket.start).collect();
    let mut random = Random::new(20);
    let searches: Vec<_> = (0..200).map(|number| ranges_in_order(&mut random, &built, 1 + number % 16)).collect();
    assert!((0..200).all(|number| searches[number].len() == 1 + number % 16));
    let neighbours = || searches.iter().flat_map(|ranges| ranges.windows(2).map(|two| (two[0], two[1])));
    let full = |(x, y): (u32, u32)| x < y;
    assert!(searches.iter().flatten().all(|&(x, y)| x <= y && y <= 200));
    assert!(neighbours().all(|(a, b)| a.1 <= b.0));
    assert!(neighbours().any(|(a, b)| full(a) && full(b) && a.1 == b.0));
    assert!(neighbours().any(|(a, b)| full(a) && full(b) && a.1 + 1 == b.0));
    assert!(neighbours().any(|(a, b)| !full(a) && full(b) && a.1 == b.0));
    assert!(neighbours().any(|(a, b)| full(a) && !full(b) && a.1 == b.0));
    assert!(searches.iter().flatten().any(|(x, y)| x < y && starts.contains(x) && starts.contains(y)));
}

/// The true count and the answer of a search.
fn pair(directed: &DirectedSearch) -> Pair {
    let DirectedSearch { frequencies, histogram, ranges } = directed;
    let counts = ranges.iter().map(|&(x, y)| count(&frequencies[x as usize..y as usize]));
    let words = write(histogram);
    assert_eq!(check(frequencies, &words), Ok(Verdict::Accepted));
    let answer = estimate_search(&words, &Search::new(&words, ranges.clone()).ranges);
    Pair { count: counts.sum(), estimate: answer.expect("a good search") }
}

#[test]
fn spikes_need_the_factor_of_their_number() {
    let twice = spikes(2);
    assert_eq!((twice.frequencies.len(), &twice.ranges[..]), (38, &[(8, 11), (27, 30)][..]));
    assert_eq!(twice.histogram.buckets.len(), 1);
    assert_eq!(twice.histogram.buckets[0].widths, [0, 0, 9, 1, 9, 9, 1, 9]);
    assert_eq!(pair(&twice), Pair { count: 592, estimate: 228 });
    for times in 1..=16 {
        let (pair, r) = (pair(&spikes(times)), u64::from(times));
        assert_eq!(pair, Pair { count: 296 * r, estimate: 114 * r });
        let bound = Bound::new(98, 5, 4);
        assert_eq!(broken_rule(bound, r, pair), None);
        // With k - 2 in place of k - 2r it would be broken from two ranges on.
        let rule = Rule { form: Form::Asked, bound, ranges: r, k: 3 * r };
        assert!(rule.applies(pair) && rule.holds(pair));
        assert_eq!(4 * pair.count * (rule.k - 2) <= 5 * rule.k * pair.estimate, times == 1);
        assert_eq!(rule.goes_beyond_next(rule.used(pair, Side::Count)), times <= 2);
    }
}

#[test]
fn known_lists_so_many_times_over_use_up_nearly_all() {
    let nearest = known();
    for (directed, side) in [(&nearest[3], Side::Estimate), (&nearest[5], Side::Estimate)] {
        for times in [2, 3, 16] {
            let search = repeated(directed, times);
            let (pair, r, bound) = (pair(&search), u64::from(times), search.histogram.head.bound);
            assert_eq!(broken_rule(bound, r, pair), None);
            for rule in FORMS.map(|form| Rule { form, bound, ranges: r, k: 3 * r }) {
                assert!(rule.applies(pair));
                assert!(rule.used(pair, side).value() > 0.97 && rule.goes_beyond_next(rule.used(pair, side)));
            }
        }
    }
}

#[test]
fn lists_are_directed_at_several_ranges() {
    let mut random = Random::new(21);
    for (ranges, side) in [2, 5, 16].into_iter().flat_map(|ranges| SIDES.map(|side| (ranges, side))) {
        let near = (0..60).filter(|_| {
            let made = directed(&mut random, side, ranges, 3);
            let (x, y) = (made.x, made.y);
            let one = Pair {
                count: count(&made.frequencies[x as usize..y as usize]),
                estimate: answered(&made.histogram, x, y),
            };
            let all: Pair = (0..ranges).map(|_| one).sum();
            let rule = Rule { form: Form::Shorter, bound: made.histogram.head.bound, ranges, k: 2 * ranges + 1 };
            let accepted = check(&made.frequencies, &write(&made.histogram)) == Ok(Verdict::Accepted);
            accepted && rule.applies(all) && rule.goes_beyond_next(rule.used(all, side))
        });
        let near = near.count();
        assert!(near > 3, "{ranges} {side:?}: {near}");
    }
}

/// The k that is tried is the largest that there is, and no other is stricter.
#[test]
fn the_strictest_rule() {
    let mut random = Random::new(22);
    let mut failing = 0;
    for _ in 0..3_000 {
        let ranges = random.between(1, 16);
        let bound = Bound::new(random.any_size(20) as u32, 5, random.between(2, 4) as u32);
        let pair = Pair { count: random.any_size(2_000), estimate: random.any_size(2_000) };
        for form in FORMS {
            let rule = |k: u64| Rule { form, bound, ranges, k };
            let ks: Vec<u64> = (2 * ranges + 1..2_100).filter(|&k| rule(k).applies(pair)).collect();
            let strictest = strictest(form, bound, ranges, pair);
            assert_eq!(strictest, ks.last().map(|&k| rule(k)));
            assert_eq!(strictest.is_none_or(|rule| rule.holds(pair)), ks.iter().all(|&k| rule(k).holds(pair)));
            failing += usize::from(strictest.is_some_and(|rule| !rule.holds(pair)));
        }
    }
    assert!(failing > 300, "{failing}");
}

/// What is asked is part of what is claimed.
#[test]
fn the_shorter_form_includes_the_one_asked_for() {
    let mut random = Random::new(23);
    for _ in 0..20_000 {
        let ranges = random.between(1, 16);
        let bound = Bound::new(random.any_size(20) as u32, 5, random.between(2, 4) as u32);
        let pair = Pair { count: random.any_size(2_000), estimate: random.any_size(2_000) };
        let k = random.between(2 * ranges + 1, 2 * ranges + 30);
        let [asked, shorter] = FORMS.map(|form| Rule { form, bound, ranges, k });
        let at_the_edge = pair.count == k * u64::from(bound.theta);
        assert!(!asked.applies(pair) || shorter.applies(pair) || at_the_edge);
        assert!(!shorter.holds(pair) || asked.holds(pair));
    }
}

#[test]
fn the_rule_holds_for_all_two_ranges_of_short_lists() {
    let mut random = Random::new(24);
    for number in 0..200 {
        let frequencies = some_list(&mut random, KINDS[number % KINDS.len()], 10);
        let bound = bound(&mut random, &frequencies);
        let histogram = fitting(&mut random, &frequencies, bound);
        let one = |(x, y): (u32, u32)| Pair {
            count: count(&frequencies[x as usize..y as usize]),
            estimate: answered(&histogram, x, y),
        };
        let all: Vec<Pair> = all_ranges(frequencies.len() as u32).map(one).collect();
        for two in all.iter().flat_map(|&a| all.iter().map(move |&b| [a, b])) {
            let sum: Pair = two.into_iter().sum();
            assert_eq!(broken_rule(bound, 2, sum), None, "{frequencies:?} {bound} {two:?}");
        }
    }
}
