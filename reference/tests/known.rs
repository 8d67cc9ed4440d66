//! The lists that come nearest to demand 3's bound.

use reference::check::{check, Verdict};
use reference::demand::{Pair, Rule, KS, SIDES};
use reference::estimate::estimate;
use reference::generate::directed::known;
use reference::list::count;
use reference::words::write;

#[test]
fn known_lists_are_accepted_and_use_up_nearly_all() {
    // Count, estimate, and the share of the promised factor for k 3 that is used up.
    let expected = [
        (295, 109, 0.7217),
        (3_078_655, 824_214, 0.99606),
        (3_125_338, 522_930, 0.99609),
        (332, 1_213, 0.9734),
        (530_119, 1_987_910, 0.99998),
        (405_872, 2_435_198, 0.99998),
    ];
    let known = known();
    assert_eq!(known.len(), expected.len());
    for (directed, (true_count, answer, share)) in known.iter().zip(expected) {
        let words = write(&directed.histogram);
        assert_eq!(check(&directed.frequencies, &words), Ok(Verdict::Accepted));
        let (x, y) = (directed.x, directed.y);
        let pair = Pair {
            count: count(&directed.frequencies[x as usize..y as usize]),
            estimate: estimate(&words, x, y).expect("a range of the list"),
        };
        assert_eq!((pair.count, pair.estimate), (true_count, answer));
        let bound = directed.histogram.head.bound;
        let rule = |k: u32| Rule::of_one_range(bound, k);
        assert!(rule(3).applies(pair));
        assert!(KS.iter().all(|&k| !rule(k).applies(pair) || rule(k).holds(pair)));
        let used = SIDES.map(|side| rule(3).used(pair, side).value());
        assert!(used[0].max(used[1]) > share, "{used:?}");
    }
}

#[test]
fn the_shortest_known_list() {
    let directed = &known()[3];
    let expected = [400, 1, 1, 1, 1, 324, 1, 1, 1, 1, 400];
    assert_eq!(directed.frequencies, expected);
    assert_eq!((directed.x, directed.y), (1, 10));
}
