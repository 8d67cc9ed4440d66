//! What the benchmark measures the proved calls by answers as the reference does.

use reference::bench::peer::{Peer, Ranges};
use reference::build::{self, histogram};
use reference::check::{check_by, Way};
use reference::compare::{Comparison, Volume};
use reference::generate::passes::{placed, Aimed, AIMS, PLACES};
use reference::generate::starts::{self, LONG};
use reference::generate::Random;
use reference::program::{Program, QhVerdict};
use reference::words::write;

const BOTH: [Ranges; 2] = [Ranges::Fewer, Ranges::Every];

#[test]
fn peers_answer_as_the_reference() {
    for ranges in BOTH {
        let real = vec![vec![1, 60, 3, 3, 3, 2, 900, 1, 1, 4, 4, 4, 5]];
        let mut out = Vec::new();
        let passed = Comparison::new(&Peer(ranges), Volume::QUICK, 2, real, &mut out).run();
        assert!(passed, "{ranges:?}: {}", String::from_utf8_lossy(&out));
    }
}

#[test]
fn peers_check_wide_bucketlets_as_the_reference() {
    let mut random = Random::new(41);
    // To try every pair of ends of the widest takes long.
    for (w, times, ranges) in [(64, 10, &BOTH[..]), (511, 1, &BOTH[..]), (4_095, 10, &BOTH[..1])] {
        for (aim, place) in AIMS.into_iter().flat_map(|aim| PLACES.map(|place| (aim, place))) {
            let all: Vec<Aimed> = (0..times).filter_map(|_| aim(&mut random, w, place)).flatten().collect();
            for aimed in all {
                let placed = placed(&mut random, &aimed);
                let words = write(&placed.histogram);
                let expected: QhVerdict = check_by(Way::Pass, &placed.frequencies, &words).into();
                for &ranges in ranges {
                    assert_eq!(Peer(ranges).check(&placed.frequencies, &words), expected, "{ranges:?} {aimed:?}");
                }
            }
        }
    }
}

#[test]
fn peers_build_long_lists_as_the_reference() {
    let mut random = Random::new(42);
    for (aim, length) in starts::AIMS.into_iter().flat_map(|aim| LONG.map(|length| (aim, length))) {
        let (list, bound) = aim(&mut random, length);
        let expected = write(&histogram(build::Way::FewerRanges, &list, bound).expect("a good list"));
        for ranges in BOTH {
            let mut lent = vec![0; expected.len()];
            assert_eq!(Peer(ranges).build(&list, bound, &mut lent).words, expected.len(), "{ranges:?} {bound}");
            assert_eq!(lent, expected, "{ranges:?} {bound}");
        }
    }
}
