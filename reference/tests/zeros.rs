//! What request (iv) of document 02 makes of lists with zeros, in numbers.

use reference::build::{grow, histogram, Way, WAYS};
use reference::check::{check, Verdict};
use reference::coding::*;
use reference::demand::{Pair, Rule, KS};
use reference::estimate::estimate;
use reference::fits::Sort;
use reference::list::{Bound, MOST_ENTRIES};
use reference::sheet::printed;
use reference::words::{find, read, write, Bucket, Histogram};

/// Theta 1, q 3/2: that of most examples.
const EXAMPLE: Bound = Bound::new(1, 3, 2);

const THREE_ZEROS: [u32; 9] = [3, 1, 0xC02, 1, 0x40000203, 0x80000000, 0x80000000, 0xC0000000, 0xC0000000];

fn words(frequencies: &[u32], bound: Bound) -> Vec<u32> {
    write(&histogram(Way::Rule, frequencies, bound).expect("a good list"))
}

/// A histogram of one bucket, whose first bucketlets these are.
fn one_bucket(bound: Bound, bucketlets: &[(u32, u32)], code: u32) -> Vec<u32> {
    let mut bucket = Bucket::empty(0, false);
    for (place, &(width, class)) in bucketlets.iter().enumerate() {
        (bucket.widths[place], bucket.classes[place]) = (width, class);
    }
    bucket.total = code;
    write(&Histogram::new(bound, vec![bucket]))
}

fn fails(sort: Sort, start: u32, end: u32) -> Result<Verdict, u32> {
    Ok(Verdict::Fails { sort, start, end })
}

#[test]
fn zero_is_coded_there_and_back() {
    assert_eq!((class_of(0), number_of_class(0)), (Ok(0), Ok(0)));
    assert_eq!((code_of_total(0), number_of_total(0)), (Ok(0), Ok(0)));
}

#[test]
fn three_zeros() {
    for way in WAYS {
        let built = histogram(way, &[0; 3], EXAMPLE).expect("a good list");
        assert_eq!(write(&built), THREE_ZEROS, "{way:?}");
    }
    assert_eq!(check(&[0; 3], &THREE_ZEROS), Ok(Verdict::Accepted));
    assert_eq!(find(&THREE_ZEROS, 2), Ok(&THREE_ZEROS[4..]));
}

#[test]
fn three_zeros_on_the_sheet() {
    let expected = "codes 3 theta 1 q 3/2 buckets 1\n\
                    bucket 0 3 total 0 0\n\
                    0 3 code 0 count 0\n";
    assert_eq!(printed(Way::Rule, b"1\n3\n2\n0\n0\n0\n"), expected);
}

#[test]
fn only_the_empty_range_is_estimated_at_0() {
    for (x, y) in (0..=3).flat_map(|x| (x..=3).map(move |y| (x, y))) {
        assert_eq!(estimate(&THREE_ZEROS, x, y), Ok(u64::from(x < y)), "{x}..{y}");
    }
    assert_eq!(estimate(&THREE_ZEROS, 3, 4), Err(14));
}

#[test]
fn the_one_is_added_to_no_other_sum() {
    let words = words(&[0, 0, 100], EXAMPLE);
    for (x, y, answer) in [(0, 1, 1), (0, 2, 1), (1, 2, 1), (2, 3, 93), (1, 3, 93), (0, 3, 100)] {
        assert_eq!(estimate(&words, x, y), Ok(answer), "{x}..{y}");
    }
}

#[test]
fn zeros_beside_others() {
    let frequencies = [0, 0, 5, 0, 100];
    let bound = Bound::new(5, 3, 2);
    let expected = [5, 5, 0xC02, 1, 0x40000204, 0x85380000, 0x80000D20, 0xC0040000, 0xC0000000];
    assert_eq!(words(&frequencies, bound), expected);
    assert_eq!(WAYS.map(|way| grow(way, &frequencies, 5, bound)), [4; WAYS.len()]);
    assert_eq!(check(&frequencies, &expected), Ok(Verdict::Accepted));
}

#[test]
fn the_longest_list_of_zeros() {
    let zeros = [0; MOST_ENTRIES];
    let built = histogram(Way::FewerRanges, &zeros, EXAMPLE).expect("a good list");
    // 4,095 and seven times 511 entries a bucket.
    let starts: Vec<u32> = built.buckets.iter().map(|bucket| bucket.start).collect();
    assert_eq!(starts, [0, 7_672, 15_344, 23_016, 30_688, 38_360, 46_032, 53_704, 61_376]);
    assert!(built.buckets.iter().all(|bucket| bucket.classes == [0; 8] && bucket.total == 0));
    let words = write(&built);
    assert_eq!(check(&zeros, &words), Ok(Verdict::Accepted));
    assert_eq!(estimate(&words, 0, 65_536), Ok(1));
}

#[test]
fn class_0_fits_zeros_only() {
    let class_0 = |width, theta, code| one_bucket(Bound::new(theta, 3, 2), &[(width, 0)], code);
    assert_eq!(check(&[10; 4], &class_0(4, 1, code_for(40))), fails(Sort::Part, 0, 1));
    assert_eq!(check(&[0, 5, 7], &class_0(3, 10, code_for(12))), fails(Sort::Bucketlet, 0, 3));
    assert_eq!(check(&[0, 0, 1], &class_0(3, 10, 0)), fails(Sort::Bucketlet, 0, 3));
}

#[test]
fn zeros_fit_class_0_only() {
    let class_1 = |width, theta| one_bucket(Bound::new(theta, 2, 1), &[(width, 1)], code_for(1));
    assert_eq!(check(&[0; 3], &class_1(3, 10)), fails(Sort::Bucketlet, 0, 3));
    // By the 1 that is answered, class 0 would fit the list.
    assert_eq!(check(&[1, 0, 0], &class_1(3, 1)), Ok(Verdict::Accepted));
    let class_0 = one_bucket(Bound::new(1, 2, 1), &[(3, 0)], code_for(1));
    assert_eq!(check(&[1, 0, 0], &class_0), fails(Sort::Bucketlet, 0, 3));
}

#[test]
fn another_code_beside_classes_0_is_read_and_never_accepted() {
    let words = one_bucket(EXAMPLE, &[(3, 0)], code_for(7));
    assert!(read(&words).is_ok());
    assert_eq!((estimate(&words, 0, 3), estimate(&words, 0, 2)), (Ok(7), Ok(1)));
    assert_eq!(check(&[0; 3], &words), fails(Sort::Bucket, 0, 3));
    assert_eq!(check(&[0, 0, 7], &words), fails(Sort::Bucketlet, 0, 3));
}

#[test]
fn refusal_12_names_a_class_without_a_width_and_code_0_beside_a_class() {
    for (bucketlets, code, refusal) in [
        (&[(3, 5)][..], 0, Some(12)),
        (&[(2, 0), (1, 5)], 0, Some(12)),
        (&[(3, 0), (0, 1)], code_for(1), Some(12)),
        (&[(3, 0)], 1, Some(12)),
        (&[(3, 0)], 31, Some(12)),
        (&[(2, 0), (1, 5)], code_for(5), None),
        (&[(3, 0)], code_for(1), None),
        (&[(3, 0)], 0, None),
    ] {
        let words = one_bucket(EXAMPLE, bucketlets, code);
        assert_eq!(read(&words).err(), refusal, "{bucketlets:?} {code}");
    }
}

#[test]
fn the_accuracy_rule_says_nothing_of_a_sum_of_0() {
    let zeros = Pair { count: 0, estimate: 1 };
    assert!(KS.iter().all(|&k| !Rule::of_one_range(Bound::new(1, 5, 4), k).applies(zeros)));
}
