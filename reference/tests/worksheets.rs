//! What request (i) of document 02 makes of running totals and worksheets, in numbers.

mod common;

use common::{words, EXAMPLE, FOUR_TENS, WORD_FAULTS};
use reference::build::{histogram, Way};
use reference::coding::code_for;
use reference::estimate::estimate;
use reference::generate::directed::bucket;
use reference::generate::foreign::wild;
use reference::generate::lists::{bound, some_list, KINDS};
use reference::generate::ranges::{all_ranges, ranges_about_edges};
use reference::generate::worksheets::{Worksheet, FAULTS};
use reference::generate::Random;
use reference::list::MOST_ENTRIES;
use reference::words::{write, Bucket, Histogram};
use reference::worksheet::{answer_worksheet, fill_totals, running_totals};
use std::collections::BTreeSet;

/// What a call answers with so many places lent, and the places it wrote; it may touch no other.
fn lent(lent: usize, call: impl FnOnce(&mut [u64]) -> Result<usize, u32>) -> Result<Vec<u64>, u32> {
    let mut places = vec![7; lent];
    let answer = call(&mut places);
    let written = answer.unwrap_or(0);
    assert_eq!(places[written..], vec![7; lent - written], "places after");
    places.truncate(written);
    answer.map(|_| places)
}

fn filled(words: &[u32], places: usize) -> Result<Vec<u64>, u32> {
    lent(places, |places| fill_totals(words, places))
}

fn answers(words: &[u32], totals: &[u64], worksheet: &[u32], places: usize) -> Result<Vec<u64>, u32> {
    lent(places, |places| answer_worksheet(words, totals, worksheet, places))
}

/// Running totals, a worksheet and its answers, with exactly as many places as are needed and with more.
#[track_caller]
fn expect(words: &[u32], totals: &[u64], worksheet: &[u32], expected: &[u64]) {
    for more in [0, 1, 3] {
        assert_eq!(filled(words, totals.len() + more), Ok(totals.to_vec()));
        let longer = [totals, &vec![u64::MAX; more]].concat();
        assert_eq!(answers(words, &longer, worksheet, expected.len() + more), Ok(expected.to_vec()));
    }
}

#[test]
fn four_tens() {
    expect(&FOUR_TENS, &[0, 40], &[1, 3, 0, 3, 0, 4, 2, 2], &[17, 26, 40, 0]);
    expect(&FOUR_TENS, &[0, 40], &[4, 4], &[0]);
    expect(&FOUR_TENS, &[0, 40], &[], &[]);
}

#[test]
fn one_and_hundred() {
    expect(&words(&[1, 100]), &[0, 101], &[0, 1, 1, 2, 0, 2], &[1, 93, 101]);
}

#[test]
fn what_the_codes_stand_for_is_summed() {
    // 404 has a code that stands for 405; the ninth entry has a bucket of its own.
    let words = words(&[1, 100, 1, 100, 1, 100, 1, 100, 1]);
    let worksheet = [0, 9, 0, 8, 1, 8, 1, 9, 7, 9, 8, 9, 9, 9, 8, 8];
    expect(&words, &[0, 405, 406], &worksheet, &[406, 405, 375, 376, 94, 1, 0, 0]);
}

#[test]
fn totals_of_0_add_nothing_and_only_empty_ranges_are_answered_with_0() {
    expect(&words(&[0; 3]), &[0, 0], &[0, 3, 1, 2, 3, 3, 0, 0], &[1, 1, 0, 0]);
    let buckets = vec![bucket(0, &[(2, 0)], true, 0), bucket(2, &[(1, 14)], true, code_for(100))];
    let words = write(&Histogram::new(EXAMPLE, buckets));
    expect(&words, &[0, 0, 100], &[0, 2, 0, 1, 1, 3, 0, 3, 2, 3], &[1, 1, 100, 100, 100]);
}

#[test]
fn one_sum_rounded_once() {
    let words = words(&[2, 2, 4, 1, 1, 7, 12]);
    expect(&words, &[0, 29], &[1, 6, 0, 7], &[16, 29]);
}

#[test]
fn the_largest_running_total() {
    let alone = |start: u32| bucket(start, &[(1, 62)], true, 4_087);
    let buckets: Vec<Bucket> = (0..MOST_ENTRIES as u32).map(alone).collect();
    let words = write(&Histogram::new(EXAMPLE, buckets));
    let totals = filled(&words, MOST_ENTRIES + 1).expect("enough places");
    assert!((0u64..).zip(&totals).all(|(place, &total)| total == place * 1_068_827_891));
    assert_eq!(totals[MOST_ENTRIES], 70_046_704_664_576);
    let whole = [0, MOST_ENTRIES as u32];
    assert_eq!(answers(&words, &totals, &whole, 1), Ok(vec![70_046_704_664_576]));
}

#[test]
fn too_few_places_for_totals() {
    for places in [0, 1] {
        assert_eq!(filled(&FOUR_TENS, places), Err(19), "{places} places");
    }
    let words = words(&[1, 100, 1, 100, 1, 100, 1, 100, 1]);
    assert_eq!(filled(&words, 2), Err(19));
}

#[test]
fn worksheets_are_refused_with_19_then_20_then_21() {
    for (totals, worksheet, places, refusal) in [
        // Too few totals, and too few places for the answers.
        (&[0][..], &[0, 4][..], 1, 19),
        (&[], &[], 0, 19),
        (&[0, 40], &[0, 4], 0, 19),
        (&[0, 40], &[0, 4, 1, 3], 1, 19),
        (&[0], &[0, 4], 0, 19),
        // Half the length of an odd worksheet is rounded down.
        (&[0, 40], &[0, 4, 0], 0, 19),
        (&[0, 40], &[0, 4, 0], 1, 21),
        (&[0, 40], &[0], 0, 21),
        // Both before 20 and before 21.
        (&[1], &[0, 4], 1, 19),
        (&[0, 41], &[0, 4], 0, 19),
        (&[0], &[4, 0], 1, 19),
        (&[0, 40], &[4, 0], 0, 19),
        // Each place counts, in all its bits, and with no range to answer.
        (&[1, 40], &[0, 4], 1, 20),
        (&[0, 39], &[0, 4], 1, 20),
        (&[0, 41], &[0, 4], 1, 20),
        (&[0, 40 + (1 << 32)], &[0, 4], 1, 20),
        (&[1, 41], &[0, 4], 1, 20),
        (&[40, 40], &[0, 4], 1, 20),
        (&[0, 0], &[0, 4], 1, 20),
        (&[0, 41], &[], 0, 20),
        // 20 before 21.
        (&[0, 41], &[0, 5], 1, 20),
        (&[0, 41], &[0], 0, 20),
        // The first range, the last, and each way to miss the list.
        (&[0, 40], &[1, 0], 1, 21),
        (&[0, 40], &[3, 2, 0, 4], 2, 21),
        (&[0, 40], &[0, 4, 3, 2], 2, 21),
        (&[0, 40], &[0, 4, 4, 5], 2, 21),
        (&[0, 40], &[0, 5, 0, 4], 2, 21),
        (&[0, 40], &[5, 5], 1, 21),
        (&[0, 40], &[0, u32::MAX], 1, 21),
    ] {
        assert_eq!(answers(&FOUR_TENS, totals, worksheet, places), Err(refusal), "{totals:?} {worksheet:?} {places}");
    }
}

#[test]
fn words_are_refused_before_all_else() {
    for (place, word, refusal) in WORD_FAULTS {
        let mut words = FOUR_TENS;
        words[place] = word;
        for places in [0, 1, 2] {
            assert_eq!(filled(&words, places), Err(refusal));
        }
        for (totals, worksheet, places) in [
            (&[0, 40][..], &[0, 4][..], 1),
            (&[0], &[0, 4], 1),
            (&[0, 40], &[0, 4], 0),
            (&[1, 40], &[4, 0, 0], 1),
            (&[], &[], 0),
        ] {
            assert_eq!(answers(&words, totals, worksheet, places), Err(refusal), "{totals:?} {worksheet:?} {places}");
        }
    }
}

#[test]
fn each_answer_is_the_one_of_the_single_call() {
    let mut random = Random::new(17);
    for number in 0..300 {
        let frequencies = some_list(&mut random, KINDS[number % KINDS.len()], 25);
        let bound = bound(&mut random, &frequencies);
        let foreign = wild(&mut random, &frequencies, bound);
        let words = write(&foreign);
        let ranges: Vec<(u32, u32)> = all_ranges(words[0]).collect();
        let worksheet: Vec<u32> = ranges.iter().flat_map(|&(x, y)| [x, y]).collect();
        let alone: Vec<u64> =
            ranges.iter().map(|&(x, y)| estimate(&words, x, y).expect("a range of the list")).collect();
        expect(&words, &running_totals(&foreign), &worksheet, &alone);
    }
}

/// Each kind of made faults, alone and beside those that are named after it.
#[test]
fn made_faults_are_refused_in_their_order() {
    let good = Worksheet::new(&words(&[1, 100, 1, 100, 1, 100, 1, 100, 1]), [(0, 9), (1, 8)]);
    let refusal = |of: &Worksheet| answers(&of.words, &of.totals, &of.ranges, of.lent).err();
    assert_eq!(refusal(&good), None);
    let numbers: [&[u32]; 4] = [&[7, 8, 9, 10, 11, 12, 24], &[19], &[20], &[21]];
    for (place, first) in FAULTS.iter().enumerate() {
        let beside = FAULTS[place + 1..].iter().flat_map(|second| second(&good));
        for worksheet in beside.chain([good.clone()]) {
            let found: BTreeSet<u32> = first(&worksheet).iter().filter_map(refusal).collect();
            assert!(found.iter().eq(numbers[place]), "{found:?}");
        }
    }
}

#[test]
fn ranges_about_edges_are_of_every_sort() {
    let frequencies: Vec<u32> = (0..200).map(|place| [1, 100][place / 5 % 2]).collect();
    let built = histogram(Way::FewerRanges, &frequencies, EXAMPLE).expect("a good list");
    let ranges = ranges_about_edges(&mut Random::new(18), &built, 300);
    let starts: Vec<u32> = built.buckets.iter().map(|bucket| bucket.start).collect();
    let bucketlets: Vec<_> = built.buckets.iter().flat_map(Bucket::bucketlets).collect();
    let edge = |x: u32| starts.contains(&x);
    let inside = |x: u32, y: u32| bucketlets.iter().any(|&(start, end, _)| start < x && x < y && y < end);
    assert!(ranges.iter().all(|&(x, y)| x <= y && y <= 200));
    assert!(ranges.iter().any(|&(x, y)| x == y));
    assert!(ranges.iter().any(|&(x, y)| x < y && edge(x) && edge(y)));
    assert!(ranges.iter().any(|&(x, y)| edge(x + 1) && edge(y + 1)));
    assert!(ranges.iter().any(|&(x, y)| x > 0 && edge(x - 1) && edge(y - 1)));
    assert!(ranges.iter().any(|&(x, y)| inside(x, y)));
}
