//! Word lists with faults, most of them one field away from a good one, and random ones.

use super::foreign::codes;
use super::slips::with_q;
use super::Random;
use crate::list::{MOST_ENTRIES, MOST_THETA};
use crate::words::{HEADS, KINDS, PER_BUCKET};

/// Head words near their limits.
const EDGES: [u32; 8] = [0, 1, 65_535, 65_536, 65_537, 1_048_575, 1_048_576, 1 << 29];

/// The word of q near its limits: 5/4, 5/5, 8/1, 9/1, and 1000 over 125, 124, 801 and 800.
const Q_EDGES: [u32; 8] = [0x1404, 0x1405, 0x2001, 0x2401, 0xF_A07D, 0xF_A07C, 0xF_A321, 0xF_A320];

/// Widths as their word and lowest bit.
const WIDTHS: [(usize, u32); 7] = [(0, 0), (3, 18), (3, 9), (3, 0), (4, 18), (4, 9), (4, 0)];

const CLASSES: [(usize, u32); 8] = [(1, 24), (1, 18), (1, 12), (1, 6), (1, 0), (2, 24), (2, 18), (2, 12)];

/// A fault of a histogram's words.
pub type WordFault = fn(&mut Vec<u32>);

/// Those of 7, then those of 8 to 12 in their order; one bucket more is 7 where d is 1.
pub const WORD_FAULTS: [WordFault; 21] = [
    Vec::clear,
    |words| words.truncate(2),
    |words| words.truncate(3),
    |words| words[0] = 0,
    |words| words[0] = 1 + MOST_ENTRIES as u32,
    |words| words[1] = 0,
    |words| words[1] = MOST_THETA + 1,
    |words| words[2] |= 1 << 20,
    |words| words[2] |= 1 << 31,
    |words| words[3] = 0,
    |words| words[3] = words[0] + 1,
    |words| words.truncate(4),
    |words| words.truncate(words.len() - 1),
    |words| words.push(0),
    |words| words[3] += 1,
    |words| words[5] ^= 3 << 30,
    |words| words[8] |= 1 << 27,
    |words| words[4] |= 1 << 10,
    |words| words[7] |= 511 << 18,
    |words| words[5] |= 63 << 24,
    |words| words[6] |= 31,
];

/// A histogram with each of these faults, and one that 24 refuses.
pub fn faulty_words(words: &[u32]) -> impl Iterator<Item = Vec<u32>> + '_ {
    let faulty = WORD_FAULTS.iter().map(|fault| {
        let mut words = words.to_vec();
        fault(&mut words);
        words
    });
    faulty.chain([with_q(words, (9, 1))])
}

/// A word list with each bit changed by itself, then each shorter one.
pub fn every_change(words: &[u32]) -> impl Iterator<Item = Vec<u32>> + '_ {
    let bits = (0..32 * words.len()).map(|bit| {
        let mut words = words.to_vec();
        words[bit / 32] ^= 1 << (bit % 32);
        words
    });
    bits.chain((0..words.len()).map(|length| words[..length].to_vec()))
}

/// A word list with one to three faults.
pub fn damaged(random: &mut Random, words: &[u32]) -> Vec<u32> {
    let mut words = words.to_vec();
    for _ in 0..random.between(1, 3) {
        if random.chance(1, 2) && words.len() >= HEADS + PER_BUCKET {
            let buckets = (words.len() - HEADS) / PER_BUCKET;
            let at = HEADS + PER_BUCKET * random.below(buckets as u64) as usize;
            field_fault(random, &mut words[at..at + PER_BUCKET]);
        } else if random.chance(1, 3) || words.is_empty() {
            length_fault(random, &mut words);
        } else {
            word_fault(random, &mut words);
        }
    }
    words
}

fn length_fault(random: &mut Random, words: &mut Vec<u32>) {
    let length = words.len();
    match random.below(3) {
        0 => words.truncate(random.below(length as u64 + 1) as usize),
        1 => words.push(random.word() as u32),
        _ => words.extend_from_within(length.saturating_sub(PER_BUCKET)..),
    }
}

fn word_fault(random: &mut Random, words: &mut [u32]) {
    let place = random.place(words);
    let head = random.below(words.len().min(HEADS) as u64) as usize;
    match random.below(6) {
        0 | 1 => words[place] ^= 1 << random.below(32),
        2 => words[place] = random.pick(&[0, u32::MAX, 1 << 30, 2 << 30, 3 << 30]),
        3 => words[place] = random.word() as u32,
        4 => words[head] = random.pick(if head == 2 { &Q_EDGES } else { &EDGES }),
        _ => words[head] = words[head].wrapping_add(random.pick(&[1, 2, u32::MAX])),
    }
}

/// Puts a value into bits high..low.
fn set(word: &mut u32, high: u32, low: u32, value: u32) {
    let mask = (1 << (high - low + 1)) - 1;
    *word = (*word & !(mask << low)) | ((value & mask) << low);
}

/// A fault in one field of a bucket.
fn field_fault(random: &mut Random, bucket: &mut [u32]) {
    let step = random.pick(&[u32::MAX, 1, 2, 511, 512]);
    match random.below(9) {
        0 => {
            let start = (bucket[0] >> 10).wrapping_add(step);
            let other = random.pick(&[start, 0, 1, 70_000, 65_535]);
            set(&mut bucket[0], 29, 10, other);
        }
        1 => bucket[0] ^= 1 << 9,
        2 => {
            let (place, kind) = (random.place(bucket), random.below(4) as u32);
            set(&mut bucket[place], 31, 30, kind);
        }
        3 => bucket[random.pick(&[3, 4])] ^= 1 << random.between(27, 29),
        4 | 5 => class_fault(random, bucket),
        6 => code_fault(random, bucket),
        7 => {
            // Eight classes 0, beside which code 0 is valid.
            set(&mut bucket[1], 29, 0, 0);
            set(&mut bucket[2], 29, 12, 0);
            if random.chance(1, 2) {
                code_fault(random, bucket);
            }
        }
        _ => {
            let (place, low) = random.pick(&WIDTHS);
            let width = (bucket[place] >> low).wrapping_add(step);
            set(&mut bucket[place], low + 8, low, width);
        }
    }
}

fn class_fault(random: &mut Random, bucket: &mut [u32]) {
    let (place, low) = random.pick(&CLASSES);
    let class = bucket[place] >> low;
    let beside = random.pick(&[class ^ 1, class.wrapping_add(1), class.wrapping_sub(1)]);
    let other = random.pick(&[beside, beside, 0, 2, 63, 62]);
    set(&mut bucket[place], low + 5, low, other);
}

fn code_fault(random: &mut Random, bucket: &mut [u32]) {
    let code = bucket[2] & 0xFFF;
    let beside = random.pick(&[code + 1, code ^ 32, code ^ 1]);
    let other = random.pick(&[beside, beside, 0, 0, 31, 24, 2_048, 2_047, 4_087]);
    set(&mut bucket[2], 11, 0, other);
}

/// Random words, most of them with a good head, the right length and the right kinds.
pub fn random_words(random: &mut Random) -> Vec<u32> {
    if random.chance(1, 4) {
        let length = random.below(20);
        return (0..length).map(|_| random.word() as u32).collect();
    }
    let buckets = random.between(1, 3) as u32;
    let d = random.between(buckets.into(), 60) as u32;
    // 3/2, 8/1, or 9/1 which is refused.
    let q = if random.chance(1, 8) { 0x2401 } else { random.pick(&[0xC02, 0x2001]) };
    let mut words = vec![d, random.any_size(300) as u32, q, buckets];
    let zeros = random.chance(1, 4);
    for bucket in 0..buckets {
        let mut five = KINDS.map(|kind| (kind << 30) | random.below(1 << 30) as u32);
        if random.chance(7, 8) {
            set(&mut five[3], 29, 27, 0);
            set(&mut five[4], 29, 27, 0);
        }
        if random.chance(7, 8) {
            set(&mut five[0], 29, 10, bucket * d / buckets);
        }
        if random.chance(7, 8) {
            for (place, low) in WIDTHS {
                let narrow = random.below(4) as u32;
                set(&mut five[place], low + 8, low, narrow);
            }
        }
        if zeros {
            // Eight classes 0, which may stand beside code 0 and beside others.
            let other = random.pick(codes());
            set(&mut five[1], 29, 0, 0);
            set(&mut five[2], 29, 0, random.pick(&[0, other]));
        }
        words.extend(five);
    }
    words
}
