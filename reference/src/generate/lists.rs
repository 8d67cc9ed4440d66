//! Frequency lists of several kinds, with theta and q that come close to what they decide.

use super::Random;
use crate::coding::{class_for, class_number, class_start};
use crate::list::{count, Bound, COUNT_LIMIT, MOST_Q, MOST_Q_PART, MOST_THETA};

#[derive(Clone, Copy, Debug, PartialEq, Eq)]
pub enum Kind {
    Flat,
    Random,
    Steep,
    Spikes,
    Plateaus,
    Edges,
}

pub const KINDS: [Kind; 6] = [Kind::Flat, Kind::Random, Kind::Steep, Kind::Spikes, Kind::Plateaus, Kind::Edges];

/// A list of a kind, half of the time with zeros; its sum stays within the limit.
pub fn list(random: &mut Random, kind: Kind, length: usize) -> Vec<u32> {
    let mut frequencies = list_without_zeros(random, kind, length);
    if random.chance(1, 2) {
        withdraw(random, &mut frequencies);
    }
    frequencies
}

/// Sets a stretch of the list to 0, or a share of it that may be all.
fn withdraw(random: &mut Random, frequencies: &mut [u32]) {
    if random.chance(1, 3) {
        let (from, to) = (random.place(frequencies), random.place(frequencies));
        frequencies[from.min(to)..=from.max(to)].fill(0);
        return;
    }
    let twelfths = random.pick(&[1, 4, 8, 11, 12]);
    for frequency in frequencies {
        if random.chance(twelfths, 12) {
            *frequency = 0;
        }
    }
}

fn list_without_zeros(random: &mut Random, kind: Kind, length: usize) -> Vec<u32> {
    // Half of the lists have small frequencies, where classes are coarse.
    let cap = u64::from(COUNT_LIMIT) / length as u64;
    let cap = if random.chance(1, 2) { cap.min(300) } else { cap };
    let top = random.any_size(cap);
    let frequencies = match kind {
        Kind::Flat => vec![top; length],
        Kind::Random => (0..length).map(|_| random.between(1, top)).collect(),
        Kind::Steep => steep(random, top, length),
        Kind::Spikes => {
            let base = random.any_size(top);
            let every = random.between(2, 12);
            let spike = |random: &mut Random| if random.chance(1, every) { top } else { base };
            (0..length).map(|_| spike(random)).collect()
        }
        Kind::Plateaus => {
            let mut level = random.any_size(top);
            let longest = random.any_size(length as u64);
            let change = |random: &mut Random, level: &mut u64| {
                if random.chance(1, longest) {
                    *level = random.any_size(top);
                }
                // Small unrest on the plateau.
                (*level + random.below(1 + *level / 8)).min(top)
            };
            (0..length).map(|_| change(random, &mut level)).collect()
        }
        Kind::Edges => (0..length).map(|_| class_edge(random, top)).collect(),
    };
    frequencies.into_iter().map(|f| f.clamp(1, cap) as u32).collect()
}

/// Falling, rising or shuffled frequencies that shrink like a power of their rank.
fn steep(random: &mut Random, top: u64, length: usize) -> Vec<u64> {
    let power = random.between(1, 3) as u32;
    let step = random.between(1, 3);
    let mut frequencies: Vec<u64> = (0..length as u64).map(|rank| top / (1 + rank / step).pow(power)).collect();
    match random.below(3) {
        0 => {}
        1 => frequencies.reverse(),
        _ => {
            for place in (1..length).rev() {
                frequencies.swap(place, random.below(place as u64 + 1) as usize);
            }
        }
    }
    frequencies
}

/// A count at the edge of a class.
fn class_edge(random: &mut Random, top: u64) -> u64 {
    let class = random.between(1, u64::from(class_for(top))) as u32;
    (u64::from(class_start(class)) + random.below(3)).saturating_sub(1)
}

/// A list of up to `longest` entries.
pub fn some_list(random: &mut Random, kind: Kind, longest: u64) -> Vec<u32> {
    let length = random.between(1, longest) as usize;
    list(random, kind, length)
}

/// A theta and a q, often just what some range needs.
pub fn bound(random: &mut Random, frequencies: &[u32]) -> Bound {
    let theta = theta(random, frequencies);
    let (qn, qd) = q(random, frequencies);
    Bound::new(theta, qn, qd)
}

/// A theta, often just at, below or above a count or an estimate that it decides on.
fn theta(random: &mut Random, frequencies: &[u32]) -> u32 {
    let theta = match random.below(8) {
        0 => 1,
        1 => random.any_size(u64::from(MOST_THETA)),
        2 => random.between(1, 20),
        3 => count(frequencies),
        4 | 5 => {
            let (f, _, _, _) = some_range(random, frequencies);
            (f + random.below(3)).saturating_sub(1)
        }
        _ => {
            let (_, n, s, w) = some_range(random, frequencies);
            (n * s / w + random.below(3)).saturating_sub(1)
        }
    };
    theta.clamp(1, u64::from(MOST_THETA)) as u32
}

fn q(random: &mut Random, frequencies: &[u32]) -> (u32, u32) {
    const USUAL: [(u32, u32); 8] = [(5, 4), (3, 2), (2, 1), (7, 5), (3, 1), (8, 1), (1_000, 800), (1_000, 125)];
    match random.below(4) {
        0 | 1 => random.pick(&USUAL),
        2 => any_q(random),
        _ => {
            let (f, n, s, w) = some_range(random, frequencies);
            let (a, b) = ((f * w).max(n * s), (f * w).min(n * s));
            let common = divisor(a, b).max(1);
            let (qn, qd) = (a / common, b / common);
            if qd > 0 && qn <= most_numerator(qd) && 4 * qn >= 5 * qd {
                (qn as u32, qd as u32)
            } else {
                any_q(random)
            }
        }
    }
}

/// The largest qn that no refusal names beside a qd.
fn most_numerator(qd: u64) -> u64 {
    u64::from(MOST_Q_PART).min(u64::from(MOST_Q) * qd)
}

pub fn any_q(random: &mut Random) -> (u32, u32) {
    let qd = random.any_size(800);
    let least = (5 * qd).div_ceil(4);
    let most = most_numerator(qd);
    let qn = match random.below(4) {
        0 => least,
        1 => most,
        2 => random.between(least, (2 * least).min(most)),
        _ => random.between(least, most),
    };
    (qn as u32, qd as u32)
}

/// Count, length, class number and width of some range in some bucketlet of the list.
fn some_range(random: &mut Random, frequencies: &[u32]) -> (u64, u64, u64, u64) {
    let w = random.any_size((frequencies.len() as u64).min(4_095));
    let start = random.between(0, frequencies.len() as u64 - w) as usize;
    let part = &frequencies[start..start + w as usize];
    let n = random.between(1, w);
    let from = random.between(0, w - n) as usize;
    let s = class_number(class_for(count(part)));
    (count(&part[from..from + n as usize]), n, s.into(), w)
}

/// The greatest common divisor.
pub fn divisor(a: u64, b: u64) -> u64 {
    if b == 0 {
        a
    } else {
        divisor(b, a % b)
    }
}
