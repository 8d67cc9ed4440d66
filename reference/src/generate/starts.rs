//! Lists aimed at a builder that keeps one start for each bound: bounds that move often or from a start that was light
//! before, ranges with counts of just theta or a q-th of it, ranges that are equally steep, and runs of zeros.

use super::lists::{any_q, bound};
use super::passes::{shaped, some_shape};
use super::Random;
use crate::coding::{class_for, class_number};
use crate::list::{count, running_sums, Bound, COUNT_LIMIT, MOST_Q, MOST_Q_PART, MOST_THETA};

/// Short enough for every range at every width.
pub const SHORT: [usize; 4] = [5, 12, 24, 48];

/// Past the lower limit of a width, past it twice, and past the upper one.
pub const LONG: [usize; 3] = [700, 1_300, 5_000];

/// A list of a length, with a theta and a q.
pub type Aim = fn(&mut Random, usize) -> (Vec<u32>, Bound);

pub const AIMS: [Aim; 10] = [blocks, rising, falling, waves, repeated, plateaus, gaps, uneven, steps, slow];

/// Theta is often a multiple of q's numerator, so that a q-th of it is whole. Ten times theta may stand at every place.
fn some_bound(random: &mut Random, length: usize) -> Bound {
    let (qn, qd) = any_q(random);
    let (qn, qd) = random.pick(&[(qn, qd), (5, 4), (3, 2), (2, 1), (8, 1)]);
    let most = random.pick(&[10, 60, 1_000, 30_000]);
    let theta = random.any_size(most) as u32;
    let most = MOST_THETA.min(COUNT_LIMIT / (20 * length as u32));
    Bound::new(random.pick(&[theta, theta * qn, theta]).clamp(1, most), qn, qd)
}

fn qth(bound: Bound) -> u64 {
    u64::from(bound.qd) * u64::from(bound.theta) / u64::from(bound.qn)
}

/// Blocks of just theta, a q-th of it and next to them, in any shape, with zeros between.
fn blocks(random: &mut Random, length: usize) -> (Vec<u32>, Bound) {
    let bound = some_bound(random, length);
    let (theta, qth) = (u64::from(bound.theta), qth(bound));
    let entries = random.any_size(12);
    let mut list = Vec::new();
    while list.len() < length {
        let sum = random.pick(&[theta, theta + 1, qth, qth + 1, theta + qth + 1, 2 * theta + 1]);
        let (shape, entries) = (some_shape(random), random.pick(&[1, 2, entries, entries]));
        list.extend(shaped(shape, sum, entries));
        if random.chance(1, 4) {
            list.extend(vec![0; random.any_size(6) as usize]);
        }
    }
    list.truncate(length);
    (list, bound)
}

/// A level that goes from low to high with the place, in thousandths, as a curve says.
fn curved(random: &mut Random, length: usize, height: impl Fn(u64) -> u64) -> (Vec<u32>, Bound) {
    let bound = some_bound(random, length);
    let low = random.any_size(2 * u64::from(bound.theta));
    let times = random.pick(&[1, 2, 2, 4]);
    let unrest = random.pick(&[0, 0, 1, low / 8]);
    let level = |place: u64| low * (1_000 + times * height(1_000 * place / length as u64)) / 1_000;
    let list = (0..length as u64).map(|place| (level(place) + random.below(1 + unrest)) as u32).collect();
    (list, bound)
}

/// Each end makes the greatest count over length greater.
fn rising(random: &mut Random, length: usize) -> (Vec<u32>, Bound) {
    let bend = random.pick(&[0, 1, 2]);
    curved(random, length, |place| match bend {
        0 => place,
        1 => place * place / 1_000,
        _ => 1_000 - (1_000 - place) * (1_000 - place) / 1_000,
    })
}

/// Each end makes the greatest length over count greater.
fn falling(random: &mut Random, length: usize) -> (Vec<u32>, Bound) {
    let (list, bound) = rising(random, length);
    (list.into_iter().rev().collect(), bound)
}

/// Both by turns.
fn waves(random: &mut Random, length: usize) -> (Vec<u32>, Bound) {
    let (wave, from) = (random.pick(&[150, 300, 500, 1_000]), random.below(1_000));
    curved(random, length, |place| 2 * ((place + from) % wave).abs_diff(wave / 2) * 1_000 / wave)
}

/// A few entries over and over, of which whole turns are equally steep, and one entry that is one more or less.
fn repeated(random: &mut Random, length: usize) -> (Vec<u32>, Bound) {
    let top = random.pick(&[2, 5, 30, 1_000]);
    let turn: Vec<u32> = (0..random.between(1, 6)).map(|_| random.below(top + 1) as u32).collect();
    let mut list: Vec<u32> = turn.iter().copied().cycle().take(length).collect();
    let place = random.place(&list);
    list[place] = random.pick(&[list[place] + 1, list[place].saturating_sub(1), list[place]]);
    let (some, own) = (some_bound(random, length), bound(random, &list));
    let whole = Bound::new((count(&turn) + random.below(2)).max(1) as u32, own.qn, own.qd);
    (list, random.pick(&[some, own, whole]))
}

/// Stretches of levels that come again, some of them 0.
fn plateaus(random: &mut Random, length: usize) -> (Vec<u32>, Bound) {
    let low = random.any_size(200);
    let levels = [low, low * 3 / 2, 2 * low, low + 1, 0];
    let mut list = Vec::new();
    while list.len() < length {
        let entries = random.any_size(length as u64 / 2) as usize;
        list.extend(vec![random.pick(&levels) as u32; entries]);
    }
    list.truncate(length);
    let (some, own) = (some_bound(random, length), bound(random, &list));
    (list, random.pick(&[some, own, own]))
}

/// A run of zeros first, between or last in an even list, with a theta that just excuses it at some width, or not.
fn gaps(random: &mut Random, length: usize) -> (Vec<u32>, Bound) {
    let level = random.any_size(300) as u32;
    let mut list: Vec<u32> = (0..length).map(|_| level + random.below(2) as u32).collect();
    for _ in 0..random.between(1, 2) {
        let zeros = random.any_size(length as u64 / 3) as usize;
        let inside = random.between(0, (length - zeros) as u64) as usize;
        let at = random.pick(&[0, inside, length - zeros]);
        list[at..at + zeros].fill(0);
    }
    let zeros = list.chunk_by(|a, b| (*a == 0) == (*b == 0)).filter(|run| run[0] == 0).map(<[u32]>::len).max();
    let w = random.between(length as u64 / 3, length as u64).max(1);
    let s = u64::from(class_number(class_for(count(&list[..w as usize]))));
    let excused = zeros.unwrap_or(1) as u64 * s / w;
    let theta = (excused + random.below(3)).saturating_sub(1).clamp(1, MOST_THETA.into());
    let (qn, qd) = any_q(random);
    let (qn, qd) = random.pick(&[(qn, qd), (2, 1), (4, 1), (8, 1)]);
    (list, Bound::new(theta as u32, qn, qd))
}

/// Entries of any size, a few of which come to theta.
fn uneven(random: &mut Random, length: usize) -> (Vec<u32>, Bound) {
    let most = u64::from(COUNT_LIMIT) / (2 * length as u64);
    let top = random.pick(&[3, 10, 100, 2_000, 1_000_000]).min(most);
    let low = random.below(top);
    let list = (0..length).map(|_| random.between(low, top) as u32).collect();
    let Bound { qn, qd, .. } = some_bound(random, length);
    (list, Bound::new(random.between(top, 4 * top).min(MOST_THETA.into()) as u32, qn, qd))
}

/// Of the first four entries the last three are the steepest range to the fourth. At the third the line moved, and from
/// then on their start lies lowest, which before it did not. The entries that follow take the average down.
fn steps(random: &mut Random, length: usize) -> (Vec<u32>, Bound) {
    let low = random.below(30);
    let third = low + random.between(1, 10);
    let fourth = third + random.between(1, 20);
    let second = fourth + random.below(fourth - third);
    let theta = low + second + random.below(third - low);
    let mut list = [low, second, third, fourth].map(|frequency| frequency as u32).to_vec();
    list.extend((4..length).map(|_| random.between(low, third) as u32));
    let Bound { qn, qd, .. } = some_bound(random, length);
    (list, Bound::new(theta as u32, qn, qd))
}

/// Both bounds move at many ends and by so little that only a width's limit stops the bucketlet.
pub fn slow(random: &mut Random, length: usize) -> (Vec<u32>, Bound) {
    let low = random.between(100, 10_000);
    let level = |place: u64| low + low * place / (8 * length as u64);
    let list = (0..length as u64).map(|place| (level(place) + random.below(1 + low / 50)) as u32).collect();
    let theta = random.any_size(20 * low) as u32;
    (list, Bound::new(theta, 2, 1))
}

/// The widest bucketlet that a q is fitted to.
const WIDEST_FITTED: u64 = 60;

/// The q that the steepest heavy range of either bound needs at some width, a hair less or more, if it may be one.
pub fn fitted(random: &mut Random, list: &[u32], bound: Bound) -> Option<Bound> {
    let w = random.between(1, WIDEST_FITTED.min(list.len() as u64));
    let before = running_sums(list[..w as usize].iter().map(|&frequency| frequency.into()));
    let s = u64::from(class_number(class_for(before[w as usize])));
    let thin = random.chance(1, 2);
    let threshold = if thin { qth(bound) } else { bound.theta.into() };
    let mut steepest = (0, 1);
    for (start, end) in (0..before.len()).flat_map(|end| (0..end).map(move |start| (start, end))) {
        let (count, length) = (before[end] - before[start], (end - start) as u64);
        let (top, bottom) = if thin { (length, count) } else { (count, length) };
        if count > threshold && top * steepest.1 > steepest.0 * bottom {
            steepest = (top, bottom);
        }
    }
    let (top, bottom) = if thin { (steepest.0 * s, steepest.1 * w) } else { (steepest.0 * w, steepest.1 * s) };
    let qd = random.between(50, u64::from(MOST_Q_PART / MOST_Q));
    let qn = (top * qd).checked_div(bottom)? + random.below(2);
    (4 * qn >= 5 * qd && qn <= u64::from(MOST_Q) * qd).then_some(Bound::new(bound.theta, qn as u32, qd as u32))
}

/// The most entries ahead of a list: its bucketlet may then stand at any place, and in the second bucket.
pub const MOST_AHEAD: usize = 9;

/// A list after so many entries, or fewer, each of which stays a bucketlet by itself.
pub fn after(ahead: usize, list: &[u32], bound: Bound) -> Vec<u32> {
    let largest = list.iter().copied().max().unwrap_or(0);
    // Beside a 0 or any entry of the list it is estimated at more than theta, and too far off.
    let alone = 4 * u64::from(bound.theta) + 20 * u64::from(largest) + 8;
    let room = (u64::from(COUNT_LIMIT) - count(list)) / alone;
    let ahead = ahead.min(room as usize);
    let mut frequencies: Vec<u32> = [alone as u32, 0].into_iter().cycle().take(ahead).collect();
    frequencies.reverse();
    frequencies.extend(list);
    frequencies
}
