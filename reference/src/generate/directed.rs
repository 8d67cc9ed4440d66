//! Lists aimed at the accuracy rule's bound, with histograms of their own. Undirected lists never come
//! near it: both cuts must be excused by theta, nearly all of their count (or estimate) must
//! lie in the range, and what lies between them must be at the edge of q.

use super::foreign::{classes_within, codes};
use super::lists::any_q;
use super::Random;
use crate::coding::{class_in_use, class_number, code_for, code_number, LAST_CLASS};
use crate::demand::{k_of, Side};
use crate::list::{count, Bound, COUNT_LIMIT, MOST_THETA};
use crate::words::{Bucket, Histogram, WIDEST_FREE, WIDEST_LISTED};

/// A list, a histogram for it, and the range that is aimed at.
#[derive(Clone, Debug)]
pub struct Directed {
    pub frequencies: Vec<u32>,
    pub histogram: Histogram,
    pub x: u32,
    pub y: u32,
}

/// A cut bucketlet: its frequencies from the middle outwards, its class, and how many of its
/// entries lie in the range.
struct Cut {
    frequencies: Vec<u32>,
    class: u32,
    inside: usize,
}

/// An entry between the cuts, with its class and the code of a bucket of its own.
#[derive(Clone, Copy)]
struct Middle {
    frequency: u32,
    class: u32,
    code: u32,
}

/// A cut whose one entry inside holds nearly all of its count, which is theta, and all if the
/// others are 0. Its estimate is theta/q divided among w entries.
fn spike_inside(bound: Bound, w: u64, filler: u32) -> Option<Cut> {
    let others = w as u32 - 1;
    let spike = bound.theta.checked_sub(filler * others).filter(|&spike| spike > 0)?;
    Some(Cut {
        frequencies: [vec![spike], vec![filler; others as usize]].concat(),
        class: *classes_within(bound.theta.into(), bound).first()?,
        inside: 1,
    })
}

/// The same in a wider bucketlet: n entries from the spike are the first to count more than
/// theta, and the width is the most that q then allows for the class.
fn spike_inside_wider(bound: Bound, n: u64, class: u32) -> Option<Cut> {
    let above = u64::from(bound.theta) + 1;
    let spike = (above + 1).checked_sub(n).filter(|&spike| spike > 0)?;
    let most = u64::from(bound.qn) * n * u64::from(class_number(class));
    let w = most / (u64::from(bound.qd) * above);
    if w < n || w > WIDEST_FREE.into() {
        return None;
    }
    Some(Cut { frequencies: [vec![spike as u32], vec![1; w as usize - 1]].concat(), class, inside: 1 })
}

/// A cut of n ones or zeros inside, estimated at theta or little less; what makes the whole fit,
/// by the least count that q allows, lies outside.
fn spike_outside(bound: Bound, n: u64, class: u32, filler: u32) -> Option<Cut> {
    let least = u64::from(bound.qd) * u64::from(class_number(class));
    let least = least.div_ceil(bound.qn.into());
    let spike = least.checked_sub(n * u64::from(filler)).filter(|&spike| spike > 0)?;
    Some(Cut { frequencies: [vec![filler; n as usize], vec![spike as u32]].concat(), class, inside: n as usize })
}

/// The entry whose class, or total if it has a bucket of its own, stands for the least number
/// not below an aim, and whose count is the most or the least that q allows.
fn middle_near(side: Side, aim: u64, apart: bool, bound: Bound) -> Option<Middle> {
    let reaches = |number: u32| u64::from(number) >= aim;
    let mut classes = (1..=LAST_CLASS).filter(|&class| class_in_use(class));
    let class = classes.find(|&class| reaches(class_number(class)))?;
    let code = *codes().iter().find(|&&code| reaches(code_number(code)))?;
    let number = if apart { code_number(code) } else { class_number(class) };
    let (qn, qd) = (u64::from(bound.qn), u64::from(bound.qd));
    let f = match side {
        Side::Count => qn * u64::from(number) / qd,
        Side::Estimate => (qd * u64::from(number)).div_ceil(qn),
    };
    if f == 0 || f > u64::from(COUNT_LIMIT) {
        return None;
    }
    let own_class = classes_within(f, bound)[0];
    let (class, code) = if apart { (own_class, code) } else { (class, code_for(f)) };
    Some(Middle { frequency: f as u32, class, code })
}

/// A bucket of these widths and classes, at its first places or, if the eighth is free, its last.
pub fn bucket(start: u32, bucketlets: &[(u32, u32)], eighth_free: bool, total: u32) -> Bucket {
    let mut bucket = Bucket::empty(start, eighth_free);
    let first = if eighth_free { 8 - bucketlets.len() } else { 0 };
    for (place, &(width, class)) in (first..).zip(bucketlets) {
        (bucket.widths[place], bucket.classes[place]) = (width, class);
    }
    bucket.total = total;
    bucket
}

/// A bucket for each cut and each entry between them.
fn buckets_apart([left, right]: [&Cut; 2], middles: &[Middle]) -> Vec<Bucket> {
    let alone = |cut: &Cut| (cut.frequencies.len() as u32, cut.class);
    let total = |cut: &Cut| code_for(count(&cut.frequencies));
    let mut buckets = vec![bucket(0, &[alone(left)], true, total(left))];
    let mut at = buckets[0].end();
    for middle in middles {
        buckets.push(bucket(at, &[(1, middle.class)], true, middle.code));
        at += 1;
    }
    buckets.push(bucket(at, &[alone(right)], false, total(right)));
    buckets
}

/// A list of cut, entries and cut, in one bucket or apart.
fn assemble(cuts: [&Cut; 2], middles: &[Middle], bound: Bound, apart: bool) -> Option<Directed> {
    let [left, right] = cuts;
    let mut frequencies: Vec<u32> = left.frequencies.iter().rev().copied().collect();
    let x = (frequencies.len() - left.inside) as u32;
    frequencies.extend(middles.iter().map(|middle| middle.frequency));
    let y = (frequencies.len() + right.inside) as u32;
    frequencies.extend(&right.frequencies);
    let [w, v] = cuts.map(|cut| cut.frequencies.len() as u32);
    // The free place is used for the wider of two cuts, or for each if each has a bucket.
    let narrower = if apart { WIDEST_FREE } else { WIDEST_LISTED };
    let whole = count(&frequencies);
    if whole > u64::from(COUNT_LIMIT) || w.max(v) > WIDEST_FREE || w.min(v) > narrower {
        return None;
    }
    let buckets = if apart {
        buckets_apart(cuts, middles)
    } else {
        let mut bucketlets = vec![(w, left.class)];
        bucketlets.extend(middles.iter().map(|middle| (1, middle.class)));
        bucketlets.push((v, right.class));
        vec![bucket(0, &bucketlets, v > w, code_for(whole))]
    };
    Some(Directed { frequencies, histogram: Histogram::new(bound, buckets), x, y })
}

/// One list aimed at a k of r ranges, which are the same range r times, by chance near the bound or nearer.
pub fn directed(random: &mut Random, side: Side, ranges: u64, k: u32) -> Directed {
    let k = k_of(ranges, k);
    loop {
        let q = if random.chance(1, 3) { (5, 4) } else { any_q(random) };
        let apart = random.chance(1, 2);
        let aimed = match side {
            Side::Count => aimed_at_count(random, ranges, k, q, apart),
            Side::Estimate => aimed_at_estimate(random, ranges, k, q, apart),
        };
        // Not every choice of numbers gives a list within the limits.
        if let Some(directed) = aimed {
            return directed;
        }
    }
}

/// The entry in the middle decides theta: the count of the ranges must come above k theta.
fn aimed_at_count(random: &mut Random, ranges: u64, k: u64, q: (u32, u32), apart: bool) -> Option<Directed> {
    let top = (u64::from(COUNT_LIMIT) / k).min(k * u64::from(MOST_THETA)) / 2;
    let aim = random.any_size(top);
    let middle = middle_near(Side::Count, aim, apart, Bound::new(1, q.0, q.1))?;
    let widest = if apart { 1_500 } else { 500 };
    let (w, other) = (random.any_size(widest), random.any_size(widest));
    let v = random.pick(&[w, other]);
    let wider = random.chance(1, 2);
    let filler = if wider { 1 } else { random.below(2) };
    let beside_cuts = (ranges * u64::from(middle.frequency)).checked_sub(ranges * filler * (w + v - 2) + 1)?;
    let theta = beside_cuts / (k - 2 * ranges);
    let bound = Bound::new(theta.try_into().ok()?, q.0, q.1);
    if !bound.theta_within_limits() {
        return None;
    }
    let class = random.pick(&classes_within(theta, bound));
    let cut = |w: u64| match wider {
        true => spike_inside_wider(bound, w + 1, class),
        false => spike_inside(bound, w, filler as u32),
    };
    assemble([&cut(w)?, &cut(v)?], &[middle], bound, apart)
}

/// The cuts' class decides theta, and theta the entry in the middle.
fn aimed_at_estimate(random: &mut Random, ranges: u64, k: u64, q: (u32, u32), apart: bool) -> Option<Directed> {
    let class = random.between(8, 50) as u32;
    let s = u64::from(class_number(class));
    let n = u64::from(q.1.div_ceil(q.0 - q.1)) + random.below(3);
    let theta = (n * s).div_ceil(n + 1);
    let bound = Bound::new(theta as u32, q.0, q.1);
    if !bound.theta_within_limits() {
        return None;
    }
    let cut = spike_outside(bound, n, class, random.below(2) as u32)?;
    let aim = (k * theta).div_ceil(ranges) - 2 * (n * s) / (n + 1);
    let middle = middle_near(Side::Estimate, aim, apart, bound)?;
    assemble([&cut, &cut], &[middle], bound, apart)
}

/// Theta and q; the larger side; the cuts' ones and class; frequencies and numbers between them.
type Known = (Bound, Side, u64, u32, &'static [(u32, u64)]);

/// The nearest ones found by a search for k 3: a short list and long ones for each side.
const KNOWN: [Known; 6] = {
    use Side::{Count, Estimate};
    [
        (Bound::new(98, 5, 4), Count, 10, 14, &[(115, 92)]),
        (Bound::new(1_026_218, 5, 4), Count, 1_013, 41, &[(1_028_241, 822_593)]),
        (Bound::new(1_041_779, 2, 1), Count, 1_000, 41, &[(1_043_776, 521_888)]),
        (Bound::new(404, 5, 4), Estimate, 4, 19, &[(324, 405)]),
        (Bound::new(662_636, 5, 4), Estimate, 4, 41, &[(3_108, 3_885), (527_003, 658_753)]),
        (Bound::new(811_730, 2, 1), Estimate, 1, 43, &[(2_765, 5_530), (403_105, 806_209)]),
    ]
};

pub fn known() -> Vec<Directed> {
    let assembled = |(bound, side, n, class, middles): Known| {
        let cut = match side {
            Side::Count => spike_inside_wider(bound, n, class)?,
            Side::Estimate => spike_outside(bound, n, class, 1)?,
        };
        let middle = |&(frequency, number): &(u32, u64)| Middle {
            frequency,
            class: classes_within(frequency.into(), bound)[0],
            code: code_for(number),
        };
        let middles: Vec<Middle> = middles.iter().map(middle).collect();
        assemble([&cut, &cut], &middles, bound, true)
    };
    KNOWN.into_iter().filter_map(assembled).collect()
}

/// A list, a histogram for it, and the ranges of the search that is aimed at.
#[derive(Clone, Debug)]
pub struct DirectedSearch {
    pub frequencies: Vec<u32>,
    pub histogram: Histogram,
    pub ranges: Vec<(u32, u32)>,
}

/// A directed list so many times over, with its range in each.
pub fn repeated(directed: &Directed, times: u32) -> DirectedSearch {
    let Directed { frequencies, histogram, x, y } = directed;
    let starts = || (0..times).map(|turn| turn * histogram.head.d);
    let moved = |by: u32| histogram.buckets.iter().map(move |bucket| Bucket { start: by + bucket.start, ..*bucket });
    DirectedSearch {
        frequencies: frequencies.repeat(times as usize),
        histogram: Histogram::new(histogram.head.bound, starts().flat_map(moved).collect()),
        ranges: starts().map(|start| (start + x, start + y)).collect(),
    }
}

/// Eight 1s, 90, 116, 90 and eight 1s so many times over, two of them in a bucket, and the three in the middle of each.
/// Each of those counts 296 and is estimated at 114.
pub fn spikes(times: u32) -> DirectedSearch {
    let once = [&[1; 8][..], &[90, 116, 90], &[1; 8]].concat();
    let d = once.len() as u32;
    let two = |first: u32| {
        let number = 2.min(times - first) as usize;
        let total = number as u64 * count(&once);
        bucket(first * d, &[(9, 14), (1, 14), (9, 14)].repeat(number), true, code_for(total))
    };
    let buckets = (0..times).step_by(2).map(two).collect();
    DirectedSearch {
        histogram: Histogram::new(Bound::new(98, 5, 4), buckets),
        ranges: (0..times).map(|turn| (turn * d + 8, turn * d + 11)).collect(),
        frequencies: once.repeat(times as usize),
    }
}

/// A small change of a list or of its theta, often at an end of a range.
pub fn jostle(random: &mut Random, frequencies: &mut [u32], theta: &mut u32, (x, y): (u32, u32)) {
    let place = random.place(frequencies);
    let place = random.pick(&[place, x as usize, y as usize - 1]);
    let frequency = &mut frequencies[place];
    match random.below(4) {
        0 => *frequency = frequency.saturating_sub(1),
        1 => *frequency += 1,
        2 => *theta = (*theta - 1).max(1),
        _ => *theta = (*theta + 1).min(MOST_THETA),
    }
}

/// A small change, with which the pair may or may not be accepted still.
pub fn jostled(random: &mut Random, directed: &Directed) -> Directed {
    let mut changed = directed.clone();
    let range = (changed.x, changed.y);
    jostle(random, &mut changed.frequencies, &mut changed.histogram.head.bound.theta, range);
    changed
}
