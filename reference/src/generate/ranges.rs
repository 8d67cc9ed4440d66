//! Ranges of a list.

use super::Random;
use crate::words::Histogram;

/// Every range, the empty ones too.
pub fn all_ranges(d: u32) -> impl Iterator<Item = (u32, u32)> {
    (0..=d).flat_map(move |x| (x..=d).map(move |y| (x, y)))
}

/// Some ranges: short ones, long ones, and such as touch an end.
pub fn some_ranges(random: &mut Random, d: u32, number: usize) -> Vec<(u32, u32)> {
    let mut ranges = vec![(0, d), (0, 0), (d, d)];
    while ranges.len() < number {
        let x = random.between(0, d.into());
        let y = match random.below(4) {
            0 => d.into(),
            1 => (x + random.any_size(40)).min(d.into()),
            _ => random.between(x, d.into()),
        };
        let x = if random.chance(1, 8) { 0 } else { x };
        ranges.push((x as u32, y as u32));
    }
    ranges
}

/// The ranges with ends beside those of one that is aimed at, and some others.
pub fn ranges_about(random: &mut Random, d: u32, (x, y): (u32, u32)) -> Vec<(u32, u32)> {
    let near = |at: u32| at.saturating_sub(2)..=(at + 2).min(d);
    let aimed = near(x).flat_map(|x| near(y).map(move |y| (x, y)));
    let mut ranges: Vec<_> = aimed.filter(|(x, y)| x <= y).collect();
    ranges.extend(some_ranges(random, d, 20));
    ranges
}

/// Ranges with ends at edges of buckets and of bucketlets and just beside them, and short ones, which often lie inside
/// a bucketlet or are empty.
pub fn ranges_about_edges(random: &mut Random, histogram: &Histogram, number: usize) -> Vec<(u32, u32)> {
    let d = histogram.head.d;
    let buckets: Vec<u32> = histogram.buckets.iter().map(|bucket| bucket.start).chain([d]).collect();
    let bucketlets = histogram.buckets.iter().flat_map(|bucket| bucket.bucketlets());
    let bucketlets: Vec<u32> = bucketlets.map(|(start, _, _)| start).collect();
    let about_edge = |random: &mut Random| {
        let edges = random.pick(&[&buckets, &bucketlets]);
        let edge = random.pick(edges);
        random.pick(&[edge, edge.saturating_sub(1), (edge + 1).min(d)])
    };
    let range = |_| {
        let x = about_edge(random);
        let y = match random.below(3) {
            0 => (x + random.below(6) as u32).min(d),
            _ => about_edge(random),
        };
        (x.min(y), x.max(y))
    };
    (0..number).map(range).collect()
}

/// Ranges that do not lie within a list of d entries.
pub fn ranges_outside(d: u32) -> [(u32, u32); 6] {
    [(1, 0), (d, d + 1), (d + 1, d + 1), (0, u32::MAX), (u32::MAX, 0), (d + 1, d)]
}
