//! The estimator: the buckets that a range meets, summed in 64 bits and rounded up once, and at least 1; searches,
//! which add up such estimates; and worksheets, where the running totals stand for the buckets between the ends of a
//! range.

use super::coding::{class_number, code_number};
use super::reading::{bucket_of, decode, read, start_of, total_of, Five};
use crate::words::Bucket;

/// Whole parts beside top / bottom: a range cuts at most two bucketlets, so 64 bits hold each.
struct Sum {
    whole: u64,
    top: u64,
    bottom: u64,
}

impl Sum {
    /// The estimate of a range that is not empty.
    #[inline]
    fn rounded(self) -> u64 {
        (self.whole + self.top.div_ceil(self.bottom)).max(1)
    }
}

/// Adds what the bucketlets of a bucket give that the range cuts.
#[inline]
fn add_bucketlets(sum: &mut Sum, bucket: &Bucket, x: u32, y: u32) {
    let mut start = bucket.start;
    for (&width, &class) in bucket.widths.iter().zip(&bucket.classes) {
        let end = start + width;
        let (from, to) = (x.max(start), y.min(end));
        let s = u64::from(class_number(class));
        if x <= start && end <= y {
            sum.whole += s;
        } else if from < to {
            sum.top = sum.top * u64::from(width) + u64::from(to - from) * s * sum.bottom;
            sum.bottom *= u64::from(width);
        }
        start = end;
    }
}

/// The number that the total of a bucket stands for.
#[inline]
fn total(five: &Five) -> u64 {
    code_number(total_of(five)).into()
}

/// Adds what a bucket that ends at an entry gives.
#[inline]
fn add_bucket(sum: &mut Sum, five: &Five, end: u32, x: u32, y: u32) {
    if x <= start_of(five) && end <= y {
        sum.whole += total(five);
    } else {
        add_bucketlets(sum, &decode(five, end), x, y);
    }
}

/// Where a bucket ends.
#[inline]
fn end_of(d: u32, fives: &[Five], bucket: usize) -> u32 {
    fives.get(bucket + 1).map_or(d, start_of)
}

/// The estimate of a range within the list.
#[inline]
fn estimate_within(d: u32, fives: &[Five], x: u32, y: u32) -> u64 {
    if x == y {
        return 0;
    }
    let mut sum = Sum { whole: 0, top: 0, bottom: 1 };
    for bucket in bucket_of(fives, x)..=bucket_of(fives, y - 1) {
        add_bucket(&mut sum, &fives[bucket], end_of(d, fives, bucket), x, y);
    }
    sum.rounded()
}

/// The refusals of reading, then 14.
pub fn estimate(words: &[u32], x: u32, y: u32) -> Result<u64, u32> {
    let (head, fives) = read(words)?;
    if x > y || y > head.d {
        return Err(14);
    }
    Ok(estimate_within(head.d, fives, x, y))
}

/// The refusals of reading, then 14, 22 and 23.
pub fn estimate_search(words: &[u32], ranges: &[u32]) -> Result<u64, u32> {
    let (head, fives) = read(words)?;
    let (ranges, rest) = ranges.as_chunks::<2>();
    if ranges.iter().any(|&[x, y]| x > y || y > head.d) {
        return Err(14);
    }
    if ranges.is_empty() || ranges.len() > 16 || !rest.is_empty() {
        return Err(22);
    }
    if ranges.windows(2).any(|pair| pair[1][0] < pair[0][1]) {
        return Err(23);
    }
    Ok(ranges.iter().map(|&[x, y]| estimate_within(head.d, fives, x, y)).sum())
}

/// The refusals of reading, then 19.
pub fn fill_totals(words: &[u32], lent: &mut [u64]) -> Result<usize, u32> {
    let (_, fives) = read(words)?;
    let Some(lent) = lent.get_mut(..=fives.len()) else {
        return Err(19);
    };
    let mut sum = 0;
    for (place, five) in lent.iter_mut().zip(fives) {
        *place = sum;
        sum += total(five);
    }
    lent[fives.len()] = sum;
    Ok(lent.len())
}

/// Whether each place holds its running total.
fn totals_right(fives: &[Five], totals: &[u64]) -> bool {
    let mut sum = 0;
    for (&place, five) in totals.iter().zip(fives) {
        if place != sum {
            return false;
        }
        sum += total(five);
    }
    totals[fives.len()] == sum
}

/// The estimate of a range within the list.
#[inline]
fn estimate_by(d: u32, fives: &[Five], totals: &[u64], x: u32, y: u32) -> u64 {
    if x == y {
        return 0;
    }
    let (first, last) = (bucket_of(fives, x), bucket_of(fives, y - 1));
    let mut sum = Sum { whole: 0, top: 0, bottom: 1 };
    add_bucket(&mut sum, &fives[first], end_of(d, fives, first), x, y);
    if first < last {
        sum.whole += totals[last] - totals[first + 1];
        add_bucket(&mut sum, &fives[last], end_of(d, fives, last), x, y);
    }
    sum.rounded()
}

/// The refusals of reading, then 19, 20 and 21.
pub fn answer_worksheet(words: &[u32], totals: &[u64], worksheet: &[u32], lent: &mut [u64]) -> Result<usize, u32> {
    let (head, fives) = read(words)?;
    let (ranges, rest) = worksheet.as_chunks::<2>();
    if totals.len() <= fives.len() || lent.len() < ranges.len() {
        return Err(19);
    }
    if !totals_right(fives, totals) {
        return Err(20);
    }
    if !rest.is_empty() || ranges.iter().any(|&[x, y]| x > y || y > head.d) {
        return Err(21);
    }
    for (answer, &[x, y]) in lent.iter_mut().zip(ranges) {
        *answer = estimate_by(head.d, fives, totals, x, y);
    }
    Ok(ranges.len())
}
