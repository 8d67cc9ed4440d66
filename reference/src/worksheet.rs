//! Request (i) of document 02: running totals beside a histogram, and a whole worksheet of ranges at a time.

use crate::build::lend;
use crate::coding::code_number;
use crate::estimate::{answered, lies_within};
use crate::list::running_sums;
use crate::words::{read, Histogram};

/// Place i has the sum of what the totals stand for in the buckets before i; one last place has that of all.
pub fn running_totals(histogram: &Histogram) -> Vec<u64> {
    running_sums(histogram.buckets.iter().map(|bucket| code_number(bucket.total).into()))
}

/// Fills a lent list with the running totals and answers their number; the refusals of reading, then 19.
pub fn fill_totals(words: &[u32], lent: &mut [u64]) -> Result<usize, u32> {
    let totals = running_totals(&read(words)?);
    lend(&totals, lent).ok_or(19)
}

/// The ranges of a worksheet or a search, two words each; a word left over is in none.
pub fn pairs(ranges: &[u32]) -> impl Iterator<Item = (u32, u32)> + '_ {
    ranges.chunks_exact(2).map(|range| (range[0], range[1]))
}

/// Whether each of them lies within the list.
pub fn all_lie_within(histogram: &Histogram, ranges: &[u32]) -> bool {
    pairs(ranges).all(|(x, y)| lies_within(histogram, x, y))
}

/// Answers a worksheet into a lent list and says how many answers there are; the refusals of reading, then 19 to 21.
/// The running totals are compared and not used: each range is estimated as if it were asked alone.
pub fn answer_worksheet(words: &[u32], totals: &[u64], worksheet: &[u32], lent: &mut [u64]) -> Result<usize, u32> {
    let histogram = read(words)?;
    let expected = running_totals(&histogram);
    if totals.len() < expected.len() || lent.len() < worksheet.len() / 2 {
        return Err(19);
    }
    if !totals.starts_with(&expected) {
        return Err(20);
    }
    if worksheet.len() % 2 == 1 || !all_lie_within(&histogram, worksheet) {
        return Err(21);
    }
    for (place, (x, y)) in lent.iter_mut().zip(pairs(worksheet)) {
        *place = answered(&histogram, x, y);
    }
    Ok(worksheet.len() / 2)
}
