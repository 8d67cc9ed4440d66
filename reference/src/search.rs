//! Request (ii) of document 02: one search for all forms of an irregular verb, which stand at several places.

use crate::estimate::answered;
use crate::words::read;
use crate::worksheet::{all_lie_within, pairs};

pub const MOST_RANGES: usize = 16;

/// Whether some range starts before the one ahead of it ends, though one of the two may be empty.
fn out_of_order(ranges: &[u32]) -> bool {
    let mut neighbours = pairs(ranges).zip(pairs(ranges).skip(1));
    neighbours.any(|((_, end), (start, _))| start < end)
}

/// The sum of the estimates of a search's ranges, two words each; the refusals of reading, then 14, 22 and 23. Each is
/// tested on all ranges before the next, so that 14 names a range past the sixteenth too, but never a word left over.
pub fn estimate_search(words: &[u32], ranges: &[u32]) -> Result<u64, u32> {
    let histogram = read(words)?;
    if !all_lie_within(&histogram, ranges) {
        return Err(14);
    }
    if ranges.len() % 2 == 1 || !(1..=MOST_RANGES).contains(&(ranges.len() / 2)) {
        return Err(22);
    }
    if out_of_order(ranges) {
        return Err(23);
    }
    Ok(pairs(ranges).map(|(x, y)| answered(&histogram, x, y)).sum())
}
