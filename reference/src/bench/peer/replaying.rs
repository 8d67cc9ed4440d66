//! Replaying: over a copy of the list, from which the lines' entries are written when no line has broken a bound.

use crate::journal::MOST_LINES;
use crate::list::{list_sum, COUNT_LIMIT, MOST_ENTRIES};

/// The sum of the list afterwards; refusals 1, 3 and 25 to 27, which leave it as it was.
pub fn replay_journal(frequencies: &mut [u32], entries: &[u32], changes: &[i32]) -> Result<u32, u32> {
    let mut sum = list_sum(frequencies)? as i64;
    let d = frequencies.len();
    if entries.len() != changes.len() || entries.len() > MOST_LINES {
        return Err(25);
    }
    if entries.iter().any(|&entry| entry as usize >= d) {
        return Err(26);
    }
    let mut copy = [0; MOST_ENTRIES];
    copy[..d].copy_from_slice(frequencies);
    for (&entry, &change) in entries.iter().zip(changes) {
        let place = &mut copy[entry as usize];
        let frequency = i64::from(*place) + i64::from(change);
        sum += i64::from(change);
        if frequency < 0 || sum > i64::from(COUNT_LIMIT) {
            return Err(27);
        }
        *place = frequency as u32;
    }
    for &entry in entries {
        frequencies[entry as usize] = copy[entry as usize];
    }
    Ok(sum as u32)
}
