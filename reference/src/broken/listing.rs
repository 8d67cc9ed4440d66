//! Faults of the listing program.

use super::Broken;
use super::Fault::*;
use crate::program::Sheet;
use crate::sheet::printed_by;

impl Broken {
    pub(super) fn listed(&self, input: &[u8], lent: &mut Sheet) -> usize {
        let mut input = input.to_vec();
        if self.fault == LastFeedNotNeeded && input.last().is_some_and(u8::is_ascii_digit) {
            input.push(b'\n');
        }
        let mut text = printed_by(&input, |frequencies, bound| self.histogram(frequencies, bound));
        if self.fault == Class0NotListed {
            let lines = text.split_inclusive('\n');
            text = lines.filter(|line| !line.ends_with(" code 0 count 0\n")).collect();
        }
        lent[..text.len()].copy_from_slice(text.as_bytes());
        if self.fault == SheetEndedByZero {
            lent[text.len()] = 0;
        }
        text.len()
    }
}
