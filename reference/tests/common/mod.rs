//! The example that the tests of request (i) and of request (ii) begin with.

use reference::build::{histogram, Way};
use reference::list::Bound;
use reference::words::write;

/// Theta 1, q 3/2: that of most examples.
pub const EXAMPLE: Bound = Bound::new(1, 3, 2);

pub const FOUR_TENS: [u32; 9] = [4, 1, 0xC02, 1, 0x40000204, 0x8B000000, 0x80000500, 0xC0000000, 0xC0000000];

/// Place, word and number of a fault, one for each number that words are refused with, in the order of the tests.
pub const WORD_FAULTS: [(usize, u32, u32); 7] = [
    (0, 0, 7),
    (2, 9 << 10 | 1, 24),
    (3, 2, 8),
    (5, 0x4B000000, 9),
    (4, 0x40000604, 10),
    (8, 0xC0000001, 11),
    (5, 0xBF000000, 12),
];

pub fn words(frequencies: &[u32]) -> Vec<u32> {
    write(&histogram(Way::Rule, frequencies, EXAMPLE).expect("a good list"))
}
