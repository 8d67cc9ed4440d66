//! Inputs of the listing program, good and damaged.

use super::lists::{bound, some_list, KINDS};
use super::Random;
use crate::list::Bound;

/// The input for a list, theta and q.
pub fn input(frequencies: &[u32], bound: Bound) -> Vec<u8> {
    let head = [bound.theta, bound.qn, bound.qd];
    let numbers = head.iter().chain(frequencies);
    numbers.flat_map(|number| format!("{number}\n").into_bytes()).collect()
}

/// The input for some list of up to `longest` entries.
pub fn some_input(random: &mut Random, longest: u64) -> Vec<u8> {
    let longest = random.any_size(longest);
    let kind = random.pick(&KINDS);
    let frequencies = some_list(random, kind, longest);
    let bound = bound(random, &frequencies);
    input(&frequencies, bound)
}

/// An input with one to three faults, most of which leave it almost as it was.
pub fn damaged(random: &mut Random, input: &[u8]) -> Vec<u8> {
    let mut input = input.to_vec();
    for _ in 0..random.between(1, 3) {
        fault(random, &mut input);
    }
    input
}

const STRANGE: &[u8] = b"\n\n\r +-.,0123456789\t\0a\xEF\xFF_x";
const NUMBERS: [&str; 16] = [
    "0",
    "00",
    "01",
    "+1",
    "8",
    "9",
    "-0",
    "4294967295",
    "4294967296",
    "18446744073709551617",
    "1073741823",
    "1073741824",
    "1000",
    "1001",
    "99999999999",
    "",
];

fn fault(random: &mut Random, input: &mut Vec<u8>) {
    if input.is_empty() {
        input.push(random.pick(STRANGE));
        return;
    }
    let place = random.place(input);
    match random.below(7) {
        0 => input[place] ^= 1 << random.below(8),
        1 => input[place] = random.pick(STRANGE),
        2 => input.insert(place, random.pick(STRANGE)),
        3 => {
            input.remove(place);
        }
        4 => input.truncate(place),
        5 => input.push(random.pick(STRANGE)),
        _ => {
            // One line becomes another number, most often one of the first four.
            let mut lines: Vec<&[u8]> = input.split(|&byte| byte == b'\n').collect();
            let first = lines.len().min(4) as u64;
            let all = lines.len() as u64;
            let line = random.pick(&[first, all]);
            let line = random.below(line) as usize;
            lines[line] = random.pick(&NUMBERS).as_bytes();
            *input = lines.join(&b'\n');
        }
    }
}
