//! "The exam sheet": the listing program from its input's bytes to its output's.

use crate::build::{histogram, Way};
use crate::coding::{class_number, code_number};
use crate::list::Bound;
use crate::words::{Head, Histogram};

pub const MOST_FREQUENCIES: usize = 4_096;

/// One number of the input: no sign, no leading zero, below 2^32.
fn number(line: &[u8]) -> Option<u32> {
    let digits = !line.is_empty() && line.iter().all(u8::is_ascii_digit);
    let leading_zero = line.len() > 1 && line[0] == b'0';
    if !digits || leading_zero {
        return None;
    }
    std::str::from_utf8(line).ok()?.parse().ok()
}

/// All numbers of the input, if it is as described.
fn numbers(input: &[u8]) -> Option<Vec<u32>> {
    // Each line is ended by a line feed, so nothing stands behind the last one.
    let lines = input.strip_suffix(b"\n")?;
    let lines = lines.split(|&byte| byte == b'\n');
    lines.map(number).collect()
}

/// The lines for a histogram.
fn listing(histogram: &Histogram) -> String {
    let Head { d, bound, buckets } = histogram.head;
    let Bound { theta, qn, qd } = bound;
    let mut text = format!("codes {d} theta {theta} q {qn}/{qd} buckets {buckets}\n");
    for bucket in &histogram.buckets {
        let (start, end, code) = (bucket.start, bucket.end(), bucket.total);
        let number = code_number(code);
        text += &format!("bucket {start} {end} total {code} {number}\n");
        for (start, end, class) in bucket.bucketlets() {
            let number = class_number(class);
            text += &format!("{start} {end} code {class} count {number}\n");
        }
    }
    text
}

/// Refusal 18, then as the builder.
fn listed(input: &[u8], build: impl Fn(&[u32], Bound) -> Result<Histogram, u32>) -> Result<String, u32> {
    let numbers = numbers(input).ok_or(18u32)?;
    let [theta, qn, qd, frequencies @ ..] = &numbers[..] else {
        return Err(18);
    };
    if frequencies.is_empty() || frequencies.len() > MOST_FREQUENCIES {
        return Err(18);
    }
    let bound = Bound::new(*theta, *qn, *qd);
    Ok(listing(&build(frequencies, bound)?))
}

/// All that the program prints.
pub fn printed(way: Way, input: &[u8]) -> String {
    printed_by(input, |frequencies, bound| histogram(way, frequencies, bound))
}

/// The same, with `build` for the histogram of the list.
pub fn printed_by(input: &[u8], build: impl Fn(&[u32], Bound) -> Result<Histogram, u32>) -> String {
    listed(input, build).unwrap_or_else(|refusal| format!("refused {refusal}\n"))
}
