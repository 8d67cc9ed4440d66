//! The reading tests, each over all words before the next, and the finder by halving.

use super::coding::code_valid;
use crate::list::{Bound, MOST_ENTRIES};
use crate::words::{Bucket, Head, HEADS, PER_BUCKET, WIDEST_FREE};

pub type Five = [u32; PER_BUCKET];

/// The bits from `low` on, as many as asked for.
#[inline]
fn field(word: u32, low: u32, bits: u32) -> u32 {
    (word >> low) & ((1 << bits) - 1)
}

/// The total code of a bucket.
#[inline]
pub fn total_of(five: &Five) -> u32 {
    field(five[2], 0, 12)
}

/// The start of a bucket.
#[inline]
pub fn start_of(five: &Five) -> u32 {
    field(five[0], 10, 20)
}

#[inline]
fn listed(five: &Five) -> [u32; 7] {
    let three = |word| [field(word, 18, 9), field(word, 9, 9), field(word, 0, 9)];
    let ([a, b, c], [d, e, f]) = (three(five[3]), three(five[4]));
    [field(five[0], 0, 9), a, b, c, d, e, f]
}

/// The bucket of five words that ends at an entry.
#[inline]
pub fn decode(five: &Five, end: u32) -> Bucket {
    let listed = listed(five);
    let start = start_of(five);
    let eighth_free = field(five[0], 9, 1) == 1;
    let free = (end - start) - listed.iter().sum::<u32>();
    let [a, b, c, d, e, f, g] = listed;
    let widths = if eighth_free { [a, b, c, d, e, f, g, free] } else { [free, a, b, c, d, e, f, g] };
    let class = |place: u32| match place {
        0..5 => field(five[1], 24 - 6 * place, 6),
        _ => field(five[2], 54 - 6 * place, 6),
    };
    let classes = [0, 1, 2, 3, 4, 5, 6, 7].map(class);
    Bucket { start, eighth_free, widths, classes, total: total_of(five) }
}

/// The head words if they are good, which is all that refusal 7 asks.
#[inline]
pub fn head(words: &[u32]) -> Option<Head> {
    let &[d, theta, q, buckets, ..] = words else {
        return None;
    };
    let bound = Bound::new(theta, field(q, 10, 10), field(q, 0, 10));
    let good = q >> 20 == 0
        && (1..=MOST_ENTRIES as u32).contains(&d)
        && bound.theta_within_limits()
        && bound.q_within_limits()
        && (1..=d).contains(&buckets);
    good.then_some(Head { d, bound, buckets })
}

#[inline]
fn words_broken(five: &Five) -> bool {
    five[0] >> 30 != 1 || five[1] >> 30 != 2 || five[2] >> 30 != 2 || five[3] >> 27 != 24 || five[4] >> 27 != 24
}

#[inline]
fn starts_broken(fives: &[Five], d: u32) -> bool {
    let mut least = 0;
    for five in fives {
        let start = start_of(five);
        if start < least || start >= d {
            return true;
        }
        least = start + 1;
    }
    start_of(&fives[0]) != 0
}

/// Each bucket's words and the entry before which it ends.
#[inline]
pub fn with_ends(fives: &[Five], d: u32) -> impl Iterator<Item = (&Five, u32)> {
    let later = fives[1..].iter().map(start_of);
    fives.iter().zip(later.chain([d]))
}

#[inline]
fn widths_broken(five: &Five, end: u32) -> bool {
    let (span, listed) = (end - start_of(five), listed(five).iter().sum());
    span < listed || span - listed > WIDEST_FREE
}

#[inline]
fn codes_broken(five: &Five, end: u32) -> bool {
    let bucket = decode(five, end);
    let mut pairs = bucket.classes.iter().zip(&bucket.widths);
    let broken = |(&class, &width): (&u32, &u32)| class == 2 || class == 63 || (width == 0 && class != 0);
    let some_class = || bucket.classes.iter().any(|&class| class != 0);
    pairs.any(broken) || if bucket.total == 0 { some_class() } else { !code_valid(bucket.total) }
}

/// The head and the buckets' words, or the first of the refusals 7, 24 and 8 to 12.
#[inline(never)]
pub fn read(words: &[u32]) -> Result<(Head, &[Five]), u32> {
    let head = head(words).ok_or(7u32)?;
    if head.bound.q_too_large() {
        return Err(24);
    }
    if words.len() != HEADS + PER_BUCKET * head.buckets as usize {
        return Err(8);
    }
    let (fives, _) = words[HEADS..].as_chunks::<PER_BUCKET>();
    if fives.iter().any(words_broken) {
        return Err(9);
    }
    if starts_broken(fives, head.d) {
        return Err(10);
    }
    if with_ends(fives, head.d).any(|(five, end)| widths_broken(five, end)) {
        return Err(11);
    }
    if with_ends(fives, head.d).any(|(five, end)| codes_broken(five, end)) {
        return Err(12);
    }
    Ok((head, fives))
}

/// The bucket of an entry, by halving.
#[inline]
pub fn bucket_of(fives: &[Five], entry: u32) -> usize {
    let (mut low, mut high) = (0, fives.len());
    while low + 1 < high {
        let middle = low + (high - low) / 2;
        if start_of(&fives[middle]) <= entry {
            low = middle;
        } else {
            high = middle;
        }
    }
    low
}

/// Where the five words of an entry's bucket begin; the refusals of reading, then 15.
pub fn find(words: &[u32], entry: u32) -> Result<usize, u32> {
    let (head, fives) = read(words)?;
    if entry >= head.d {
        return Err(15);
    }
    Ok(HEADS + PER_BUCKET * bucket_of(fives, entry))
}
