//! "Words": the layout, reading with refusals 7 to 12 and 24, writing, and the finder.

use crate::coding::{class_in_use, code_valid};
use crate::list::{Bound, MOST_ENTRIES};
use std::ops::Range;

pub const HEADS: usize = 4;
pub const PER_BUCKET: usize = 5;
pub const WIDEST_LISTED: u32 = 511;
pub const WIDEST_FREE: u32 = 4_095;

#[derive(Clone, Copy, Debug, PartialEq, Eq)]
pub struct Head {
    pub d: u32,
    pub bound: Bound,
    pub buckets: u32,
}

/// A decoded bucket. The total is kept as its code, which the words hold.
#[derive(Clone, Copy, Debug, PartialEq, Eq)]
pub struct Bucket {
    pub start: u32,
    pub eighth_free: bool,
    pub widths: [u32; 8],
    pub classes: [u32; 8],
    pub total: u32,
}

impl Bucket {
    pub fn empty(start: u32, eighth_free: bool) -> Bucket {
        Bucket { start, eighth_free, widths: [0; 8], classes: [0; 8], total: 0 }
    }

    pub fn end(&self) -> u32 {
        self.start + self.widths.iter().sum::<u32>()
    }

    /// The place of the bucketlet whose width is not listed.
    pub fn free(&self) -> usize {
        7 * usize::from(self.eighth_free)
    }

    /// Start, end and class of each bucketlet that is not empty.
    pub fn bucketlets(&self) -> impl Iterator<Item = (u32, u32, u32)> + '_ {
        let mut end = self.start;
        (0..8).filter_map(move |place| {
            let start = end;
            end += self.widths[place];
            (start < end).then(|| (start, end, self.classes[place]))
        })
    }
}

#[derive(Clone, Debug, PartialEq, Eq)]
pub struct Histogram {
    pub head: Head,
    pub buckets: Vec<Bucket>,
}

impl Histogram {
    /// Of buckets that follow one another to the end of the list.
    pub fn new(bound: Bound, buckets: Vec<Bucket>) -> Histogram {
        let head = Head { d: buckets.last().map_or(0, Bucket::end), bound, buckets: buckets.len() as u32 };
        Histogram { head, buckets }
    }
}

/// Bits high..low of a word.
fn field(word: u32, high: u32, low: u32) -> u32 {
    (word >> low) & ((1 << (high - low + 1)) - 1)
}

fn kind(word: u32) -> u32 {
    word >> 30
}

/// The kinds of a bucket's five words, in their order.
pub const KINDS: [u32; PER_BUCKET] = [1, 2, 2, 3, 3];

/// Refusal 7: the head words.
fn head(words: &[u32]) -> Result<Head, u32> {
    let &[d, theta, q, buckets, ..] = words else {
        return Err(7);
    };
    let bound = Bound::new(theta, field(q, 19, 10), field(q, 9, 0));
    // The limits of d, theta and buckets leave no room for a wrong kind.
    let layout = q >> 20 == 0;
    let limits = (1..=MOST_ENTRIES as u32).contains(&d)
        && bound.theta_within_limits()
        && bound.q_within_limits()
        && (1..=d).contains(&buckets);
    let head = Head { d, bound, buckets };
    (layout && limits).then_some(head).ok_or(7)
}

/// The seven listed widths of a bucket's words.
fn listed(words: &[u32]) -> [u32; 7] {
    [
        field(words[0], 8, 0),
        field(words[3], 26, 18),
        field(words[3], 17, 9),
        field(words[3], 8, 0),
        field(words[4], 26, 18),
        field(words[4], 17, 9),
        field(words[4], 8, 0),
    ]
}

fn classes(words: &[u32]) -> [u32; 8] {
    [
        field(words[1], 29, 24),
        field(words[1], 23, 18),
        field(words[1], 17, 12),
        field(words[1], 11, 6),
        field(words[1], 5, 0),
        field(words[2], 29, 24),
        field(words[2], 23, 18),
        field(words[2], 17, 12),
    ]
}

/// The eight widths of a bucket's words, refusal 11 being none.
fn widths(words: &[u32], span: u32) -> Option<[u32; 8]> {
    let listed = listed(words);
    let free = span.checked_sub(listed.iter().sum())?;
    if free > WIDEST_FREE {
        return None;
    }
    let eighth_free = field(words[0], 9, 9) == 1;
    let mut widths = [free; 8];
    let from = if eighth_free { 0 } else { 1 };
    widths[from..from + 7].copy_from_slice(&listed);
    Some(widths)
}

/// Reads a histogram; refusals 7, 24 and 8 to 12. Each is tested on all words before the next.
pub fn read(words: &[u32]) -> Result<Histogram, u32> {
    let head = head(words)?;
    if head.bound.q_too_large() {
        return Err(24);
    }
    if words.len() != HEADS + PER_BUCKET * head.buckets as usize {
        return Err(8);
    }
    let groups: Vec<&[u32]> = words[HEADS..].chunks_exact(PER_BUCKET).collect();
    if !groups.iter().all(|group| laid_out(group)) {
        return Err(9);
    }
    let starts: Vec<u32> = groups.iter().map(|group| field(group[0], 29, 10)).collect();
    let rising = starts.windows(2).all(|pair| pair[0] < pair[1]);
    if starts[0] != 0 || !rising || starts.iter().any(|&start| start >= head.d) {
        return Err(10);
    }
    let ends = starts[1..].iter().copied().chain([head.d]);
    let spans = starts.iter().copied().zip(ends);
    let buckets = groups.iter().zip(spans);
    let buckets: Option<Vec<Bucket>> = buckets.map(|(group, (start, end))| bucket(group, start, end)).collect();
    let buckets = buckets.ok_or(11u32)?;
    if !buckets.iter().all(coded) {
        return Err(12);
    }
    Ok(Histogram { head, buckets })
}

/// Refusal 9 of one bucket.
fn laid_out(group: &[u32]) -> bool {
    let kinds = group.iter().zip(KINDS).all(|(&word, k)| kind(word) == k);
    // Only the last two words have bits outside their fields.
    kinds && field(group[3], 29, 27) == 0 && field(group[4], 29, 27) == 0
}

/// Decodes one bucket, refusal 11 being none.
fn bucket(group: &[u32], start: u32, end: u32) -> Option<Bucket> {
    Some(Bucket {
        start,
        eighth_free: field(group[0], 9, 9) == 1,
        widths: widths(group, end - start)?,
        classes: classes(group),
        total: field(group[2], 11, 0),
    })
}

/// Refusal 12 of one bucket. Class 0 may have any width, but a width of 0 has no other class; code 0
/// is valid beside eight classes 0 alone.
fn coded(bucket: &Bucket) -> bool {
    let mut pairs = bucket.classes.iter().zip(&bucket.widths);
    let zeros = bucket.classes == [0; 8] && bucket.total == 0;
    pairs.all(|(&class, &width)| class_in_use(class) && (width > 0 || class == 0))
        && (zeros || code_valid(bucket.total))
}

/// Writes a histogram whose fields keep their widths in bits.
pub fn write(histogram: &Histogram) -> Vec<u32> {
    let Head { d, bound, buckets } = histogram.head;
    let mut words = vec![d, bound.theta, (bound.qn << 10) | bound.qd, buckets];
    words.extend(histogram.buckets.iter().flat_map(written));
    words
}

fn written(bucket: &Bucket) -> [u32; PER_BUCKET] {
    let mut listed = bucket.widths.to_vec();
    listed.remove(bucket.free());
    let three = |from: usize| (listed[from] << 18) | (listed[from + 1] << 9) | listed[from + 2];
    let classes = |places: Range<usize>| places.fold(0, |word, place| (word << 6) | bucket.classes[place]);
    let flag = u32::from(bucket.eighth_free);
    [
        (1 << 30) | (bucket.start << 10) | (flag << 9) | listed[0],
        (2 << 30) | classes(0..5),
        (2 << 30) | (classes(5..8) << 12) | bucket.total,
        (3 << 30) | three(1),
        (3 << 30) | three(4),
    ]
}

/// The five words of the bucket that holds an entry; the refusals of reading, then 15.
pub fn find(words: &[u32], entry: u32) -> Result<&[u32], u32> {
    let Histogram { head, buckets } = read(words)?;
    if entry >= head.d {
        return Err(15);
    }
    let before = buckets.iter().take_while(|bucket| bucket.end() <= entry);
    let at = HEADS + PER_BUCKET * before.count();
    Ok(&words[at..at + PER_BUCKET])
}
