//! The calls of `qh.h` for Rust: each as that header describes it, with a `Result` for the refusal.
//!
//! ```
//! let words = qh::build(&[10, 10, 10, 10], 1, 3, 2)?;
//! assert_eq!(qh::estimate(&words, 1, 3)?, 17);
//! assert_eq!(qh::estimate(&words, 4, 5).unwrap_err().to_string(), "x is above y, or y is above d.");
//! # Ok::<(), qh::Refusal>(())
//! ```
//!
//! To build this crate, run `embed/build`, which makes the library and installs it with its header, and set `QH_LIBRARY` to
//! the absolute path of `target/embed/lib/libqh.a`. That library is for Linux on x86-64 only.
//!
//! A call panics if the library answers with a number that this crate does not know: then the two are of different
//! versions.

mod raw;
mod refusal;

use raw::*;
pub use refusal::Refusal;

/// What `check` says of a histogram and a list.
#[derive(Clone, Copy, Debug, PartialEq, Eq)]
pub enum Verdict {
    /// The histogram is accepted for the list.
    Accepted,
    /// It is not; this fails first.
    Fails {
        /// What kind of range fails.
        sort: Sort,
        /// The first entry of the range.
        start: u32,
        /// The entry after its last.
        end: u32,
    },
}

/// What fails in a histogram.
#[derive(Clone, Copy, Debug, PartialEq, Eq)]
#[non_exhaustive]
pub enum Sort {
    /// A whole bucketlet.
    Bucketlet,
    /// A part of a bucketlet.
    Part,
    /// The total of a bucket.
    Bucket,
}

/// Panics at a number that no library of this crate's version answers with.
fn unknown(what: &str, number: u32) -> ! {
    let version = env!("CARGO_PKG_VERSION");
    panic!("qh {version} does not know the {what} {number} of the linked libqh.a: the two are of different versions")
}

fn answer<T>(refusal: u32, value: T) -> Result<T, Refusal> {
    match refusal {
        0 => Ok(value),
        number => Err(Refusal::from_number(number).unwrap_or_else(|| unknown("refusal", number))),
    }
}

fn coded(coded: QhCoded) -> Result<u32, Refusal> {
    answer(coded.refusal, coded.value)
}

// SAFETY of each call below: it takes numbers, and pointers and lengths of whole slices that outlive the call; the one
// that is written is lent to nobody else, and has the length that the header asks for where no length goes with it.

/// The words of the histogram of a list.
///
/// ```
/// use qh::{build, Refusal};
/// let words = build(&[10, 10, 10, 10], 1, 3, 2)?;
/// assert_eq!(words, [4, 1, 0xC02, 1, 0x40000204, 0x8B000000, 0x80000500, 0xC0000000, 0xC0000000]);
/// let words = build(&[1, 100], 1, 3, 2)?;
/// assert_eq!(words[4..], [0x40000201, 0x81380000, 0x80000CA0, 0xC0040000, 0xC0000000]);
///
/// let second_class = |words: &[u32]| words[5] >> 18 & 63;
/// assert_ne!(second_class(&build(&[1, 100], 99, 3, 2)?), 0);
/// assert_eq!(second_class(&build(&[1, 100], 100, 3, 2)?), 0);
///
/// // Words that no longer occur.
/// let words = build(&[0, 0, 0], 1, 3, 2)?;
/// assert_eq!(words[4..], [0x40000203, 0x80000000, 0x80000000, 0xC0000000, 0xC0000000]);
///
/// assert!(build(&[1], 1, 5, 4).is_ok());
/// assert_eq!(build(&[1], 1, 124, 100), Err(Refusal::Q));
/// assert!(build(&[1], 1, 8, 1).is_ok());
/// assert_eq!(build(&[1], 1, 15, 1), Err(Refusal::LargeQ));
/// assert!(build(&[1_073_741_823], 1, 3, 2).is_ok());
/// assert_eq!(build(&[1_073_741_823, 1], 1, 3, 2), Err(Refusal::Sum));
///
/// // No bucketlet can be wider than one entry here, and there is still room for the words.
/// assert_eq!(build(&[1, 100, 1, 100, 1, 100, 1, 100, 1], 1, 3, 2)?.len(), 14);
/// # Ok::<(), Refusal>(())
/// ```
pub fn build(freqs: &[u32], theta: u32, qn: u32, qd: u32) -> Result<Vec<u32>, Refusal> {
    let mut words = vec![0; 4 + 5 * freqs.len().div_ceil(8)]; // QH_WORDS_FOR
    let (list, out, out_len) = (freqs.as_ptr(), words.as_mut_ptr(), words.len());
    let built = unsafe { qh_build(list, freqs.len(), theta, qn, qd, out, out_len) };
    words.truncate(built.words);
    answer(built.refusal, words)
}

/// Whether a histogram is accepted for a list, and if not, what fails first. The time is at most in proportion to the
/// lengths of the list and the words, whatever they hold; that is measured, not proved.
///
/// ```
/// use qh::{build, check, Refusal, Sort, Verdict};
/// let words = build(&[10, 10, 10, 10], 1, 3, 2)?;
/// assert_eq!(check(&[10, 10, 10, 10], &words)?, Verdict::Accepted);
///
/// let fails = |sort, start, end| Ok(Verdict::Fails { sort, start, end });
/// assert_eq!(check(&[10, 10, 10, 100], &words), fails(Sort::Bucketlet, 0, 4));
/// assert_eq!(check(&[1, 13, 13, 13], &words), fails(Sort::Part, 0, 1));
/// assert_eq!(check(&[6, 6, 7, 7], &words), fails(Sort::Bucket, 0, 4));
/// assert_eq!(check(&[10, 10, 10], &words), Err(Refusal::OtherList));
/// # Ok::<(), Refusal>(())
/// ```
pub fn check(freqs: &[u32], words: &[u32]) -> Result<Verdict, Refusal> {
    let verdict = unsafe { qh_check(freqs.as_ptr(), freqs.len(), words.as_ptr(), words.len()) };
    answer(verdict.refusal, ())?;
    if verdict.accepted == 1 {
        return Ok(Verdict::Accepted);
    }
    let sort = match verdict.sort {
        1 => Sort::Bucketlet,
        2 => Sort::Part,
        3 => Sort::Bucket,
        number => unknown("sort", number),
    };
    Ok(Verdict::Fails { sort, start: verdict.start, end: verdict.end })
}

/// The estimated count of the entries from x up to y, without y: 0 for the empty range alone.
///
/// ```
/// use qh::{build, estimate, Refusal};
/// let words = build(&[10, 10, 10, 10], 1, 3, 2)?;
/// assert_eq!(estimate(&words, 1, 3)?, 17);
/// assert_eq!(estimate(&words, 0, 3)?, 26);
/// assert_eq!(estimate(&words, 0, 4)?, 40);
/// assert_eq!(estimate(&words, 2, 2)?, 0);
/// assert_eq!(estimate(&words, 4, 4)?, 0);
/// assert_eq!(estimate(&words, 4, 5), Err(Refusal::Range));
/// assert_eq!(estimate(&build(&[0, 0, 0], 1, 3, 2)?, 0, 3)?, 1);
/// # Ok::<(), Refusal>(())
/// ```
pub fn estimate(words: &[u32], x: u32, y: u32) -> Result<u64, Refusal> {
    let asked = unsafe { qh_estimate(words.as_ptr(), words.len(), x, y) };
    answer(asked.refusal, asked.estimate)
}

/// The estimated count of a search of one to sixteen ranges, two numbers a range: the sum of what `estimate` answers for
/// each. None may start before the one ahead of it ends.
///
/// ```
/// use qh::{build, estimate_search, Refusal};
/// let words = build(&[10, 10, 10, 10], 1, 3, 2)?;
/// assert_eq!(estimate_search(&words, &[1, 3])?, 17);
/// assert_eq!(estimate_search(&words, &[0, 1, 1, 2, 4, 4])?, 18);
/// assert_eq!(estimate_search(&words, &[0, 5]), Err(Refusal::Range));
/// assert_eq!(estimate_search(&words, &[]), Err(Refusal::RangeCount));
/// assert_eq!(estimate_search(&words, &[0, 3, 2, 4]), Err(Refusal::RangeOrder));
/// # Ok::<(), Refusal>(())
/// ```
pub fn estimate_search(words: &[u32], ranges: &[u32]) -> Result<u64, Refusal> {
    let asked = unsafe { qh_estimate_search(words.as_ptr(), words.len(), ranges.as_ptr(), ranges.len()) };
    answer(asked.refusal, asked.estimate)
}

/// The running totals of a histogram, for `answer_worksheet`: at place i the sum of the numbers that the totals of the
/// buckets before i stand for, and one last place for all.
///
/// ```
/// use qh::{build, fill_totals, Refusal};
/// assert_eq!(fill_totals(&build(&[10, 10, 10, 10], 1, 3, 2)?)?, [0, 40]);
/// assert_eq!(fill_totals(&build(&[1, 100, 1, 100, 1, 100, 1, 100, 1], 1, 3, 2)?)?, [0, 405, 406]);
/// assert_eq!(fill_totals(&[]), Err(Refusal::Head));
/// # Ok::<(), Refusal>(())
/// ```
pub fn fill_totals(words: &[u32]) -> Result<Vec<u64>, Refusal> {
    let mut totals = vec![0; words.len() / 5 + 1]; // a bucket has five words, and there are four more
    let (out, out_len) = (totals.as_mut_ptr(), totals.len());
    let filled = unsafe { qh_fill_totals(words.as_ptr(), words.len(), out, out_len) };
    totals.truncate(filled.places);
    answer(filled.refusal, totals)
}

/// The estimates of the ranges of a worksheet, two numbers a range, each as `estimate` answers it. The histogram and its
/// running totals are tested once.
///
/// ```
/// use qh::{answer_worksheet, build, fill_totals, Refusal};
/// let words = build(&[10, 10, 10, 10], 1, 3, 2)?;
/// let totals = fill_totals(&words)?;
/// assert_eq!(answer_worksheet(&words, &totals, &[1, 3, 0, 3, 0, 4, 2, 2])?, [17, 26, 40, 0]);
/// assert_eq!(answer_worksheet(&words, &totals, &[])?, []);
/// assert_eq!(answer_worksheet(&words, &totals[1..], &[1, 3]), Err(Refusal::Places));
/// assert_eq!(answer_worksheet(&words, &[0, 41], &[1, 3]), Err(Refusal::Totals));
/// assert_eq!(answer_worksheet(&words, &totals, &[1, 3, 4]), Err(Refusal::Worksheet));
/// # Ok::<(), Refusal>(())
/// ```
pub fn answer_worksheet(words: &[u32], totals: &[u64], worksheet: &[u32]) -> Result<Vec<u64>, Refusal> {
    let mut answers = vec![0; worksheet.len() / 2];
    let (list, sums, ranges, out) = (words.as_ptr(), totals.as_ptr(), worksheet.as_ptr(), answers.as_mut_ptr());
    let answered = unsafe {
        qh_answer_worksheet(list, words.len(), sums, totals.len(), ranges, worksheet.len(), out, answers.len())
    };
    answer(answered.refusal, answers)
}

/// The words of the bucket that holds an entry.
///
/// ```
/// use qh::{build, find, Refusal};
/// let words = build(&[10, 10, 10, 10], 1, 3, 2)?;
/// assert_eq!(find(&words, 3)?, &words[4..]);
/// assert_eq!(find(&words, 4), Err(Refusal::Entry));
/// # Ok::<(), Refusal>(())
/// ```
pub fn find(words: &[u32], entry: u32) -> Result<&[u32], Refusal> {
    let found = unsafe { qh_find(words.as_ptr(), words.len(), entry) };
    answer(found.refusal, found.at).map(|at| &words[at..at + 5])
}

/// Replays the lines of a journal over a list, each an entry and a change to its frequency, and answers the sum of the
/// list afterwards. Refused, the list is as it was.
///
/// ```
/// use qh::{replay_journal, Refusal};
/// let mut freqs = [10, 10, 10, 10];
/// assert_eq!(replay_journal(&mut freqs, &[3, 0], &[-10, 4])?, 34);
/// assert_eq!(freqs, [14, 10, 10, 0]);
/// assert_eq!(replay_journal(&mut freqs, &[3, 3], &[5, -5])?, 34);
/// assert_eq!(replay_journal(&mut freqs, &[], &[])?, 34);
/// assert_eq!(replay_journal(&mut freqs, &[3, 3], &[-5, 5]), Err(Refusal::JournalChange));
/// assert_eq!(replay_journal(&mut freqs, &[1, 0], &[1, 1_073_741_790]), Err(Refusal::JournalChange));
/// assert_eq!(replay_journal(&mut freqs, &[1, 4], &[1, 1]), Err(Refusal::JournalEntry));
/// assert_eq!(replay_journal(&mut freqs, &[1, 2], &[1]), Err(Refusal::JournalLength));
/// assert_eq!(freqs, [14, 10, 10, 0]);
/// assert_eq!(replay_journal(&mut freqs, &[1, 0], &[-1, 1_073_741_790])?, 1_073_741_823);
/// # Ok::<(), Refusal>(())
/// ```
///
/// Two journals, each with as many changes as entries and together of at most 65,536 lines, are accepted one after the
/// other exactly if the journal that joins their lines is, and then leave the same list. An accepted journal is taken back
/// by its lines in reverse order with every change negated; none of its changes is `i32::MIN`, which has no negation.
///
/// ```
/// use qh::{replay_journal, Refusal};
/// let (mut weekly, mut monthly) = ([10, 10, 10, 10], [10, 10, 10, 10]);
/// replay_journal(&mut weekly, &[3, 0], &[-10, 4])?;
/// replay_journal(&mut weekly, &[3, 1], &[2, -1])?;
/// replay_journal(&mut monthly, &[3, 0, 3, 1], &[-10, 4, 2, -1])?;
/// assert_eq!(weekly, monthly);
/// assert_eq!(replay_journal(&mut monthly, &[1, 3, 0, 3], &[1, -2, -4, 10])?, 40);
/// assert_eq!(monthly, [10, 10, 10, 10]);
/// # Ok::<(), Refusal>(())
/// ```
pub fn replay_journal(freqs: &mut [u32], entries: &[u32], changes: &[i32]) -> Result<u32, Refusal> {
    let (list, list_len) = (freqs.as_mut_ptr(), freqs.len());
    let replayed =
        unsafe { qh_replay_journal(list, list_len, entries.as_ptr(), entries.len(), changes.as_ptr(), changes.len()) };
    answer(replayed.refusal, replayed.sum)
}

/// The class of a count.
///
/// ```
/// use qh::{class_of, Refusal};
/// assert_eq!([0, 1, 2, 5, 10, 11, 100].map(class_of), [0, 1, 3, 5, 7, 8, 14].map(Ok));
/// assert_eq!(class_of(1_073_741_824), Err(Refusal::Count));
/// ```
pub fn class_of(count: u32) -> Result<u32, Refusal> {
    coded(unsafe { qh_class_of(count) })
}

/// The number that a class stands for.
///
/// ```
/// use qh::{number_of_class, Refusal};
/// assert_eq!([0, 1, 3, 5, 7, 8, 14, 11].map(number_of_class), [0, 1, 2, 4, 8, 12, 93, 34].map(Ok));
/// assert_eq!([2, 63].map(number_of_class), [Err(Refusal::Reading); 2]);
/// ```
pub fn number_of_class(class: u32) -> Result<u32, Refusal> {
    coded(unsafe { qh_number_of_class(class) })
}

/// The code of a total.
///
/// ```
/// use qh::{code_of_total, Refusal};
/// assert_eq!([0, 127, 128, 1000].map(code_of_total), [0, 4064, 2049, 4003].map(Ok));
/// assert_eq!(code_of_total(1_073_741_824), Err(Refusal::Count));
/// ```
pub fn code_of_total(total: u32) -> Result<u32, Refusal> {
    coded(unsafe { qh_code_of_total(total) })
}

/// The number that a total code stands for.
///
/// ```
/// use qh::{number_of_total, Refusal};
/// assert_eq!([0, 4064, 2049, 4003].map(number_of_total), [0, 127, 128, 1003].map(Ok));
/// assert_eq!(number_of_total(2072), Err(Refusal::Reading));
/// ```
pub fn number_of_total(code: u32) -> Result<u32, Refusal> {
    coded(unsafe { qh_number_of_total(code) })
}

/// The exam sheet of an input, or the line that says by which number the input is refused.
///
/// ```
/// let sheet = "codes 2 theta 1 q 3/2 buckets 1\n\
///              bucket 0 2 total 3232 101\n\
///              0 1 code 1 count 1\n\
///              1 2 code 14 count 93\n";
/// assert_eq!(qh::sheet(b"1\n3\n2\n1\n100\n"), sheet.as_bytes());
/// assert_eq!(qh::sheet(b"1\n3\n2\n"), b"refused 18\n");
/// ```
pub fn sheet(input: &[u8]) -> Vec<u8> {
    let mut out = vec![0; SHEET_BYTES];
    let length = unsafe { qh_sheet(input.as_ptr(), input.len(), out.as_mut_ptr()) };
    out.truncate(length);
    out
}

#[cfg(test)]
mod tests {
    use super::{answer, unknown};

    #[test]
    #[should_panic(expected = "does not know the refusal 28 of the linked libqh.a: the two are of different versions")]
    fn a_refusal_of_another_version() {
        let _ = answer(28, ());
    }

    #[test]
    #[should_panic(expected = "does not know the sort 4 of the linked libqh.a: the two are of different versions")]
    fn a_sort_of_another_version() {
        unknown("sort", 4)
    }
}
