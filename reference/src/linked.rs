//! The other program's functions, called through the C interface.

use crate::list::Bound;
use crate::program::*;
use std::io::{ErrorKind, Write};
use std::process::{Command, Stdio};

/// The program that answers by the linked functions, and its listing program's path where that is run.
#[derive(Clone, Copy, Debug)]
pub struct Linked<'a> {
    pub listing_program: Option<&'a str>,
}

/// Runs a program on an input, which the pipe holds, so that nothing waits for its output meanwhile.
fn run(path: &str, input: &[u8]) -> std::io::Result<Listing> {
    let mut command = Command::new(path);
    command.stdin(Stdio::piped()).stdout(Stdio::piped()).stderr(Stdio::piped());
    let mut child = command.spawn()?;
    let written = child.stdin.take().expect("a pipe").write_all(input);
    let output = child.wait_with_output()?;
    match written {
        // It reads no more than it needs.
        Err(error) if error.kind() != ErrorKind::BrokenPipe => return Err(error),
        _ if !output.status.success() => return Err(std::io::Error::other(output.status.to_string())),
        _ => {}
    }
    Ok(Listing { printed: output.stdout, explained: !output.stderr.is_empty() })
}

extern "C" {
    fn qh_class_of(count: u32) -> QhCoded;
    fn qh_number_of_class(class: u32) -> QhCoded;
    fn qh_code_of_total(total: u32) -> QhCoded;
    fn qh_number_of_total(code: u32) -> QhCoded;
    fn qh_build(
        frequencies: *const u32,
        length: usize,
        theta: u32,
        qn: u32,
        qd: u32,
        lent: *mut u32,
        lent_length: usize,
    ) -> QhBuilt;
    fn qh_check(frequencies: *const u32, length: usize, words: *const u32, words_length: usize) -> QhVerdict;
    fn qh_estimate(words: *const u32, length: usize, x: u32, y: u32) -> QhEstimate;
    fn qh_find(words: *const u32, length: usize, entry: u32) -> QhFound;
    fn qh_fill_totals(words: *const u32, length: usize, lent: *mut u64, lent_length: usize) -> QhFilled;
    fn qh_answer_worksheet(
        words: *const u32,
        length: usize,
        totals: *const u64,
        totals_length: usize,
        worksheet: *const u32,
        worksheet_length: usize,
        lent: *mut u64,
        lent_length: usize,
    ) -> QhAnswered;
    fn qh_estimate_search(words: *const u32, length: usize, ranges: *const u32, ranges_length: usize) -> QhEstimate;
    fn qh_replay_journal(
        frequencies: *mut u32,
        length: usize,
        entries: *const u32,
        entries_length: usize,
        changes: *const i32,
        changes_length: usize,
    ) -> QhReplayed;
    fn qh_sheet(input: *const u8, length: usize, lent: *mut u8) -> usize;
}

// SAFETY of each call: plain numbers, or pointers and lengths of whole slices that outlive
// the call, which is all that the interface asks for.
impl Program for Linked<'_> {
    fn class_of(&self, count: u32) -> QhCoded {
        unsafe { qh_class_of(count) }
    }

    fn number_of_class(&self, class: u32) -> QhCoded {
        unsafe { qh_number_of_class(class) }
    }

    fn code_of_total(&self, total: u32) -> QhCoded {
        unsafe { qh_code_of_total(total) }
    }

    fn number_of_total(&self, code: u32) -> QhCoded {
        unsafe { qh_number_of_total(code) }
    }

    fn build(&self, frequencies: &[u32], bound: Bound, lent: &mut [u32]) -> QhBuilt {
        let Bound { theta, qn, qd } = bound;
        let (list, length) = (frequencies.as_ptr(), frequencies.len());
        unsafe { qh_build(list, length, theta, qn, qd, lent.as_mut_ptr(), lent.len()) }
    }

    fn check(&self, frequencies: &[u32], words: &[u32]) -> QhVerdict {
        let (list, length) = (frequencies.as_ptr(), frequencies.len());
        unsafe { qh_check(list, length, words.as_ptr(), words.len()) }
    }

    fn estimate(&self, words: &[u32], x: u32, y: u32) -> QhEstimate {
        unsafe { qh_estimate(words.as_ptr(), words.len(), x, y) }
    }

    fn find(&self, words: &[u32], entry: u32) -> QhFound {
        unsafe { qh_find(words.as_ptr(), words.len(), entry) }
    }

    fn fill_totals(&self, words: &[u32], lent: &mut [u64]) -> QhFilled {
        unsafe { qh_fill_totals(words.as_ptr(), words.len(), lent.as_mut_ptr(), lent.len()) }
    }

    fn answer_worksheet(&self, words: &[u32], totals: &[u64], worksheet: &[u32], lent: &mut [u64]) -> QhAnswered {
        let (list, length) = (words.as_ptr(), words.len());
        let (sums, sums_length) = (totals.as_ptr(), totals.len());
        let (ranges, ranges_length) = (worksheet.as_ptr(), worksheet.len());
        let (answers, places) = (lent.as_mut_ptr(), lent.len());
        unsafe { qh_answer_worksheet(list, length, sums, sums_length, ranges, ranges_length, answers, places) }
    }

    fn estimate_search(&self, words: &[u32], ranges: &[u32]) -> QhEstimate {
        unsafe { qh_estimate_search(words.as_ptr(), words.len(), ranges.as_ptr(), ranges.len()) }
    }

    fn replay_journal(&self, frequencies: &mut [u32], entries: &[u32], changes: &[i32]) -> QhReplayed {
        let (list, length) = (frequencies.as_mut_ptr(), frequencies.len());
        unsafe { qh_replay_journal(list, length, entries.as_ptr(), entries.len(), changes.as_ptr(), changes.len()) }
    }

    fn sheet(&self, input: &[u8], lent: &mut Sheet) -> usize {
        unsafe { qh_sheet(input.as_ptr(), input.len(), lent.as_mut_ptr()) }
    }

    fn listing(&self, input: &[u8]) -> Listing {
        let path = self.listing_program.expect("a listing program is given");
        run(path, input).unwrap_or_else(|error| panic!("{path}: {error}"))
    }
}
