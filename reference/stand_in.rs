//! A library with the C interface that the reference itself answers, to try out the linking.

use reference::build::Way;
use reference::list::Bound;
use reference::program::*;
use std::slice::{from_raw_parts, from_raw_parts_mut};

const REFERENCE: Reference = Reference(Way::FewerRanges);

#[no_mangle]
pub extern "C" fn qh_class_of(count: u32) -> QhCoded {
    REFERENCE.class_of(count)
}

#[no_mangle]
pub extern "C" fn qh_number_of_class(class: u32) -> QhCoded {
    REFERENCE.number_of_class(class)
}

#[no_mangle]
pub extern "C" fn qh_code_of_total(total: u32) -> QhCoded {
    REFERENCE.code_of_total(total)
}

#[no_mangle]
pub extern "C" fn qh_number_of_total(code: u32) -> QhCoded {
    REFERENCE.number_of_total(code)
}

/// # Safety
/// Here and below: pointers and lengths are those of whole lists.
#[no_mangle]
pub unsafe extern "C" fn qh_build(
    frequencies: *const u32,
    length: usize,
    theta: u32,
    qn: u32,
    qd: u32,
    lent: *mut u32,
    lent_length: usize,
) -> QhBuilt {
    let frequencies = from_raw_parts(frequencies, length);
    let lent = from_raw_parts_mut(lent, lent_length);
    REFERENCE.build(frequencies, Bound::new(theta, qn, qd), lent)
}

/// # Safety
/// As above.
#[no_mangle]
pub unsafe extern "C" fn qh_check(
    frequencies: *const u32,
    length: usize,
    words: *const u32,
    words_length: usize,
) -> QhVerdict {
    let words = from_raw_parts(words, words_length);
    REFERENCE.check(from_raw_parts(frequencies, length), words)
}

/// # Safety
/// As above.
#[no_mangle]
pub unsafe extern "C" fn qh_estimate(words: *const u32, length: usize, x: u32, y: u32) -> QhEstimate {
    REFERENCE.estimate(from_raw_parts(words, length), x, y)
}

/// # Safety
/// As above.
#[no_mangle]
pub unsafe extern "C" fn qh_find(words: *const u32, length: usize, entry: u32) -> QhFound {
    REFERENCE.find(from_raw_parts(words, length), entry)
}

/// # Safety
/// As above.
#[no_mangle]
pub unsafe extern "C" fn qh_fill_totals(
    words: *const u32,
    length: usize,
    lent: *mut u64,
    lent_length: usize,
) -> QhFilled {
    REFERENCE.fill_totals(from_raw_parts(words, length), from_raw_parts_mut(lent, lent_length))
}

/// # Safety
/// As above.
#[no_mangle]
pub unsafe extern "C" fn qh_answer_worksheet(
    words: *const u32,
    length: usize,
    totals: *const u64,
    totals_length: usize,
    worksheet: *const u32,
    worksheet_length: usize,
    lent: *mut u64,
    lent_length: usize,
) -> QhAnswered {
    let (words, totals) = (from_raw_parts(words, length), from_raw_parts(totals, totals_length));
    let worksheet = from_raw_parts(worksheet, worksheet_length);
    REFERENCE.answer_worksheet(words, totals, worksheet, from_raw_parts_mut(lent, lent_length))
}

/// # Safety
/// As above.
#[no_mangle]
pub unsafe extern "C" fn qh_estimate_search(
    words: *const u32,
    length: usize,
    ranges: *const u32,
    ranges_length: usize,
) -> QhEstimate {
    REFERENCE.estimate_search(from_raw_parts(words, length), from_raw_parts(ranges, ranges_length))
}

/// # Safety
/// As above.
#[no_mangle]
pub unsafe extern "C" fn qh_replay_journal(
    frequencies: *mut u32,
    length: usize,
    entries: *const u32,
    entries_length: usize,
    changes: *const i32,
    changes_length: usize,
) -> QhReplayed {
    let (entries, changes) = (from_raw_parts(entries, entries_length), from_raw_parts(changes, changes_length));
    REFERENCE.replay_journal(from_raw_parts_mut(frequencies, length), entries, changes)
}

/// # Safety
/// As above, with exactly `SHEET_BYTES` bytes lent.
#[no_mangle]
pub unsafe extern "C" fn qh_sheet(input: *const u8, length: usize, lent: *mut u8) -> usize {
    REFERENCE.sheet(from_raw_parts(input, length), &mut *lent.cast())
}
