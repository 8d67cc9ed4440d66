//! The structs, sizes and calls of qh.h.

pub const SHEET_BYTES: usize = 163840;

#[repr(C)]
pub struct QhBuilt {
    pub refusal: u32,
    pub words: usize,
}

#[repr(C)]
pub struct QhVerdict {
    pub refusal: u32,
    pub accepted: u32,
    pub sort: u32,
    pub start: u32,
    pub end: u32,
}

#[repr(C)]
pub struct QhEstimate {
    pub refusal: u32,
    pub estimate: u64,
}

#[repr(C)]
pub struct QhFilled {
    pub refusal: u32,
    pub places: usize,
}

#[repr(C)]
pub struct QhAnswered {
    pub refusal: u32,
    pub answers: usize,
}

#[repr(C)]
pub struct QhFound {
    pub refusal: u32,
    pub at: usize,
}

#[repr(C)]
pub struct QhReplayed {
    pub refusal: u32,
    pub sum: u32,
}

#[repr(C)]
pub struct QhCoded {
    pub refusal: u32,
    pub value: u32,
}

extern "C" {
    pub fn qh_build(
        freqs: *const u32,
        freqs_len: usize,
        theta: u32,
        qn: u32,
        qd: u32,
        out: *mut u32,
        out_len: usize,
    ) -> QhBuilt;
    pub fn qh_check(freqs: *const u32, freqs_len: usize, words: *const u32, words_len: usize) -> QhVerdict;
    pub fn qh_estimate(words: *const u32, words_len: usize, x: u32, y: u32) -> QhEstimate;
    pub fn qh_estimate_search(
        words: *const u32,
        words_len: usize,
        ranges: *const u32,
        ranges_len: usize,
    ) -> QhEstimate;
    pub fn qh_fill_totals(words: *const u32, words_len: usize, out: *mut u64, out_len: usize) -> QhFilled;
    pub fn qh_answer_worksheet(
        words: *const u32,
        words_len: usize,
        totals: *const u64,
        totals_len: usize,
        worksheet: *const u32,
        worksheet_len: usize,
        out: *mut u64,
        out_len: usize,
    ) -> QhAnswered;
    pub fn qh_find(words: *const u32, words_len: usize, entry: u32) -> QhFound;
    pub fn qh_replay_journal(
        freqs: *mut u32,
        freqs_len: usize,
        entries: *const u32,
        entries_len: usize,
        changes: *const i32,
        changes_len: usize,
    ) -> QhReplayed;
    pub fn qh_class_of(count: u32) -> QhCoded;
    pub fn qh_number_of_class(class: u32) -> QhCoded;
    pub fn qh_code_of_total(total: u32) -> QhCoded;
    pub fn qh_number_of_total(code: u32) -> QhCoded;
    pub fn qh_sheet(input: *const u8, input_len: usize, out: *mut u8) -> usize;
}
