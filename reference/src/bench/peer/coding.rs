//! Coding: classes by tables, totals by shifts. The four calls are never inlined and go by C's rules, as the proved ones do.

use crate::list::COUNT_LIMIT;
use crate::program::QhCoded;

/// The first count of each class.
static FIRST: [u32; 64] = [
    0, 1, 2, 2, 3, 4, 6, 8, 11, 15, 21, 29, 41, 57, 80, 112, 156, 218, 305, 427, 598, 837, 1172, 1640, 2296, 3215,
    4500, 6300, 8820, 12348, 17287, 24202, 33883, 47435, 66409, 92973, 130162, 182226, 255116, 357163, 500027, 700038,
    980053, 1372074, 1920904, 2689265, 3764971, 5270960, 7379343, 10331080, 14463512, 20248917, 28348483, 39687876,
    55563027, 77788237, 108903532, 152464944, 213450922, 298831290, 418363806, 585709329, 819993060, 1147990283,
];

/// What each class stands for, 0 where no count has it.
static NUMBER: [u32; 64] = [
    0, 1, 0, 2, 3, 4, 6, 8, 12, 17, 24, 34, 47, 67, 93, 131, 184, 257, 360, 505, 707, 989, 1385, 1940, 2716, 3803,
    5324, 7454, 10435, 14609, 20453, 28635, 40089, 56125, 78575, 110006, 154008, 215612, 301857, 422599, 591639,
    828295, 1159614, 1623459, 2272843, 3181981, 4454773, 6236682, 8731355, 12223898, 17113457, 23958840, 33542377,
    46959327, 65743059, 92040282, 128856395, 180398954, 252558536, 353581950, 495014730, 693020622, 970228872, 0,
];

/// The whole part of (√2 - 1) · 2^32.
const SQRT_2_LESS_1: u32 = 1779033703;

/// The class of a count up to the limit: at most three above where its highest bit points.
#[inline]
pub fn class_for(count: u32) -> u32 {
    if count == 0 {
        return 0;
    }
    let least = 2 * (31 - count.leading_zeros()) + 1;
    let reached = |class: u32| (FIRST[(class & 63) as usize] <= count) as u32;
    least + reached(least + 1) + reached(least + 2) + reached(least + 3)
}

#[inline]
pub fn class_number(class: u32) -> u32 {
    NUMBER[(class & 63) as usize]
}

/// The code of a total up to the limit.
#[inline]
pub fn code_for(total: u32) -> u32 {
    let shift = if total < 128 { 0 } else { 25 - total.leading_zeros() };
    (total >> shift) << 5 | shift
}

/// Whether a code is valid; 0 is, and in a bucket only beside eight classes 0.
#[inline]
pub fn code_valid(code: u32) -> bool {
    let (bits, shift) = (code >> 5, code & 31);
    bits <= 127 && shift <= 23 && (shift == 0 || bits >= 64)
}

/// What a valid code stands for.
#[inline]
pub fn code_number(code: u32) -> u32 {
    let (bits, shift) = (code >> 5, code & 31);
    // A shift by 32 gives none, so shift 0 has 0.
    let middle = SQRT_2_LESS_1.checked_shr(32 - shift).unwrap_or(0);
    (bits << shift) | middle
}

const fn answer(value: u32) -> QhCoded {
    QhCoded { refusal: 0, value }
}

const fn refused(refusal: u32) -> QhCoded {
    QhCoded { refusal, value: 0 }
}

#[inline(never)]
pub extern "C" fn class_of(count: u32) -> QhCoded {
    if count > COUNT_LIMIT {
        return refused(16);
    }
    answer(class_for(count))
}

#[inline(never)]
pub extern "C" fn number_of_class(class: u32) -> QhCoded {
    if class == 2 || class >= 63 {
        return refused(17);
    }
    answer(class_number(class))
}

#[inline(never)]
pub extern "C" fn code_of_total(total: u32) -> QhCoded {
    if total > COUNT_LIMIT {
        return refused(16);
    }
    answer(code_for(total))
}

#[inline(never)]
pub extern "C" fn number_of_total(code: u32) -> QhCoded {
    if !code_valid(code) {
        return refused(17);
    }
    answer(code_number(code))
}
