//! "How counts are written small": classes and total codes.

use crate::big::Big;
use crate::list::COUNT_LIMIT;
use std::sync::OnceLock;

/// The last class in use; class 63 begins above the limit.
pub const LAST_CLASS: u32 = 62;

/// Whether (7/5)^(class-1) <= v < (7/5)^class.
pub fn in_class(v: u32, class: u32) -> bool {
    Big::power(7, class - 1) <= Big::power(5, class - 1).times(v)
        && Big::power(5, class).times(v) < Big::power(7, class)
}

/// The first whole v with (7/5)^(class-1) <= v, which begins the class if any is in it.
fn first_count(class: u32) -> u32 {
    let (high, low) = (Big::power(7, class - 1), Big::power(5, class - 1));
    least(|v| high <= low.times(v))
}

/// The largest whole r with r squared at most (7/5)^(2 class - 1).
fn root_of_class(class: u32) -> u32 {
    let (high, low) = (Big::power(7, 2 * class - 1), Big::power(5, 2 * class - 1));
    least(|r| low.times(r).times(r) > high) - 1
}

/// The least value above 0 for which a question turns from no to yes.
fn least(yes: impl Fn(u32) -> bool) -> u32 {
    let (mut no, mut known) = (0, u32::MAX);
    while known - no > 1 {
        let middle = no + (known - no) / 2;
        if yes(middle) {
            known = middle;
        } else {
            no = middle;
        }
    }
    known
}

struct Classes {
    /// first[c] begins class c, for c from 1 to 63.
    first: [u32; 64],
    /// number[c] is what class c stands for, for c from 0 to 62.
    number: [u32; 63],
}

fn classes() -> &'static Classes {
    static TABLE: OnceLock<Classes> = OnceLock::new();
    let from_one = |class: usize, value: fn(u32) -> u32| match class {
        0 => 0,
        _ => value(class as u32),
    };
    TABLE.get_or_init(|| Classes {
        first: std::array::from_fn(|class| from_one(class, first_count)),
        number: std::array::from_fn(|class| from_one(class, root_of_class)),
    })
}

/// The first count of a class from 1 to 63, which is in it unless the class is 2.
pub fn class_start(class: u32) -> u32 {
    classes().first[class as usize]
}

/// Whether a class may stand in a histogram.
pub fn class_in_use(class: u32) -> bool {
    class != 2 && class <= LAST_CLASS
}

/// What a class in use stands for.
pub fn class_number(class: u32) -> u32 {
    classes().number[class as usize]
}

/// The class of a count up to the limit: as many classes as begin at it or below.
pub fn class_for(count: u64) -> u32 {
    let begun = |&&first: &&u32| u64::from(first) <= count;
    classes().first[1..].iter().take_while(begun).count() as u32
}

/// The code of a total up to the limit.
pub fn code_for(total: u64) -> u32 {
    let shift = if total < 128 { 0 } else { total.ilog2() - 6 };
    (total >> shift) as u32 * 32 + shift
}

/// Whether a code is valid whatever the classes beside it are; code 0 needs eight classes 0.
pub fn code_valid(code: u32) -> bool {
    let (bits, shift) = (code / 32, code % 32);
    match shift {
        0 => (1..=127).contains(&bits),
        1..=23 => (64..=127).contains(&bits),
        _ => false,
    }
}

/// What a valid code or code 0 stands for.
pub fn code_number(code: u32) -> u32 {
    let (bits, shift) = (code / 32, code % 32);
    (bits << shift) + middle(shift)
}

/// The largest m with (m + 2^shift) squared at most 2^(2 shift + 1).
fn middle(shift: u32) -> u32 {
    static TABLE: OnceLock<[u32; 24]> = OnceLock::new();
    let largest = |shift: usize| {
        let edge = 1u64 << (2 * shift + 1);
        least(|m| (u64::from(m) + (1 << shift)).pow(2) > edge) - 1
    };
    TABLE.get_or_init(|| std::array::from_fn(largest))[shift as usize]
}

/// Refusal 16.
fn codable(count: u32) -> Result<u64, u32> {
    let within = count <= COUNT_LIMIT;
    within.then_some(count.into()).ok_or(16)
}

pub fn class_of(count: u32) -> Result<u32, u32> {
    codable(count).map(class_for)
}

pub fn code_of_total(total: u32) -> Result<u32, u32> {
    codable(total).map(code_for)
}

/// Refusal 17.
pub fn number_of_class(class: u32) -> Result<u32, u32> {
    class_in_use(class).then(|| class_number(class)).ok_or(17)
}

/// Refusal 17.
pub fn number_of_total(code: u32) -> Result<u32, u32> {
    let readable = code == 0 || code_valid(code);
    readable.then(|| code_number(code)).ok_or(17)
}
