//! Values of q about 8, the most that is taken, as (qn, qd).

use super::Random;
use crate::list::MOST_Q;

/// The last qd beside which qn can reach 8 qd.
pub const LAST_QD: u32 = 125;

/// Their parts fit the fields of ten bits; the last eight are outside q's limits.
const FIELDS: [(u32, u32); 19] = [
    (15, 1),
    (15, 10),
    (80, 10),
    (1_000, 1),
    (1_000, 2),
    (1_000, 124),
    (1_000, 125),
    (1_000, 126),
    (1_000, 127),
    (1_000, 500),
    (1_000, 800),
    (1_000, 801),
    (1_000, 1_000),
    (1_001, 1),
    (1_001, 125),
    (1_023, 127),
    (8, 0),
    (9, 0),
    (0, 0),
];

/// A part of each fits no field and is outside q's limits; in 32 bits, 8 qd of two of them wraps to 0 and to 8.
pub const WIDE: [(u32, u32); 9] = [
    (u32::MAX, 536_870_911),
    (u32::MAX, 536_870_912),
    (9, 536_870_913),
    (u32::MAX, 1),
    (u32::MAX, 0),
    (8_001, 1_000),
    (8, u32::MAX),
    (9, u32::MAX),
    (u32::MAX, u32::MAX),
];

/// The nearest to 8 on either side and 8 itself, for each qd up to a given one; and others.
pub fn about_most(last_qd: u32) -> Vec<(u32, u32)> {
    let about = |qd: u32| [MOST_Q * qd - 1, MOST_Q * qd, MOST_Q * qd + 1].map(|qn| (qn, qd));
    (1..=last_qd).flat_map(about).chain(FIELDS).collect()
}

/// One that is near 8 or any.
pub fn some_q(random: &mut Random) -> (u32, u32) {
    let qd = random.any_size(LAST_QD.into()) as u32;
    let near = MOST_Q * qd + random.below(7) as u32 - 3;
    let any = random.any_size(1_000) as u32;
    (random.pick(&[near, any]), qd)
}

/// A histogram with another q.
pub fn with_q(words: &[u32], (qn, qd): (u32, u32)) -> Vec<u32> {
    let mut words = words.to_vec();
    words[2] = (qn << 10) | qd;
    words
}
