//! Lists aimed at the factor of the sharper rule, for the builder itself. Undirected lists never come near it: a cut
//! that theta excuses must hold nearly theta inside the range and have hardly any estimate there, or the reverse, and
//! what lies beside such cuts must be at the edge of 5/4, or of q.

use super::directed::jostle;
use super::Random;
use crate::list::Bound;
use crate::words::WIDEST_LISTED;

/// A list with its theta and q, and the range that is aimed at.
#[derive(Clone, Debug)]
pub struct Near {
    pub frequencies: Vec<u32>,
    pub bound: Bound,
    pub x: u32,
    pub y: u32,
}

/// A part of a list: so many times a frequency, and so on.
type Runs = &'static [(usize, u32)];

/// Theta and q; what lies before the range, in it and after it.
type Known = (Bound, [Runs; 3]);

/// The nearest ones found by a search, for each half and each side; most are short.
const KNOWN: [Known; 17] = [
    // Two cuts that theta excuses, their counts in the range. From the second list on, the class of the entry between
    // them stands for far less: 4 for 5, 93 for 111.
    (Bound::new(98, 5, 4), [&[(8, 1)], &[(1, 90), (1, 116), (1, 90)], &[(8, 1)]]),
    (Bound::new(2, 5, 4), [&[(5, 0)], &[(1, 2), (1, 5), (1, 2)], &[(5, 0)]]),
    (Bound::new(110, 2, 1), [&[(19, 0)], &[(1, 110), (1, 111), (1, 0), (1, 110)], &[(18, 0)]]),
    (Bound::new(110, 9, 4), [&[(99, 0)], &[(1, 110), (1, 111), (1, 0), (1, 110)], &[(98, 0)]]),
    // The same with their counts outside. No class stands for as much as 1.184 times a count of it, so that nothing
    // comes nearer to 5/4 there.
    (Bound::new(258_735, 2, 1), [&[(1, 255_116)], &[(6, 0), (1, 255_116), (11, 0)], &[(1, 255_116)]]),
    (Bound::new(211_300, 2, 1), [&[(1, 357_163)], &[(1, 0), (1, 182_226), (50, 0)], &[(1, 357_163)]]),
    (Bound::new(258_735, 3, 2), [&[(1, 255_116)], &[(6, 0), (1, 700_038), (6, 0)], &[(1, 255_116)]]),
    (Bound::new(150_928, 3, 2), [&[(1, 130_162)], &[(49, 0), (1, 255_116), (49, 0)], &[(1, 130_162)]]),
    // One such cut, its count in the range, beside one at the edge of q.
    (Bound::new(1, 2, 1), [&[], &[(1, 8)], &[(1, 2)]]),
    (Bound::new(21_046, 3, 1), [&[(3, 4_943)], &[(1, 42_093), (1, 21_046)], &[(18, 0)]]),
    (Bound::new(111, 2, 1), [&[(2, 88)], &[(1, 336), (1, 111)], &[(19, 0)]]),
    (Bound::new(1_041, 2, 1), [&[(4, 3_187)], &[(1, 11_454), (1, 1_041)], &[(17, 0)]]),
    (Bound::new(8_590, 3, 1), [&[(6, 2_784)], &[(1, 17_181), (1, 8_590)], &[(510, 0)]]),
    // The same with its count outside. The last of them would break the rule but for the 1 that is taken off.
    (Bound::new(5_011, 3, 1), [&[(3, 10_181)], &[(1, 3_341), (16, 0)], &[(1, 4_500)]]),
    (Bound::new(5_011, 2, 1), [&[(1, 23_860)], &[(1, 10_023), (16, 0)], &[(1, 4_500)]]),
    (Bound::new(668, 3, 2), [&[(2, 12_487)], &[(1, 8_909), (17, 0)], &[(1, 598)]]),
    (Bound::new(3, 7, 4), [&[(2, 21)], &[(1, 9), (6, 0)], &[(1, 3)]]),
];

fn near(bound: Bound, parts: [Vec<u32>; 3]) -> Near {
    let x = parts[0].len() as u32;
    let y = x + parts[1].len() as u32;
    Near { frequencies: parts.concat(), bound, x, y }
}

/// Two cuts that theta excuses, their counts in the range, and seven bucketlets between them that end only because they
/// may not be wider: each counts 10, which stands for 8.
fn seven_tens() -> Near {
    let ten = [&[10][..], &[0; WIDEST_LISTED as usize - 1]].concat();
    let inside = [&[69][..], &ten.repeat(7), &[69]].concat();
    near(Bound::new(69, 2, 1), [vec![0; 511], inside, vec![0; 510]])
}

pub fn known() -> Vec<Near> {
    let part = |runs: Runs| runs.iter().flat_map(|&(times, frequency)| vec![frequency; times]).collect();
    let short = KNOWN.into_iter().map(|(bound, parts)| near(bound, parts.map(part)));
    short.chain([seven_tens()]).collect()
}

/// A small change, with which the list may come nearer or not.
pub fn jostled(random: &mut Random, near: &Near) -> Near {
    let mut changed = near.clone();
    jostle(random, &mut changed.frequencies, &mut changed.bound.theta, (near.x, near.y));
    changed
}
