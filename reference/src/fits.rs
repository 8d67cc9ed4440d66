//! "What fits": the ranges of one bucketlet, and a bucket's total.

use crate::list::Bound;

impl Bound {
    /// Neither number is more than q times the other, as of 0 and 0 neither is.
    pub fn within_q(self, a: u64, b: u64) -> bool {
        let (qn, qd) = (u64::from(self.qn), u64::from(self.qd));
        qd * a <= qn * b && qd * b <= qn * a
    }

    /// A range of n entries with true count f in a bucketlet of width w standing for s.
    /// Both numbers are compared times w, so that n s / w stays whole.
    pub fn fits(self, f: u64, n: u64, s: u64, w: u64) -> bool {
        let theta = u64::from(self.theta);
        let both_small = f <= theta && n * s <= theta * w;
        both_small || self.within_q(f * w, n * s)
    }
}

/// What kind of range a checker names.
#[derive(Clone, Copy, Debug, PartialEq, Eq)]
pub enum Sort {
    Bucketlet,
    Part,
    Bucket,
}

/// A range of a bucketlet, counted from its start, and its sort.
pub type Failing = (usize, usize, Sort);

/// The first range from a start that fails. The whole bucketlet must lie within q; theta does not excuse it.
pub fn first_end(part: &[u32], start: usize, s: u64, bound: Bound) -> Option<Failing> {
    let w = part.len();
    let mut f = 0;
    for end in start + 1..=w {
        f += u64::from(part[end - 1]);
        let n = (end - start) as u64;
        if n == w as u64 {
            if !bound.within_q(f, s) {
                return Some((start, end, Sort::Bucketlet));
            }
        } else if !bound.fits(f, n, s, w as u64) {
            return Some((start, end, Sort::Part));
        }
    }
    None
}

/// The first range of a bucketlet that fails, by start and then by end: every pair of ends is tried.
pub fn first_failing(part: &[u32], s: u64, bound: Bound) -> Option<Failing> {
    (0..part.len()).find_map(|start| first_end(part, start, s, bound))
}
