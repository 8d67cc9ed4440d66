//! "The list and the range": limits of the list, of theta and of q.

use std::fmt;

pub const MOST_ENTRIES: usize = 65_536;
pub const COUNT_LIMIT: u32 = 1_073_741_823;
pub const MOST_THETA: u32 = 1_048_575;
pub const MOST_Q_PART: u32 = 1_000;
pub const MOST_Q: u32 = 8;

/// Theta and q, which is qn/qd and never reduced: both parts are stored and printed.
#[derive(Clone, Copy, Debug, PartialEq, Eq)]
pub struct Bound {
    pub theta: u32,
    pub qn: u32,
    pub qd: u32,
}

impl Bound {
    pub const fn new(theta: u32, qn: u32, qd: u32) -> Bound {
        Bound { theta, qn, qd }
    }

    pub fn theta_within_limits(self) -> bool {
        (1..=MOST_THETA).contains(&self.theta)
    }

    pub fn q_within_limits(self) -> bool {
        let part = 1..=MOST_Q_PART;
        // The parts come first: larger ones would overflow the products.
        part.contains(&self.qn) && part.contains(&self.qd) && 4 * self.qn >= 5 * self.qd
    }

    /// Refusal 24. In 64 bits it can be asked of any two parts.
    pub fn q_too_large(self) -> bool {
        u64::from(MOST_Q) * u64::from(self.qd) < u64::from(self.qn)
    }
}

impl fmt::Display for Bound {
    fn fmt(&self, f: &mut fmt::Formatter) -> fmt::Result {
        write!(f, "theta {}, q {}/{}", self.theta, self.qn, self.qd)
    }
}

/// The true count of a part of the list.
pub fn count(part: &[u32]) -> u64 {
    part.iter().map(|&frequency| u64::from(frequency)).sum()
}

/// The sum of the numbers before each place, and of all at one last place.
pub fn running_sums(numbers: impl Iterator<Item = u64>) -> Vec<u64> {
    let mut sums = vec![0];
    for number in numbers {
        sums.push(sums[sums.len() - 1] + number);
    }
    sums
}

/// The sum of a list; refusals 1 and 3. A frequency of 0 is none.
pub fn list_sum(frequencies: &[u32]) -> Result<u64, u32> {
    if frequencies.is_empty() || frequencies.len() > MOST_ENTRIES {
        return Err(1);
    }
    let sum = count(frequencies);
    if sum > u64::from(COUNT_LIMIT) {
        return Err(3);
    }
    Ok(sum)
}

/// Refusals 1 and 3 by themselves.
pub fn list_fault(frequencies: &[u32]) -> Result<(), u32> {
    list_sum(frequencies).map(|_| ())
}
