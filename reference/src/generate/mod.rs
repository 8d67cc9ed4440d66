//! Deterministic inputs for the comparison.

pub mod bytes;
pub mod damage;
pub mod directed;
pub mod foreign;
pub mod journals;
pub mod lists;
pub mod passes;
pub mod ranges;
pub mod searches;
pub mod sharper;
pub mod slips;
pub mod starts;
pub mod worksheets;

/// Every list of so many numbers below `kinds`.
pub fn every_list(kinds: usize, length: u32) -> impl Iterator<Item = Vec<usize>> {
    (0..kinds.pow(length)).map(move |number| (0..length).map(|place| number / kinds.pow(place) % kinds).collect())
}

/// The first, a middle and the last of so many places.
fn some_places(number: usize) -> Vec<usize> {
    let mut places = vec![0, number / 2, number.saturating_sub(1)];
    places.dedup();
    places.truncate(number);
    places
}

/// Splitmix64: the same seed gives the same numbers everywhere.
#[derive(Clone, Debug)]
pub struct Random(u64);

impl Random {
    pub fn new(seed: u64) -> Random {
        Random(seed)
    }

    pub fn word(&mut self) -> u64 {
        self.0 = self.0.wrapping_add(0x9E37_79B9_7F4A_7C15);
        let mut z = self.0;
        z = (z ^ (z >> 30)).wrapping_mul(0xBF58_476D_1CE4_E5B9);
        z = (z ^ (z >> 27)).wrapping_mul(0x94D0_49BB_1331_11EB);
        z ^ (z >> 31)
    }

    /// A number below n.
    pub fn below(&mut self, n: u64) -> u64 {
        self.word() % n
    }

    /// A number from low to high, both taken in.
    pub fn between(&mut self, low: u64, high: u64) -> u64 {
        low + self.below(high - low + 1)
    }

    /// A place in a list that is not empty.
    pub fn place<T>(&mut self, list: &[T]) -> usize {
        self.below(list.len() as u64) as usize
    }

    pub fn pick<T: Copy>(&mut self, list: &[T]) -> T {
        list[self.place(list)]
    }

    /// True n times out of d.
    pub fn chance(&mut self, n: u64, d: u64) -> bool {
        self.below(d) < n
    }

    /// A number from 1 to high, small ones as likely as large ones.
    pub fn any_size(&mut self, high: u64) -> u64 {
        let bits = self.between(1, u64::from(64 - high.leading_zeros()));
        self.between(1, high.min((1 << bits) - 1))
    }
}
