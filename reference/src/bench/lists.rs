//! The lists that are measured.

use crate::generate::Random;
use crate::list::MOST_ENTRIES;

pub struct List {
    pub name: String,
    pub frequencies: Vec<u32>,
}

impl List {
    fn made(name: &str, frequency: impl FnMut(usize) -> u32) -> List {
        List { name: name.to_string(), frequencies: (0..MOST_ENTRIES).map(frequency).collect() }
    }

    pub fn entries(&self) -> u32 {
        self.frequencies.len() as u32
    }
}

/// Four made lists of 65,536 entries, then the real ones.
pub fn all(real: Vec<List>) -> Vec<List> {
    let (mut random, mut sparse) = (Random::new(1), Random::new(2));
    let mut lists = vec![
        List::made("flat", |_| 10),
        List::made("random", |_| random.between(1, 100) as u32),
        List::made("steep", |rank| 60_000_000 / (rank as u32 + 1)),
        List::made("sparse", |_| if sparse.chance(1, 100) { sparse.between(1, 100) as u32 } else { 0 }),
    ];
    lists.extend(real);
    lists
}

/// A list whose every bucketlet has one entry: with theta 1 and q 2 it has 8,192 buckets, the most there are.
pub fn restless() -> List {
    List::made("restless", |entry| [1, 1_000][entry % 2])
}

/// Ranges of all lengths, short ones as many as long ones.
pub fn ranges(seed: u64, entries: u32, number: usize) -> Vec<(u32, u32)> {
    let mut random = Random::new(seed);
    let range = |_| {
        let length = random.any_size(entries.into());
        let start = random.below(u64::from(entries) - length + 1);
        (start as u32, (start + length) as u32)
    };
    (0..number).map(range).collect()
}
