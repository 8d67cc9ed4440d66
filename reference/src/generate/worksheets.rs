//! Worksheets with what they are answered by, good ones and such as are refused.

use super::damage::faulty_words;
use super::ranges::ranges_outside;
use super::Random;
use crate::words::read;
use crate::worksheet::running_totals;

/// What the call that answers is given; `lent` places are for its answers.
#[derive(Clone, Debug)]
pub struct Worksheet {
    pub words: Vec<u32>,
    pub totals: Vec<u64>,
    pub ranges: Vec<u32>,
    pub lent: usize,
}

/// Gives a worksheet with each of some faults.
pub type Faults = fn(&Worksheet) -> Vec<Worksheet>;

/// In the order of their refusals.
pub const FAULTS: [Faults; 4] =
    [Worksheet::of_other_words, Worksheet::short, Worksheet::of_other_totals, Worksheet::outside];

/// A running total that is not as it should be.
const OFF: [fn(&mut u64); 4] = [
    |total| *total = total.wrapping_add(1),
    |total| *total = total.wrapping_sub(1),
    |total| *total ^= 1 << 32,
    |total| *total ^= 1 << 63,
];

impl Worksheet {
    /// With as many places as are needed. Words that are refused have no totals; some stand in.
    pub fn new(words: &[u32], ranges: impl IntoIterator<Item = (u32, u32)>) -> Worksheet {
        let totals = read(words).map_or(vec![0; 4], |histogram| running_totals(&histogram));
        let ranges: Vec<u32> = ranges.into_iter().flat_map(|(x, y)| [x, y]).collect();
        Worksheet { words: words.to_vec(), totals, lent: ranges.len() / 2, ranges }
    }

    /// With places past those needed, which may hold anything.
    pub fn roomy(&self, random: &mut Random) -> Worksheet {
        let mut roomy = self.clone();
        roomy.totals.extend((0..random.between(1, 3)).map(|_| random.word()));
        roomy.lent += random.between(1, 3) as usize;
        roomy
    }

    fn changed(&self, change: impl FnOnce(&mut Worksheet)) -> Worksheet {
        let mut changed = self.clone();
        change(&mut changed);
        changed
    }

    /// What 7, 24 and 8 to 12 name.
    fn of_other_words(&self) -> Vec<Worksheet> {
        faulty_words(&self.words).map(|words| Worksheet { words, ..self.clone() }).collect()
    }

    /// What 19 names.
    fn short(&self) -> Vec<Worksheet> {
        let (needed, answers) = (self.words[3] as usize + 1, self.ranges.len() / 2);
        let lengths = |(totals, lent): (usize, usize)| {
            self.changed(|worksheet| {
                worksheet.totals.truncate(totals);
                worksheet.lent = lent;
            })
        };
        let fewer = answers.saturating_sub(1);
        Vec::from([(needed - 1, self.lent), (0, self.lent), (needed, fewer), (needed, 0), (0, fewer)].map(lengths))
    }

    /// What 20 names: the first place, one in the middle and the last, each off by one or in a high bit; and totals
    /// that are right from neighbour to neighbour, that stand a place too early, and that are all 0.
    fn of_other_totals(&self) -> Vec<Worksheet> {
        let buckets = self.words[3] as usize;
        let mut all = Vec::new();
        for place in [0, buckets.div_ceil(2), buckets] {
            all.extend(OFF.map(|off| self.changed(|worksheet| off(&mut worksheet.totals[place]))));
        }
        all.push(self.changed(|worksheet| worksheet.totals.iter_mut().for_each(OFF[0])));
        all.push(self.changed(|worksheet| worksheet.totals[..=buckets].rotate_left(1)));
        all.push(self.changed(|worksheet| worksheet.totals.fill(0)));
        all
    }

    /// What 21 names: a word too many or too few, and a range outside at the first, a middle and the last place.
    fn outside(&self) -> Vec<Worksheet> {
        let left_over = |word: u32| self.changed(|worksheet| worksheet.ranges.push(word));
        let mut all = vec![left_over(0), left_over(u32::MAX)];
        let answers = self.ranges.len() / 2;
        if answers == 0 {
            return all;
        }
        all.push(self.changed(|worksheet| worksheet.ranges.truncate(2 * answers - 1)));
        for place in [0, answers / 2, answers - 1] {
            let instead = |(x, y): (u32, u32)| {
                self.changed(|worksheet| worksheet.ranges[2 * place..2 * place + 2].copy_from_slice(&[x, y]))
            };
            all.extend(ranges_outside(self.words[0]).map(instead));
        }
        all
    }
}
