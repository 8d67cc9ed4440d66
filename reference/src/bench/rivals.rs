//! Equi-width and equi-depth histograms, to compare with. They are given their best: counts are exact, boundaries take
//! no more bytes than a list of 65,536 entries needs, and there is no head.

/// Buckets with exact counts; a cut bucket gives its share by length.
pub struct Rival {
    /// Where each bucket starts, and the end of the last.
    bounds: Vec<u32>,
    /// The count before each of them.
    before: Vec<u64>,
}

/// A 32-bit count; the boundaries follow from the number of buckets.
pub const BYTES_OF_WIDTH: usize = 4;

/// A 32-bit count and a 16-bit boundary.
pub const BYTES_OF_DEPTH: usize = 6;

impl Rival {
    /// Buckets of equal numbers of entries, as many as fit in the bytes.
    pub fn equi_width(sums: &[u64], bytes: usize) -> Rival {
        let entries = sums.len() as u64 - 1;
        let buckets = (bytes as u64 / BYTES_OF_WIDTH as u64).clamp(1, entries);
        let bounds = (0..=buckets).map(|bucket| (bucket * entries / buckets) as u32).collect();
        Rival::new(bounds, sums)
    }

    /// Buckets of nearly equal counts: each ends where it comes closest to its share of what is left, so that a large
    /// frequency does not use up the buckets of others.
    pub fn equi_depth(sums: &[u64], bytes: usize) -> Rival {
        let entries = sums.len() - 1;
        let buckets = (bytes / BYTES_OF_DEPTH).clamp(1, entries);
        let mut bounds = vec![0];
        let mut start = 0;
        for left in (1..=buckets).rev() {
            let share = (sums[entries] - sums[start]).div_ceil(left as u64);
            let goal = sums[start] + share;
            let after = sums.partition_point(|&sum| sum < goal);
            let closer_before = after > 0 && goal - sums[after - 1] < sums[after] - goal;
            let nearest = if closer_before { after - 1 } else { after };
            // Each bucket has an entry, and leaves one for each that follows.
            start = nearest.clamp(start + 1, entries + 1 - left);
            bounds.push(start as u32);
        }
        bounds[buckets] = entries as u32;
        Rival::new(bounds, sums)
    }

    fn new(bounds: Vec<u32>, sums: &[u64]) -> Rival {
        let before = bounds.iter().map(|&bound| sums[bound as usize]).collect();
        Rival { bounds, before }
    }

    /// The estimated count of the entries before one, as a fraction.
    fn up_to(&self, entry: u32) -> (u64, u64) {
        let after = self.bounds.partition_point(|&bound| bound <= entry).min(self.bounds.len() - 1);
        let (start, end) = (self.bounds[after - 1], self.bounds[after]);
        let (width, count) = (u64::from(end - start), self.before[after] - self.before[after - 1]);
        (self.before[after - 1] * width + u64::from(entry - start) * count, width)
    }

    /// The estimate of a range, rounded up once.
    pub fn estimate(&self, x: u32, y: u32) -> u64 {
        let ((low, low_width), (high, high_width)) = (self.up_to(x), self.up_to(y));
        let wide = |a: u64, b: u64| u128::from(a) * u128::from(b);
        let top = wide(high, low_width) - wide(low, high_width);
        top.div_ceil(wide(low_width, high_width)) as u64
    }
}
