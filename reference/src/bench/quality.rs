//! What a histogram is worth: its size, and the largest factors seen beside those promised and those of rivals.

use super::lists::{ranges, List};
use super::rivals::{Rival, BYTES_OF_DEPTH, BYTES_OF_WIDTH};
use super::table::{grouped, Table};
use super::times::built;
use crate::coding::code_number;
use crate::estimate::exact_of;
use crate::list::{running_sums, Bound};
use crate::program::Program;
use crate::sharper::Sharper;
use crate::words::{read, Bucket};

const THETAS: [u32; 3] = [20, 100, 1_000];
const KS: [u32; 3] = [3, 12, 100];
const RANGES: usize = 200_000;

/// One range in so many is asked of the proved estimator too.
const ASKED: usize = 1_000;

/// A histogram beside the sums of its totals: estimates as the estimator's, without a walk over all words for each.
struct Summed {
    buckets: Vec<Bucket>,
    totals: Vec<u64>,
}

impl Summed {
    fn new(words: &[u32]) -> Summed {
        let buckets = read(words).expect("a built histogram reads well").buckets;
        let totals = running_sums(buckets.iter().map(|bucket| code_number(bucket.total).into()));
        Summed { buckets, totals }
    }

    /// The estimate of a range that is not empty.
    fn estimate(&self, x: u32, y: u32) -> u64 {
        self.rounded_up(x, y).max(1)
    }

    /// Whole buckets may be added after rounding.
    fn rounded_up(&self, x: u32, y: u32) -> u64 {
        let bucket_of = |entry: u32| self.buckets.partition_point(|bucket| bucket.start <= entry) - 1;
        let (first, last) = (bucket_of(x), bucket_of(y - 1));
        if first == last {
            return exact_of(&self.buckets[first..=last], x, y).rounded_up();
        }
        let ends = [self.buckets[first], self.buckets[last]];
        exact_of(&ends, x, y).rounded_up() + self.totals[last] - self.totals[first + 1]
    }
}

/// The largest factor for each k: count over estimate, or estimate less 1 over count, where one is above k theta.
fn largest(theta: u32, sums: &[u64], ranges: &[(u32, u32)], estimate: impl Fn(u32, u32) -> u64) -> [f64; KS.len()] {
    let mut largest = [1.0; KS.len()];
    for &(x, y) in ranges {
        let (count, answer) = (sums[y as usize] - sums[x as usize], estimate(x, y));
        let factor = (count as f64 / answer as f64).max((answer as f64 - 1.0) / count as f64);
        for (k, largest) in KS.into_iter().zip(&mut largest) {
            if count.max(answer) > u64::from(k) * u64::from(theta) && factor > *largest {
                *largest = factor;
            }
        }
    }
    largest
}

fn shown(factor: f64) -> String {
    match factor {
        0.0..100.0 => format!("{factor:.2}"),
        f64::INFINITY => "infinite".to_string(),
        _ => grouped(factor.round() as u64),
    }
}

/// One row: the histogram and its rivals on the same ranges.
fn row(proved: &dyn Program, list: &List, theta: u32) -> Vec<String> {
    let words = built(proved, &list.frequencies, Bound::new(theta, 2, 1));
    let (summed, sums) = (Summed::new(&words), running_sums(list.frequencies.iter().map(|&count| count.into())));
    let ranges = ranges(7, list.entries(), RANGES);
    for &(x, y) in ranges.iter().step_by(ASKED) {
        assert_eq!(proved.estimate(&words, x, y).estimate, summed.estimate(x, y), "the estimator's own answer");
    }
    let bytes = 4 * words.len();
    let (depth, width) = (Rival::equi_depth(&sums, bytes), Rival::equi_width(&sums, bytes));
    let ours = largest(theta, &sums, &ranges, |x, y| summed.estimate(x, y));
    let depth = largest(theta, &sums, &ranges, |x, y| depth.estimate(x, y));
    let width = largest(theta, &sums, &ranges, |x, y| width.estimate(x, y));
    let share = 100.0 * words.len() as f64 / list.frequencies.len() as f64;
    let mut row = vec![list.name.clone(), grouped(theta.into()), grouped(bytes as u64), format!("{share:.1} %")];
    for place in 0..KS.len() {
        row.extend([ours, depth, width].map(|factors| shown(factors[place])));
    }
    row
}

/// How it is measured, for the reader of the table.
fn explain() {
    println!(
        "\
Sizes, and the largest factor seen between count and estimate, with q 2: count / estimate or (estimate - 1) / count,
over {ranges} ranges of all lengths, of which those are taken where one of the two is above 3, 12 or 100 times theta.
The factor promised there is proved, of the builder's own histograms; that of a rival is infinite where its estimate is
above and the count is 0. A list has 4 bytes a frequency. The two rivals have the same bytes and no head: equi-depth
{BYTES_OF_DEPTH} bytes a bucket (2 for a boundary, 4 for an exact count), equi-width {BYTES_OF_WIDTH} (an exact count;
the boundaries follow). Both give of a cut bucket the share by length, and round up once.
",
        ranges = grouped(RANGES as u64)
    );
}

pub fn print(proved: &dyn Program, lists: &[List]) {
    let mut head: Vec<String> = ["list", "theta", "bytes", "of the list"].map(String::from).to_vec();
    for k in KS {
        let promised = Sharper { bound: Bound::new(1, 2, 1), k: k.into() }.promise();
        let promised = format!("{promised:.4}");
        let promised = promised.trim_end_matches('0').trim_end_matches('.');
        head.push(format!("above {k} theta, promised {promised}"));
        head.extend(["equi-depth", "equi-width"].map(String::from));
    }
    let mut table = Table::new(head);
    for list in lists {
        for theta in THETAS {
            table.add(row(proved, list, theta));
        }
    }
    explain();
    table.print(1);
}
