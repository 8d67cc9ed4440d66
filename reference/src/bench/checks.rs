//! Times of checking histograms, beside the same algorithm in Rust and beside one that tries every pair of ends.

use super::clock::{measure_for, timed, Row, Run, PASSES};
use super::lists::{restless, List};
use super::peer::{Peer, Ranges};
use super::table::{grouped, Table};
use super::times::{buckets, built, PEER};
use crate::list::{Bound, MOST_THETA};
use crate::program::{Program, QhVerdict};
use crate::words::{read, write};
use std::time::Duration;

const THETAS: [u32; 4] = [20, 100, 1_000, 4_096];

/// The theta of the flat list's histogram that other lists are checked by.
const FAILING: u32 = 20;

/// There are many rows, and many have a side that is slow.
const ROUNDS: u32 = 3;
const LEAST_TIME: Duration = Duration::from_millis(100);

const EVERY_PAIR: Peer = Peer(Ranges::Every);

const HEAD: [&str; 9] =
    ["list", "theta", "buckets", "answer", "proved", "Rust", "proved / Rust", "every pair", "proved / every pair"];

/// A list with a histogram, which need not be accepted for it.
struct Case {
    name: String,
    frequencies: Vec<u32>,
    theta: u32,
    words: Vec<u32>,
}

impl Case {
    fn new(proved: &dyn Program, list: &List, theta: u32) -> Case {
        let words = built(proved, &list.frequencies, Bound::new(theta, 2, 1));
        Case { name: list.name.clone(), frequencies: list.frequencies.clone(), theta, words }
    }

    /// The same histogram and the list with one frequency changed.
    fn with(&self, name: &str, place: usize, frequency: u32) -> Case {
        let mut frequencies = self.frequencies.clone();
        frequencies[place] = frequency;
        Case { name: format!("{}, {name}", self.name), frequencies, theta: self.theta, words: self.words.clone() }
    }

    /// A histogram whose theta excuses every part, and whose last bucketlet has a class too far off for the whole.
    fn failing_as_a_whole(&self, name: &str) -> Case {
        let mut histogram = read(&self.words).expect("a built histogram reads well");
        histogram.head.bound.theta = MOST_THETA;
        let last = histogram.buckets.last_mut().expect("a histogram has a bucket");
        let place = last.widths.iter().rposition(|&width| width > 0).expect("a bucket has a bucketlet");
        last.classes[place] += 3;
        let name = format!("{}, {name}", self.name);
        Case { name, frequencies: self.frequencies.clone(), theta: MOST_THETA, words: write(&histogram) }
    }
}

fn answer(verdict: QhVerdict) -> String {
    let QhVerdict { sort, start, end, .. } = verdict;
    let sort = match sort {
        0 => return "accepted".to_string(),
        1 => "bucketlet",
        2 => "part",
        _ => "bucket",
    };
    format!("{sort} {} to {}", grouped(start.into()), grouped(end.into()))
}

fn row<'a>(proved: &'a dyn Program, case: &'a Case) -> Row<'a> {
    let Case { name, frequencies, theta, words } = case;
    let verdict = proved.check(frequencies, words);
    let run = |program: &'a dyn Program| -> Run<'a> {
        assert_eq!(program.check(frequencies, words), verdict, "the sides answer alike");
        Box::new(move || timed(|| program.check(frequencies, words)))
    };
    let cells = vec![name.clone(), grouped((*theta).into()), grouped(buckets(words) as u64), answer(verdict)];
    Row::new(cells, vec![run(proved), run(&PEER), run(&EVERY_PAIR)], 1)
}

/// How many entries the bucketlets of a built histogram have on the average.
fn mean_width(case: &Case) -> f64 {
    let buckets = read(&case.words).expect("a built histogram reads well").buckets;
    let bucketlets: usize = buckets.iter().map(|bucket| bucket.bucketlets().count()).sum();
    case.frequencies.len() as f64 / bucketlets as f64
}

fn explain(cases: &[Case]) {
    let random = |theta: u32| cases.iter().find(|case| case.name == "random" && case.theta == theta);
    let width = |theta: u32| mean_width(random(theta).expect("the random list is among them"));
    println!(
        "\
Times of checking a list by a histogram with q 2, measured as above, with at least {runs} runs of each side. \"Rust\" is
the same algorithm, which goes over a bucketlet from the right, once for each of two bounds, to find the start of the
first range that fails; \"every pair\" is the Rust program that tries every pair of ends instead. Accepted histograms are
the builder's own. The bucketlets of the random list have {narrow:.1} entries on the average with theta 20, and {wider:.1}
with theta 100. The last three rows have the flat list's histogram for theta {FAILING}: \"early\" is the flat list with
1,000 for its first frequency, \"late\" with 30 for its last, which is too much from there and from no entry before it,
and \"whole\" the list as it is, but with the largest theta, which excuses every part, and a class three higher for the
last bucketlet.
",
        runs = PASSES * ROUNDS,
        narrow = width(20),
        wider = width(100),
    );
}

fn cases(proved: &dyn Program, lists: &[List]) -> Vec<Case> {
    let thetas = |list| THETAS.map(|theta| Case::new(proved, list, theta));
    let mut cases: Vec<Case> = lists.iter().flat_map(thetas).collect();
    cases.push(Case::new(proved, &restless(), 1));
    let flat = Case::new(proved, &lists[0], FAILING);
    let last = flat.frequencies.len() - 1;
    cases.extend([flat.with("early", 0, 1_000), flat.with("late", last, 30), flat.failing_as_a_whole("whole")]);
    cases
}

pub fn print(proved: &impl Program, lists: &[List]) {
    let cases = cases(proved, lists);
    let mut rows: Vec<Row> = cases.iter().map(|case| row(proved, case)).collect();
    measure_for(&mut rows, ROUNDS, LEAST_TIME);
    explain(&cases);
    let mut table = Table::new(HEAD.map(String::from).to_vec());
    rows.iter().for_each(|row| table.add(row.compared()));
    table.print(1);
}
