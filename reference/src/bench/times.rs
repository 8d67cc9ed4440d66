//! Times of the proved calls beside the same algorithms in Rust; `builds`, `checks`, `worksheets` and `journals` have
//! the others.

use super::clock::{measure, timed, Row, Run, PASSES, ROUNDS};
use super::lists::{ranges, restless, List};
use super::peer::{Peer, Ranges};
use super::table::{grouped, Table};
use crate::generate::Random;
use crate::list::{Bound, COUNT_LIMIT};
use crate::program::{Program, QhCoded};
use std::hint::black_box;
use std::time::Duration;

/// How many counts are coded in one run: more than a processor learns by heart.
const CODED: usize = 100_000;

/// How many ranges or entries are asked for in one run.
const ASKED: usize = 64;

/// A run of short calls goes on for about as long.
const LEAST_RUN: Duration = Duration::from_millis(1);

pub const PEER: Peer = Peer(Ranges::Fewer);

const HEAD: [&str; 7] = ["call", "list", "theta", "buckets", "proved", "Rust", "proved / Rust"];

/// A list with its histogram.
pub struct Case<'a> {
    pub list: &'a List,
    pub bound: Bound,
    pub words: Vec<u32>,
}

impl<'a> Case<'a> {
    pub fn new(proved: &dyn Program, list: &'a List, theta: u32) -> Case<'a> {
        let bound = Bound::new(theta, 2, 1);
        Case { list, bound, words: built(proved, &list.frequencies, bound) }
    }

    /// The list's name, theta and the number of buckets.
    pub fn about(&self) -> [String; 3] {
        [self.list.name.clone(), grouped(self.bound.theta.into()), grouped(self.buckets() as u64)]
    }

    pub fn buckets(&self) -> usize {
        buckets(&self.words)
    }
}

pub fn buckets(words: &[u32]) -> usize {
    (words.len() - 4) / 5
}

/// The words that a program builds.
pub fn built(program: &dyn Program, frequencies: &[u32], bound: Bound) -> Vec<u32> {
    let mut words = vec![0; 4 + 5 * frequencies.len().div_ceil(8)];
    let answer = program.build(frequencies, bound, &mut words);
    assert_eq!(answer.refusal, 0, "the list is built");
    words.truncate(answer.words);
    words
}

/// Static calls on both sides, so that a call through a table of functions does not hide what is measured.
fn coding<'a>(
    call: &str,
    inputs: &'a [u32],
    proved: impl Fn(u32) -> QhCoded + 'a,
    peer: impl Fn(u32) -> QhCoded + 'a,
) -> Row<'a> {
    fn run<'a>(inputs: &'a [u32], call: impl Fn(u32) -> QhCoded + 'a) -> Run<'a> {
        Box::new(move || {
            timed(|| {
                for &input in inputs {
                    black_box(call(input));
                }
            })
        })
    }
    assert!(inputs.iter().all(|&input| proved(input) == peer(input)), "{call}: the sides answer alike");
    let cells = [call, "counts of all sizes", "", ""].map(String::from).to_vec();
    Row::new(cells, vec![run(inputs, proved), run(inputs, peer)], inputs.len())
}

/// Counts, their classes and their codes.
fn codes() -> [Vec<u32>; 3] {
    let mut random = Random::new(5);
    let counts: Vec<u32> = (0..CODED).map(|_| random.any_size(COUNT_LIMIT.into()) as u32).collect();
    let classes = counts.iter().map(|&count| PEER.class_of(count).value).collect();
    let codes = counts.iter().map(|&count| PEER.code_of_total(count).value).collect();
    [counts, classes, codes]
}

fn codings<'a, P: Program>(proved: &'a P, [counts, classes, codes]: &'a [Vec<u32>; 3]) -> [Row<'a>; 4] {
    [
        coding("class_of", counts, |c| proved.class_of(c), |c| PEER.class_of(c)),
        coding("number_of_class", classes, |c| proved.number_of_class(c), |c| PEER.number_of_class(c)),
        coding("code_of_total", counts, |c| proved.code_of_total(c), |c| PEER.code_of_total(c)),
        coding("number_of_total", codes, |c| proved.number_of_total(c), |c| PEER.number_of_total(c)),
    ]
}

/// A question to a histogram.
type Ask<Q> = fn(&dyn Program, &[u32], Q) -> u64;

/// Asks each question in turn, and all of them as often as a run needs.
fn asking<'a, Q: Copy + 'a>(
    proved: &'a dyn Program,
    call: &str,
    case: &'a Case,
    questions: Vec<Q>,
    ask: Ask<Q>,
) -> Row<'a> {
    let words = &case.words[..];
    let alike = |&question: &Q| ask(proved, words, question) == ask(&PEER, words, question);
    assert!(questions.iter().all(alike), "{call}: the sides answer alike");
    let all = move |program: &dyn Program, questions: &[Q]| {
        for &question in questions {
            black_box(ask(program, words, question));
        }
    };
    let once = timed(|| all(&PEER, &questions));
    let repeats = LEAST_RUN.as_nanos().div_ceil(once.as_nanos().max(1)) as usize;
    let run = |program: &'a dyn Program| -> Run<'a> {
        let questions = questions.clone();
        Box::new(move || timed(|| (0..repeats).for_each(|_| all(program, &questions))))
    };
    let cells = [&[call.to_string()], &case.about()[..]].concat();
    Row::new(cells, vec![run(proved), run(&PEER)], repeats * questions.len())
}

fn estimate<'a>(proved: &'a dyn Program, case: &'a Case) -> Row<'a> {
    let ranges = ranges(3, case.list.entries(), ASKED);
    asking(proved, "estimate", case, ranges, |program, words, (x, y)| program.estimate(words, x, y).estimate)
}

fn find<'a>(proved: &'a dyn Program, case: &'a Case) -> Row<'a> {
    let mut random = Random::new(4);
    let entries = (0..ASKED).map(|_| random.below(case.list.entries().into()) as u32).collect();
    asking(proved, "find", case, entries, |program, words, entry| program.find(words, entry).at as u64)
}

/// How it is measured, for the reader of the table.
fn explain() {
    println!(
        "\
Times of one call with q 2: the shortest of at least {runs} runs of each side, spread over {PASSES} passes through
all rows. The sides of a row take turns in one process. \"proved\" is the library; \"Rust\" is the same algorithm in
Rust, optimised as a whole and without overflow checks. All sides answer alike, and are called and not inlined into the
caller. These calls only read, and what they read stays in the cache. A run of a coding has {coded} calls, one of
estimate or find has {ASKED} ranges or entries, repeated for a millisecond. \"flat\" has 65,536 frequencies of 10,
\"random\" as many of 1 to 100, \"steep\" as many that fall as 60,000,000 / rank, \"sparse\" as many of which 99 in 100
are 0 and the others 1 to 100, and \"restless\" as many of 1 and 1,000 in turn, so that with a small theta each
bucketlet has one entry.
",
        runs = PASSES * ROUNDS,
        coded = grouped(CODED as u64)
    );
}

pub fn print<P: Program>(proved: &P, lists: &[List]) {
    let (codes, restless) = (codes(), restless());
    let cases: Vec<Case> = lists.iter().map(|list| Case::new(proved, list, 100)).collect();
    let most_buckets = Case::new(proved, &restless, 1);
    let mut rows = Vec::from(codings(proved, &codes));
    rows.extend(cases.iter().chain([&most_buckets]).map(|case| estimate(proved, case)));
    rows.push(find(proved, &most_buckets));
    measure(&mut rows);
    explain();
    let mut table = Table::new(HEAD.map(String::from).to_vec());
    rows.iter().for_each(|row| table.add(row.compared()));
    table.print(2);
}
