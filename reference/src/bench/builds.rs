//! Times of building, beside the same algorithm in Rust and beside the paper's Figure 6, and how they grow with a list.

use super::clock::{measure_for, ratio, shown, timed, Row, Run, PASSES};
use super::lists::{restless, List};
use super::peer::{Peer, Ranges};
use super::table::{grouped, Table};
use super::times::{built, Case, PEER};
use crate::program::Program;
use std::time::Duration;

const THETAS: [u32; 5] = [20, 100, 1_000, 4_096, 100_000];

/// With it, too, each bucketlet of the restless list has one entry.
const LEAST_THETA: u32 = 1;

/// Prefixes of these lists are built with this theta.
const GROWING: [&str; 3] = ["flat", "random", "sparse"];
const LENGTHS: [usize; 3] = [4_096, 16_384, 65_536];
const THETA: u32 = 1_000;

/// There are many rows, and in many Figure 6 is slow.
const ROUNDS: u32 = 2;
const LEAST_TIME: Duration = Duration::from_millis(100);

const FIGURE_6: Peer = Peer(Ranges::Every);

const HEAD: [&str; 8] =
    ["list", "theta", "buckets", "proved", "Rust", "proved / Rust", "Figure 6", "proved / Figure 6"];

const GROWING_HEAD: [&str; 7] = ["list", "entries", "buckets", "proved", "for an entry", "Rust", "proved / Rust"];

fn run<'a>(program: &'a dyn Program, case: &'a Case) -> Run<'a> {
    let (frequencies, bound) = (&case.list.frequencies[..], case.bound);
    assert!(built(program, frequencies, bound) == case.words, "the sides build alike");
    let mut lent = vec![0; case.words.len()];
    Box::new(move || {
        lent.fill(0);
        timed(|| program.build(frequencies, bound, &mut lent))
    })
}

fn explain() {
    println!(
        "\
Times of building with q 2, measured as above, with at least {runs} runs of each side; the lent words are set to 0
before each run, outside of the time. \"Rust\" is the same algorithm: after eight widths, for which it tries every
range, it looks for each of two bounds at the range from one start to each new end, and goes over other starts only
where that range moves the bound. \"Figure 6\" is a Rust builder that takes every range to the new end into its two
bounds, as the paper prints it.
",
        runs = PASSES * ROUNDS,
    );
}

fn print_all(proved: &dyn Program, lists: &[List]) {
    let restless = restless();
    let case = |list, theta| Case::new(proved, list, theta);
    let mut cases: Vec<Case> =
        lists.iter().chain([&restless]).flat_map(|list| THETAS.map(|theta| case(list, theta))).collect();
    cases.insert(THETAS.len() * lists.len(), case(&restless, LEAST_THETA));
    let row =
        |case| Row::new(Case::about(case).to_vec(), vec![run(proved, case), run(&PEER, case), run(&FIGURE_6, case)], 1);
    let mut rows: Vec<Row> = cases.iter().map(row).collect();
    measure_for(&mut rows, ROUNDS, LEAST_TIME);
    explain();
    let mut table = Table::new(HEAD.map(String::from).to_vec());
    rows.iter().for_each(|row| table.add(row.compared()));
    table.print(1);
}

fn print_growing(proved: &dyn Program, lists: &[List]) {
    let prefix =
        |list: &List, length: usize| List { name: list.name.clone(), frequencies: list.frequencies[..length].to_vec() };
    let growing = lists.iter().filter(|list| GROWING.contains(&&list.name[..]));
    let prefixes: Vec<List> = growing.flat_map(|list| LENGTHS.map(|length| prefix(list, length))).collect();
    let cases: Vec<Case> = prefixes.iter().map(|list| Case::new(proved, list, THETA)).collect();
    let row = |case| {
        let [list, _, buckets] = Case::about(case);
        let cells = vec![list, grouped(case.list.entries().into()), buckets];
        Row::new(cells, vec![run(proved, case), run(&PEER, case)], 1)
    };
    let mut rows: Vec<Row> = cases.iter().map(row).collect();
    measure_for(&mut rows, ROUNDS, LEAST_TIME);
    println!(
        "\
How the time grows: the first 4,096, 16,384 and all 65,536 entries of three of the lists, built with theta {theta} and
measured in the same way; \"for an entry\" is the proved time divided by the entries.
",
        theta = grouped(THETA.into()),
    );
    let mut table = Table::new(GROWING_HEAD.map(String::from).to_vec());
    for (row, case) in rows.iter().zip(&cases) {
        let (nanos, entries) = (row.nanos(), f64::from(case.list.entries()));
        let times = [shown(nanos[0]), shown(nanos[0] / entries), shown(nanos[1]), ratio(nanos[0], nanos[1])];
        table.add([&row.cells[..], &times].concat());
    }
    table.print(1);
}

pub fn print(proved: &impl Program, lists: &[List]) {
    print_all(proved, lists);
    println!();
    print_growing(proved, lists);
}
