//! Times of searches, of running totals and of worksheets, beside the same algorithms in Rust and the single call in a
//! loop.

use super::clock::{measure, ratio, shown, timed, Row, Run};
use super::lists::{ranges, restless, List};
use super::table::{grouped, Table};
use super::times::{Case, PEER};
use crate::generate::Random;
use crate::program::Program;
use crate::search::MOST_RANGES;
use std::hint::black_box;

/// The sizes of the worksheets, in ranges: one lesson's, and one that leaves the tests of the histogram far behind.
const SIZES: [usize; 2] = [40, 10_000];

const HEAD: [&str; 9] =
    ["call", "list", "theta", "buckets", "ranges", "proved", "Rust", "proved / Rust", "single calls / proved"];

fn cells(call: &str, case: &Case, ranges: &str) -> Vec<String> {
    let [list, theta, buckets] = case.about();
    vec![call.to_string(), list, theta, buckets, ranges.to_string()]
}

/// The running totals of a case.
fn filled(program: &dyn Program, case: &Case) -> Vec<u64> {
    let mut totals = vec![0; case.buckets() + 1];
    assert_eq!(program.fill_totals(&case.words, &mut totals).places, totals.len(), "all places are written");
    totals
}

fn fill<'a>(proved: &'a dyn Program, case: &'a Case) -> Row<'a> {
    let run = |program: &'a dyn Program| -> Run<'a> {
        assert!(filled(program, case) == filled(&PEER, case), "the sides fill alike");
        let mut lent = vec![0; case.buckets() + 1];
        Box::new(move || {
            lent.fill(0);
            timed(|| program.fill_totals(&case.words, &mut lent))
        })
    };
    Row::new(cells("fill_totals", case, ""), vec![run(proved), run(&PEER)], 1)
}

/// The single call for each range, one after the other.
fn one_by_one<'a>(proved: &'a dyn Program, case: &'a Case, ranges: Vec<u32>) -> Run<'a> {
    Box::new(move || {
        timed(|| {
            for &[x, y] in ranges.as_chunks::<2>().0 {
                black_box(proved.estimate(&case.words, x, y));
            }
        })
    })
}

/// The most ranges that a search may have, with ends anywhere in the list.
fn search<'a>(proved: &'a dyn Program, case: &'a Case) -> Row<'a> {
    let mut random = Random::new(6);
    let mut ranges: Vec<u32> =
        (0..2 * MOST_RANGES).map(|_| random.between(0, case.list.entries().into()) as u32).collect();
    ranges.sort();
    let estimate = |&[x, y]: &[u32; 2]| proved.estimate(&case.words, x, y).estimate;
    let sum: u64 = ranges.as_chunks().0.iter().map(estimate).sum();
    let run = |program: &'a dyn Program| -> Run<'a> {
        let ranges = ranges.clone();
        assert_eq!(program.estimate_search(&case.words, &ranges).estimate, sum, "a search is the sum of single calls");
        Box::new(move || timed(|| program.estimate_search(&case.words, &ranges)))
    };
    let sides = vec![run(proved), run(&PEER), one_by_one(proved, case, ranges.clone())];
    Row::new(cells("estimate_search", case, &grouped(MOST_RANGES as u64)), sides, 1)
}

fn answer<'a>(proved: &'a dyn Program, case: &'a Case, size: usize) -> Row<'a> {
    let worksheet: Vec<u32> = ranges(3, case.list.entries(), size).into_iter().flat_map(|(x, y)| [x, y]).collect();
    let (totals, single) = (filled(proved, case), worksheet.clone());
    let (pairs, _) = single.as_chunks::<2>();
    let estimates: Vec<u64> = pairs.iter().map(|&[x, y]| proved.estimate(&case.words, x, y).estimate).collect();
    let run = |program: &'a dyn Program| -> Run<'a> {
        let (totals, worksheet, mut lent) = (totals.clone(), worksheet.clone(), vec![0; size]);
        program.answer_worksheet(&case.words, &totals, &worksheet, &mut lent);
        assert!(lent == estimates, "a worksheet is answered as by single calls");
        Box::new(move || {
            lent.fill(0);
            timed(|| program.answer_worksheet(&case.words, &totals, &worksheet, &mut lent))
        })
    };
    let sides = vec![run(proved), run(&PEER), one_by_one(proved, case, single)];
    Row::new(cells("answer_worksheet", case, &grouped(size as u64)), sides, 1)
}

fn explain() {
    println!(
        "\
Times of a search of sixteen ranges with q 2, of a whole worksheet, and of the running totals that it needs, measured
as above; the lent places are set to 0 before each run. \"single calls\" is the proved estimate for each of the ranges,
one after the other.
"
    );
}

pub fn print(proved: &impl Program, lists: &[List]) {
    let restless = restless();
    let real = lists.iter().find(|list| list.name == "es-rv1909");
    let cases: Vec<Case> = [(Some(&restless), 1), (real, 20)]
        .into_iter()
        .filter_map(|(list, theta)| list.map(|list| Case::new(proved, list, theta)))
        .collect();
    let mut rows: Vec<Row> = cases.iter().map(|case| search(proved, case)).collect();
    rows.extend(cases.iter().map(|case| fill(proved, case)));
    rows.extend(cases.iter().flat_map(|case| SIZES.map(|size| answer(proved, case, size))));
    measure(&mut rows);
    explain();
    let mut table = Table::new(HEAD.map(String::from).to_vec());
    for row in &rows {
        let nanos = row.nanos();
        let mut cells = row.cells.clone();
        cells.extend([shown(nanos[0]), shown(nanos[1]), ratio(nanos[0], nanos[1])]);
        cells.push(nanos.get(2).map_or(String::new(), |&single| ratio(single, nanos[0])));
        table.add(cells);
    }
    table.print(2);
}
