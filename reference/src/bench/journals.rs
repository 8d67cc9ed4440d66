//! Times of replaying journals, beside the same algorithm in Rust.

use super::clock::{measure, ratio, shown, timed, Row, Run};
use super::table::{grouped, Table};
use super::times::PEER;
use crate::generate::journals::Journal;
use crate::generate::Random;
use crate::list::MOST_ENTRIES;
use crate::program::{Program, QhReplayed};

const ENTRIES: [usize; 2] = [4_096, MOST_ENTRIES];
const LINES: [usize; 3] = [40, 4_096, 65_536];

const HEAD: [&str; 8] = ["call", "answer", "entries", "lines", "proved", "Rust", "proved / Rust", "proved, a line"];

/// Books added to any entry or withdrawn, up to nine at a time.
fn journal(entries: usize, number: usize) -> Journal {
    let mut random = Random::new(8);
    let frequencies: Vec<u32> = (0..entries).map(|_| random.between(1, 100) as u32).collect();
    let mut after = frequencies.clone();
    let line = |_| {
        let entry = random.place(&after);
        let least = -(after[entry].min(9) as i32);
        let change = least + random.below((10 - least) as u64) as i32;
        after[entry] = after[entry].saturating_add_signed(change);
        (entry as u32, change)
    };
    let lines: Vec<(u32, i32)> = (0..number).map(line).collect();
    Journal::new(&frequencies, lines)
}

/// The same, with a last line that is refused.
fn refused_at_the_end(mut journal: Journal) -> Journal {
    journal.changes.pop();
    journal.changes.push(i32::MIN);
    journal
}

/// The answer, and what is left of the list.
fn replayed(program: &dyn Program, journal: &Journal) -> (QhReplayed, Vec<u32>) {
    let mut list = journal.frequencies.clone();
    (program.replay_journal(&mut list, &journal.entries, &journal.changes), list)
}

fn row<'a>(proved: &'a dyn Program, journal: &'a Journal) -> Row<'a> {
    let Journal { frequencies, entries, changes } = journal;
    let (answer, after) = replayed(proved, journal);
    let run = |program: &'a dyn Program| -> Run<'a> {
        assert!(replayed(program, journal) == (answer, after.clone()), "the sides answer alike");
        let mut list = frequencies.clone();
        Box::new(move || {
            list.copy_from_slice(frequencies);
            timed(|| program.replay_journal(&mut list, entries, changes))
        })
    };
    let outcome = match answer.refusal {
        0 => "replayed".to_string(),
        refusal => format!("refused with {refusal}"),
    };
    let [entries, lines] = [frequencies, entries].map(|list| grouped(list.len() as u64));
    Row::new(vec!["replay_journal".to_string(), outcome, entries, lines], vec![run(proved), run(&PEER)], 1)
}

fn explain() {
    println!(
        "\
Times of replaying a journal, measured as above; the list, of frequencies from 1 to 100, is restored before each run,
outside of the time. Lines add up to nine books to any entry or withdraw as many; the journal that is refused breaks a
bound with its last line. \"a line\" is the proved time divided by the number of lines.
"
    );
}

pub fn print(proved: &impl Program) {
    let sizes = ENTRIES.into_iter().flat_map(|entries| LINES.map(|lines| (entries, lines)));
    let mut journals: Vec<Journal> = sizes.map(|(entries, lines)| journal(entries, lines)).collect();
    journals.extend(journals.last().cloned().map(refused_at_the_end));
    let mut rows: Vec<Row> = journals.iter().map(|journal| row(proved, journal)).collect();
    measure(&mut rows);
    explain();
    let mut table = Table::new(HEAD.map(String::from).to_vec());
    for (row, journal) in rows.iter().zip(&journals) {
        let nanos = row.nanos();
        let mut cells = row.cells.clone();
        cells.extend([shown(nanos[0]), shown(nanos[1]), ratio(nanos[0], nanos[1])]);
        cells.push(shown(nanos[0] / journal.entries.len() as f64));
        table.add(cells);
    }
    table.print(2);
}
