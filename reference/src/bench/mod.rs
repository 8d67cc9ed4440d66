//! The benchmark: times of the proved calls beside the same algorithms in Rust, of the builder beside the paper's
//! Figure 6 and of the checker beside one that tries every pair of ends too, of searches and worksheets beside single
//! calls, of journals, and what the histograms are worth beside others of the same size. It measures and fails by no
//! time; that the sides answer alike is asserted.

mod builds;
mod checks;
mod clock;
mod journals;
mod lists;
pub mod peer;
mod quality;
mod rivals;
mod table;
mod times;
mod worksheets;

use crate::program::Program;
pub use lists::List;

/// Prints the tables, as Markdown.
pub fn run(proved: &impl Program, real: Vec<List>) {
    println!("{}\n", machine());
    let lists = lists::all(real);
    times::print(proved, &lists);
    println!();
    builds::print(proved, &lists);
    println!();
    checks::print(proved, &lists);
    println!();
    worksheets::print(proved, &lists);
    println!();
    journals::print(proved);
    println!();
    quality::print(proved, &lists);
}

/// The kind of machine and the compiler.
fn machine() -> String {
    let text = std::fs::read_to_string("/proc/cpuinfo").unwrap_or_default();
    let value = |line: &str| line.split_once(':').map(|(_, value)| value.trim().to_string());
    let model = text.lines().find(|line| line.starts_with("model name")).and_then(value);
    let model = model.unwrap_or("a processor that does not tell its name".to_string());
    let cores = text.lines().filter(|line| line.starts_with("processor")).count();
    format!("Machine: {model}, {cores} cores. Compiler of the Rust side: {}.", env!("COMPILER"))
}
