//! Compares the linked program and its listing program with the reference, on generated lists and on those given.
//!
//! compare SEED SHEET LIST.freq ...

use reference::compare::{Comparison, Volume};
use reference::linked::Linked;
use std::process::ExitCode;

fn numbers(path: &str) -> Result<Vec<u32>, String> {
    let text = std::fs::read_to_string(path).map_err(|error| format!("{path}: {error}"))?;
    let numbers: Result<Vec<u32>, _> = text.lines().map(str::parse).collect();
    let numbers = numbers.map_err(|error| format!("{path}: {error}"))?;
    println!("real list {path}: {} entries", numbers.len());
    Ok(numbers)
}

fn compare() -> Result<bool, String> {
    let arguments: Vec<String> = std::env::args().skip(1).collect();
    let [seed, sheet, paths @ ..] = &arguments[..] else {
        return Err("compare SEED SHEET LIST.freq ...".to_string());
    };
    let seed: u64 = seed.parse().map_err(|error| format!("{seed}: {error}"))?;
    println!("seed {seed}, the linked program against the reference");
    let real: Result<Vec<Vec<u32>>, String> = paths.iter().map(|path| numbers(path)).collect();
    let mut out = std::io::stdout();
    let linked = Linked { listing_program: Some(sheet) };
    Ok(Comparison::new(&linked, Volume::FULL, seed, real?, &mut out).run())
}

fn main() -> ExitCode {
    match compare() {
        Ok(true) => ExitCode::SUCCESS,
        Ok(false) => ExitCode::FAILURE,
        Err(text) => {
            eprintln!("{text}");
            ExitCode::from(2)
        }
    }
}
