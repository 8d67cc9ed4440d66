//! Measures the linked program, on made lists and on those given.
//!
//! bench LIST.freq ...

use reference::bench::{run, List};
use reference::linked::Linked;
use std::path::Path;
use std::process::ExitCode;

fn list(path: &str) -> Result<List, String> {
    let text = std::fs::read_to_string(path).map_err(|error| format!("{path}: {error}"))?;
    let frequencies: Result<Vec<u32>, _> = text.lines().map(str::parse).collect();
    let frequencies = frequencies.map_err(|error| format!("{path}: {error}"))?;
    let name = Path::new(path).file_stem().unwrap_or_default().to_string_lossy().to_string();
    Ok(List { name, frequencies })
}

fn main() -> ExitCode {
    let real: Result<Vec<List>, String> = std::env::args().skip(1).map(|path| list(&path)).collect();
    match real {
        Ok(real) => {
            run(&Linked { listing_program: None }, real);
            ExitCode::SUCCESS
        }
        Err(text) => {
            eprintln!("{text}");
            ExitCode::from(2)
        }
    }
}
