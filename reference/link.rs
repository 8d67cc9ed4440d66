//! Hands the file that QH_LIBRARY names to the linker, if the feature `linked` is on; and the compiler's name and
//! version to the benchmark, which prints them.

use std::env::var;
use std::process::Command;

fn compiler() -> Option<String> {
    let output = Command::new(var("RUSTC").ok()?).arg("--version").output().ok()?;
    Some(String::from_utf8(output.stdout).ok()?.trim().to_string())
}

fn main() {
    println!("cargo:rustc-env=COMPILER={}", compiler().unwrap_or("unknown".to_string()));
    println!("cargo:rerun-if-changed=link.rs");
    println!("cargo:rerun-if-env-changed=QH_LIBRARY");
    if var("CARGO_FEATURE_LINKED").is_err() {
        return;
    }
    let library = var("QH_LIBRARY").expect("QH_LIBRARY is the path of the library to link");
    println!("cargo:rerun-if-changed={library}");
    println!("cargo:rustc-link-arg={library}");
}
