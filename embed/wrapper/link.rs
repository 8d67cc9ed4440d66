//! Links the library libqh.a whose path QH_LIBRARY holds, or says in a sentence why it cannot.

use std::env::{var, VarError};
use std::fs::read;
use std::io::ErrorKind;
use std::path::{Path, PathBuf};

fn target_is(key: &str, value: &str) -> bool {
    var(key).is_ok_and(|found| found == value)
}

fn path() -> Result<PathBuf, String> {
    match var("QH_LIBRARY") {
        Ok(path) if path.is_empty() => Err("QH_LIBRARY is empty".to_string()),
        Ok(path) => Ok(PathBuf::from(path)),
        Err(VarError::NotPresent) => Err("QH_LIBRARY is not set".to_string()),
        Err(VarError::NotUnicode(_)) => Err("QH_LIBRARY is not UTF-8".to_string()),
    }
}

fn content(path: &Path) -> Result<Vec<u8>, String> {
    if path.is_relative() {
        return Err("which is a relative path".to_string()); // cargo runs this in a folder that the caller does not see
    }
    if path.is_dir() {
        return Err("which is a folder".to_string());
    }
    read(path).map_err(|error| match error.kind() {
        ErrorKind::NotFound => "where there is no file".to_string(),
        _ => format!("which cannot be read ({error})"),
    })
}

/// Tests what only the linker would notice, and report at length.
fn test(path: &Path, content: &[u8]) -> Result<(), String> {
    let call = b"qh_build\0";
    let wrong = if path.file_name() != Some("libqh.a".as_ref()) {
        "which is not named libqh.a"
    } else if !content.starts_with(b"!<arch>\n") {
        "which is not an archive"
    } else if !content.windows(call.len()).any(|part| part == call) {
        "which is an archive without qh_build"
    } else {
        return Ok(());
    };
    Err(wrong.to_string())
}

fn library() -> Result<PathBuf, String> {
    let path = path()?;
    let tested = content(&path).and_then(|content| test(&path, &content));
    tested.map_err(|wrong| format!("QH_LIBRARY is {}, {wrong}", path.display()))?;
    Ok(path)
}

fn main() {
    println!("cargo::rerun-if-changed=link.rs");
    println!("cargo::rerun-if-env-changed=QH_LIBRARY");
    if !target_is("CARGO_CFG_TARGET_ARCH", "x86_64") || !target_is("CARGO_CFG_TARGET_OS", "linux") {
        println!("cargo::error=libqh.a links into programs for Linux on x86-64 only.");
        return;
    }
    match library() {
        Ok(library) => {
            let folder = library.parent().expect("an absolute path of a file has a folder");
            println!("cargo::rerun-if-changed={}", library.display());
            println!("cargo::rustc-link-search=native={}", folder.display());
            println!("cargo::rustc-link-lib=static=qh");
        }
        Err(wrong) => println!(
            "cargo::error={wrong}: run embed/build, and set QH_LIBRARY to the absolute path of target/embed/lib/libqh.a."
        ),
    }
}
