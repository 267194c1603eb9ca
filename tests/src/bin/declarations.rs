//! Holds the declarations of every export to each other: the Rattle source, include/fdfa.h and the tests' Rust.
//!
//! declarations [REPOSITORY]   prints each function that the three agree on; it fails where anything differs, or nothing is found

use outside::declarations::{differences, Sources};
use std::path::{Path, PathBuf};
use std::process::ExitCode;
use std::{env, fs};

fn main() -> ExitCode {
    let root = env::args().nth(1).unwrap_or_else(|| concat!(env!("CARGO_MANIFEST_DIR"), "/..").to_string());
    match compared(Path::new(&root)) {
        Ok(()) => ExitCode::SUCCESS,
        Err(fault) => {
            println!("FAILED: {fault}");
            ExitCode::FAILURE
        }
    }
}

fn compared(root: &Path) -> Result<(), String> {
    let sources = Sources {
        exports: exports(&root.join("crates"))?,
        header: text(&root.join("include/fdfa.h"))?,
        declared: text(&root.join("tests/src/library/declared.rs"))?,
        constants: text(&root.join("tests/src/layout.rs"))?,
    };
    let read = sources.read()?;
    let faults = differences(&read);
    if !faults.is_empty() {
        return Err(faults.join("\n"));
    }
    let [_, header, _] = &read;
    for function in &header.functions {
        println!("{function}");
    }
    println!("{} functions and {} constants agree", header.functions.len(), header.constants.len());
    Ok(())
}

/// The Rattle source of every crate that has exports.
fn exports(crates: &Path) -> Result<String, String> {
    let mut files = Vec::new();
    for folder in entries(crates)? {
        let source = folder.join("src");
        if source.is_dir() {
            files.extend(entries(&source)?.into_iter().filter(|file| file.extension().is_some_and(|end| end == "rt")));
        }
    }
    let texts = files.iter().map(|file| text(file)).collect::<Result<Vec<_>, _>>()?;
    Ok(texts.into_iter().filter(|text| text.contains("no_mangle") || text.contains("extern \"C\"")).collect())
}

fn entries(folder: &Path) -> Result<Vec<PathBuf>, String> {
    let told = |fault: std::io::Error| format!("{}: {fault}", folder.display());
    let entries = fs::read_dir(folder).map_err(told)?;
    let mut paths = entries.map(|entry| Ok(entry.map_err(told)?.path())).collect::<Result<Vec<_>, String>>()?;
    paths.sort();
    Ok(paths)
}

fn text(file: &Path) -> Result<String, String> {
    fs::read_to_string(file).map_err(|fault| format!("{}: {fault}", file.display()))
}
