//! Finds the static library, or has it made, and links it.

use std::env;
use std::fs;
use std::io::{BufRead, BufReader};
use std::path::{Path, PathBuf};
use std::process::{Command, Stdio, exit};

const ARCHIVE: &str = "libbicycle.a";

fn main() {
    println!("cargo::rerun-if-env-changed=BICYCLE_LIBRARY");
    let folder = match env::var_os("BICYCLE_LIBRARY") {
        Some(folder) if !folder.is_empty() => given(Path::new(&folder)),
        _ => made(),
    };
    let archive = folder.join(ARCHIVE);
    println!("cargo::rerun-if-changed={}", archive.display());
    println!("cargo::rerun-if-changed=build.rs");
    println!("cargo::rustc-link-search=native={}", folder.display());
    println!("cargo::rustc-link-lib=static=bicycle");
    println!("cargo::rustc-env=BICYCLE_ARCHIVE={}", archive.display());
}

/// The folder that BICYCLE_LIBRARY names; a relative one is seen from the folder of this file.
fn given(folder: &Path) -> PathBuf {
    match folder.canonicalize() {
        Ok(folder) if folder.join(ARCHIVE).is_file() => folder,
        _ => fail(&format!(
            "BICYCLE_LIBRARY is {}, where there is no {ARCHIVE}.",
            folder.display()
        )),
    }
}

/// The repository's own folder. The script `library` makes the archive there, in minutes, if it is
/// missing or older than the crates.
fn made() -> PathBuf {
    for source in ["../crates.txt", "library"] {
        println!("cargo::rerun-if-changed={source}");
    }
    for part in parts() {
        println!("cargo::rerun-if-changed={}", part.display());
    }
    if let Err(sentence) = run("./library") {
        fail(&sentence);
    }
    let host = PathBuf::from(env::var_os("CARGO_MANIFEST_DIR").expect("cargo names it"));
    host.with_file_name("target").join("staticlib")
}

/// What each crate is made of. Beside it stands `out`, where the prover keeps its work.
fn parts() -> Vec<PathBuf> {
    let inside = |folder: &Path| fs::read_dir(folder).into_iter().flatten().flatten();
    inside(Path::new("../crates"))
        .flat_map(|folder| inside(&folder.path()))
        .filter(|part| part.file_name() != "out")
        .map(|part| part.path())
        .collect()
}

/// Runs a script, and passes on what it says: `cargo build -vv` shows that at once. If the script
/// fails, its last line is the reason.
fn run(script: &str) -> Result<(), String> {
    let mut child = Command::new(script)
        .stderr(Stdio::piped())
        .spawn()
        .map_err(|e| format!("{script} cannot be run: {e}."))?;
    let mut last = format!("{script} failed.");
    for line in BufReader::new(child.stderr.take().expect("it is piped")).lines() {
        last = line.map_err(|e| e.to_string())?;
        eprintln!("{last}");
    }
    match child.wait() {
        Ok(status) if status.success() => Ok(()),
        _ => Err(last),
    }
}

fn fail(sentence: &str) -> ! {
    println!("cargo::error={sentence}");
    exit(1)
}
