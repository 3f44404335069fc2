//! Where the original's files are, for the build scripts of the packages beside this one.

use std::path::PathBuf;
use std::process::exit;

/// Beside the repository, unless the environment names another folder.
const DEFAULT: &str = concat!(
    env!("CARGO_MANIFEST_DIR"),
    "/../../../../../shared/docs/src"
);

fn folder() -> PathBuf {
    println!("cargo::rerun-if-env-changed=BICYCLE_ORIGINAL");
    let named = std::env::var_os("BICYCLE_ORIGINAL");
    let folder = named.map_or_else(|| PathBuf::from(DEFAULT), PathBuf::from);
    let missing = |e| {
        fail(&format!(
            "there is no folder {} of the original: {e}",
            folder.display()
        ))
    };
    folder.canonicalize().unwrap_or_else(missing)
}

fn sources(name: &str) -> PathBuf {
    folder().join("crates").join(name).join("src")
}

/// Lets the package that is built include the files of one crate of the original by
/// `include!(concat!(env!("ORIGINAL"), "/name.rs"))`.
pub fn offer(name: &str) {
    println!("cargo::rustc-env=ORIGINAL={}", sources(name).display());
}

/// The text of one file of the original.
pub fn read(name: &str, file: &str) -> String {
    let path = sources(name).join(file);
    println!("cargo::rerun-if-changed={}", path.display());
    let missing = |e| fail(&format!("cannot read {}: {e}", path.display()));
    std::fs::read_to_string(&path).unwrap_or_else(missing)
}

/// Ends the build with a sentence.
pub fn fail(sentence: &str) -> ! {
    println!("cargo::error={sentence}");
    exit(1)
}
