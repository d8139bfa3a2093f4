//! Finds the Rust text and tells the crate where it stands. Nothing of it is copied.

use std::path::{Path, PathBuf};
use std::{env, fs};

const FILES: [&str; 3] = ["lblt.rs", "cholesky.rs", "udu.rs"];

fn main() {
    println!("cargo::rerun-if-env-changed=URGYELPAT_TEXT");
    println!("cargo::rerun-if-changed=build.rs");
    let folder = text_root().join("src/linalg");
    for path in FILES.map(|file| folder.join(file)) {
        println!("cargo::rerun-if-changed={}", path.display());
        if !path.is_file() {
            let missing = format!("there is no {}", path.display());
            println!("cargo::error=the Rust text is not at hand: {missing}; URGYELPAT_TEXT can name the folder that holds src/linalg/");
            return;
        }
    }
    let folder = fs::canonicalize(folder).expect("a folder that was just read");
    println!("cargo::rustc-env=URGYELPAT_TEXT_LINALG={}", folder.display());
}

/// The folder named by URGYELPAT_TEXT, else ../shared/docs/src beside the repository.
fn text_root() -> PathBuf {
    match env::var_os("URGYELPAT_TEXT").filter(|folder| !folder.is_empty()) {
        Some(folder) => PathBuf::from(folder),
        None => beside_the_repository().join("shared/docs/src"),
    }
}

fn beside_the_repository() -> PathBuf {
    let here = env::var_os("CARGO_MANIFEST_DIR").expect("cargo names it");
    fs::canonicalize(Path::new(&here).join("../..")).expect("the folder that holds the repository")
}
