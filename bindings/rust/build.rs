//! Finds liburgyelpat.a: in the folder that URGYELPAT_LIB_DIR names, or in target/staticlib of the repository.

use std::env;
use std::path::{Path, PathBuf};
use std::process;

const ARCHIVE: &str = "liburgyelpat.a";
const VARIABLE: &str = "URGYELPAT_LIB_DIR";

fn folder() -> PathBuf {
    match env::var_os(VARIABLE) {
        Some(named) => PathBuf::from(named),
        None => {
            let here = env::var_os("CARGO_MANIFEST_DIR").expect("cargo names the crate's folder");
            Path::new(&here).join("../../target/staticlib")
        }
    }
}

fn main() {
    println!("cargo:rerun-if-env-changed={VARIABLE}");
    let target = env::var("TARGET").expect("cargo names the target");
    if !(target.starts_with("x86_64-") && target.contains("-linux-")) {
        println!(
            "cargo:warning={ARCHIVE} holds code for x86-64 Linux: for {target} this crate can be checked, and not linked"
        );
        return;
    }
    let folder = folder();
    let archive = folder.join(ARCHIVE);
    println!("cargo:rerun-if-changed={}", archive.display());
    if !archive.is_file() {
        eprintln!("There is no {}.", archive.display());
        eprintln!("Run `./staticlib urgyelpat` in the repository, which proves the library and writes target/staticlib/{ARCHIVE},");
        eprintln!("or set {VARIABLE} to the folder that has {ARCHIVE}.");
        process::exit(1);
    }
    println!("cargo:rustc-link-search=native={}", folder.display());
    println!("cargo:rustc-link-lib=static=urgyelpat");
}
