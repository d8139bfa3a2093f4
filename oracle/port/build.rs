//! Links the port: the archive or object file that URGYELPAT_PORT names, else the repository's target/staticlib/liburgyelpat.a.

use std::path::{Path, PathBuf};
use std::process::Command;
use std::{env, fs};

fn main() {
    println!("cargo::rerun-if-env-changed=URGYELPAT_PORT");
    let file = match env::var_os("URGYELPAT_PORT").filter(|file| !file.is_empty()) {
        Some(file) => PathBuf::from(file),
        None => repository().join("target/staticlib/liburgyelpat.a"),
    };
    println!("cargo::rerun-if-changed={}", file.display());
    if !file.is_file() {
        let missing = format!("there is no {}", file.display());
        println!(
            "cargo::error=the port is not at hand: {missing}; `./staticlib urgyelpat` writes the archive, and URGYELPAT_PORT can name another"
        );
        return;
    }
    let out = PathBuf::from(env::var_os("OUT_DIR").expect("cargo names it"));
    let archive = out.join("liburgyelpat_port.a");
    if file.extension().is_some_and(|e| e == "a") {
        fs::copy(&file, &archive).expect("a copy of the archive");
    } else {
        let _ = fs::remove_file(&archive);
        let made = Command::new("ar").arg("crs").arg(&archive).arg(&file).status().expect("ar");
        assert!(made.success(), "ar could not make an archive of {}", file.display());
    }
    println!("cargo::rustc-link-search=native={}", out.display());
    println!("cargo::rustc-link-lib=static=urgyelpat_port");
}

fn repository() -> PathBuf {
    let here = env::var_os("CARGO_MANIFEST_DIR").expect("cargo names it");
    fs::canonicalize(Path::new(&here).join("../..")).expect("the repository")
}
