//! Links Debian's liblapack and libblas (package liblapack-dev).

fn main() {
    println!("cargo:rustc-link-lib=lapack");
    println!("cargo:rustc-link-lib=blas");
}
