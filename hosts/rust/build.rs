//! Links the static library that `rt lib` leaves in crates/capi/out; FUTEQ_LIB names another folder.

use std::env;
use std::path::PathBuf;

fn main() {
    let here = PathBuf::from(env::var("CARGO_MANIFEST_DIR").expect("cargo names this folder"));
    let folder =
        env::var("FUTEQ_LIB").map_or_else(|_| here.join("../../crates/capi/out"), PathBuf::from);
    let library = folder.join("libcapi.a");
    println!("cargo:rerun-if-env-changed=FUTEQ_LIB");
    println!("cargo:rerun-if-changed={}", library.display());
    assert!(
        library.is_file(),
        "{} is missing: run `rt lib` in crates/capi first",
        library.display()
    );
    println!("cargo:rustc-link-search=native={}", folder.display());
    println!("cargo:rustc-link-lib=static=capi");
    // For the test that compiles a C program over the same library.
    println!("cargo:rustc-env=FUTEQ_LIBRARY={}", library.display());
}
