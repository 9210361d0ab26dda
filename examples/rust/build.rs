//! Links libposkvari.a of the folder that the variable POSKVARI_LIB names, or of ../../lib.

use std::env;

fn main() {
    let root = env::var("CARGO_MANIFEST_DIR").expect("cargo sets CARGO_MANIFEST_DIR");
    let folder = env::var("POSKVARI_LIB").unwrap_or_else(|_| format!("{root}/../../lib"));
    println!("cargo:rustc-link-search=native={folder}");
    println!("cargo:rustc-link-lib=static=poskvari");
    println!("cargo:rerun-if-env-changed=POSKVARI_LIB");
    println!("cargo:rerun-if-changed={folder}/libposkvari.a");
}
