//! Finds the proved library, which `tools/build kidlothe` writes to target/staticlib of the repository. Another place for
//! it is named by KIDLOTHE_LIBRARY_DIR.
use std::env;
use std::path::PathBuf;

fn main() {
    println!("cargo:rerun-if-env-changed=KIDLOTHE_LIBRARY_DIR");
    let folder = match env::var_os("KIDLOTHE_LIBRARY_DIR") {
        Some(folder) => PathBuf::from(folder),
        None => PathBuf::from(env::var_os("CARGO_MANIFEST_DIR").unwrap()).join("../../target/staticlib"),
    };
    let archive = folder.join("libkidlothe.a");
    println!("cargo:rerun-if-changed={}", archive.display());
    if !archive.exists() {
        panic!("{} is not there: run `tools/build kidlothe` in the repository first", archive.display());
    }
    println!("cargo:rustc-link-search=native={}", folder.display());
    println!("cargo:rustc-link-lib=static=kidlothe");
}
