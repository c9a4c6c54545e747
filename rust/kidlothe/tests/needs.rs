//! What the archive needs from outside: two functions of the C library, which a compiler calls where arrays are passed
//! or cleared.
use std::collections::BTreeSet;
use std::env;
use std::process::Command;

#[test]
fn the_archive_needs_two_functions() {
    let built = concat!(env!("CARGO_MANIFEST_DIR"), "/../../target/staticlib");
    let folder = env::var("KIDLOTHE_LIBRARY_DIR").unwrap_or(built.to_string());
    let output = Command::new("nm").args(["-u", &format!("{folder}/libkidlothe.a")]).output().unwrap();
    assert!(output.status.success());
    let listed = String::from_utf8(output.stdout).unwrap();
    let names: BTreeSet<&str> = listed.lines().filter_map(|line| line.trim().strip_prefix("U ")).collect();
    assert_eq!(names, BTreeSet::from(["memcpy", "memset"]));
}
