//! Compiles the planner in C, `c/indexed.c`, with the compiler that `CC` names, or else `cc`, and puts
//! it into a static archive with the archiver that `AR` names, or else `ar`. Where the package is built
//! for another machine, `CC` has to name a compiler for that one.

use std::env;
use std::ffi::OsString;
use std::path::PathBuf;
use std::process::Command;

const SOURCE: &str = "c/indexed.c";

const FLAGS: [&str; 5] = ["-O3", "-std=c99", "-Wall", "-Wextra", "-Werror"];

fn main() {
    println!("cargo:rerun-if-changed={}", SOURCE);
    let directory = PathBuf::from(env::var_os("OUT_DIR").unwrap_or_default());
    let object = directory.join("indexed.o");
    let archive = directory.join("libindexed.a");
    run(Command::new(named_by("CC", "cc"))
        .args(FLAGS)
        .args(["-c", SOURCE, "-o"])
        .arg(&object));
    run(Command::new(named_by("AR", "ar"))
        .arg("crs")
        .arg(archive)
        .arg(object));
    println!("cargo:rustc-link-search=native={}", directory.display());
    println!("cargo:rustc-link-lib=static=indexed");
}

/// The program that a variable of the environment names, or else the usual one.
fn named_by(variable: &str, usual: &str) -> OsString {
    println!("cargo:rerun-if-env-changed={}", variable);
    env::var_os(variable).unwrap_or_else(|| usual.into())
}

/// Runs a program to its end, which has to be a good one.
fn run(command: &mut Command) {
    match command.status() {
        Ok(status) => assert!(status.success(), "{:?} ends with {}", command, status),
        Err(error) => panic!("{:?} cannot be run: {}", command, error),
    }
}
