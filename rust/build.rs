//! Tells the linker where the static library stands: in the directory that `BOLIKWARU_LIBRARY`
//! names, or where `rt lib` in `crates/exported` puts it in this repository.

use std::env;
use std::path::PathBuf;

fn main() {
    println!("cargo:rerun-if-env-changed=BOLIKWARU_LIBRARY");
    let directory = match env::var_os("BOLIKWARU_LIBRARY") {
        Some(named) => PathBuf::from(named),
        None => PathBuf::from(env::var_os("CARGO_MANIFEST_DIR").unwrap_or_default())
            .join("..")
            .join("crates")
            .join("exported")
            .join("out"),
    };
    println!("cargo:rustc-link-search=native={}", directory.display());
    println!("cargo:rustc-link-lib=static=exported");
    println!(
        "cargo:rerun-if-changed={}",
        directory.join("libexported.a").display()
    );
}
