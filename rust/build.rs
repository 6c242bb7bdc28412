//! Links the proved static library, which `rt lib` in `crates/vetchnoon` writes.
//!
//! It is looked for in the folder that `VETCHNOON_LIB` names, or else in
//! `crates/vetchnoon/out` of this repository.

use std::env;
use std::path::Path;
use std::path::PathBuf;
use std::process;

fn main() {
    println!("cargo::rerun-if-changed=build.rs");
    println!("cargo::rerun-if-env-changed=VETCHNOON_LIB");

    let folder = env::var_os("VETCHNOON_LIB").map_or_else(
        || Path::new(env!("CARGO_MANIFEST_DIR")).join("../crates/vetchnoon/out"),
        PathBuf::from,
    );
    let library = folder.join("libvetchnoon.a");
    println!("cargo::rerun-if-changed={}", library.display());
    if !library.is_file() {
        println!(
            "cargo::error={} is not there: run `rt lib` in crates/vetchnoon, or name its folder by VETCHNOON_LIB",
            library.display()
        );
        process::exit(1);
    }
    println!("cargo::rustc-link-search=native={}", folder.display());
    println!("cargo::rustc-link-lib=static=vetchnoon");
}
