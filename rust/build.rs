//! Where the static library is: the folder that BEVELUMBER_LIB names, or that of `rt lib` in crates/exports.
use std::env;
use std::path::PathBuf;

fn main() {
    let here = PathBuf::from(env::var("CARGO_MANIFEST_DIR").unwrap());
    let folder = env::var("BEVELUMBER_LIB").map_or(here.join("../crates/exports/out"), PathBuf::from);
    println!("cargo:rustc-link-search=native={}", folder.display());
    println!("cargo:rerun-if-env-changed=BEVELUMBER_LIB");
    println!("cargo:rerun-if-changed={}", folder.join("libexports.a").display());
}
