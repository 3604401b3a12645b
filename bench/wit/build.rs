//! Links the static library that `rt lib` makes.

use std::env;

fn main() {
    let root = env::var("CARGO_MANIFEST_DIR").expect("Cargo's folder");
    let out = format!("{root}/../out");
    println!("cargo:rerun-if-changed={out}/libcm_bench.a");
    println!("cargo:rustc-link-search=native={out}");
    println!("cargo:rustc-link-lib=static=cm_bench");
}
