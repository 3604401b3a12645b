//! Links the static library that `rt lib` makes.

fn main() {
    let root = std::env::var("CARGO_MANIFEST_DIR").expect("Cargo's folder");
    let out = format!("{root}/../../../crates/huxarte_c/out");
    println!("cargo:rerun-if-changed={out}/libhuxarte_c.a");
    println!("cargo:rustc-link-search=native={out}");
    println!("cargo:rustc-link-lib=static=huxarte_c");
}
