//! Links the static library that `rt lib` makes, and ICU, whose functions carry its version in their names.

use std::process::Command;
use std::{env, fs, path::Path};

/// ICU's version, as `72`.
fn icu_version() -> String {
    let out = Command::new("pkg-config")
        .args(["--modversion", "icu-uc"])
        .output()
        .expect("pkg-config, of Debian's pkg-config, with icu-uc, of libicu-dev");
    let version = String::from_utf8(out.stdout).expect("a version");
    version.split('.').next().expect("a version").trim().to_string()
}

fn main() {
    let root = env::var("CARGO_MANIFEST_DIR").expect("Cargo's folder");
    let out = format!("{root}/out");
    println!("cargo:rerun-if-changed={out}/libcm_bench.a");
    println!("cargo:rustc-link-search=native={out}");
    println!("cargo:rustc-link-lib=static=cm_bench");
    println!("cargo:rustc-link-lib=icuuc");

    let icu = icu_version();
    let text = format!(
        "unsafe extern \"C\" {{
    #[link_name = \"u_strFromUTF8_{icu}\"]
    pub fn u_str_from_utf8(target: *mut u16, capacity: i32, length: *mut i32, source: *const u8, source_length: i32, status: *mut i32) -> *mut u16;
    #[link_name = \"u_strToUTF8_{icu}\"]
    pub fn u_str_to_utf8(target: *mut u8, capacity: i32, length: *mut i32, source: *const u16, source_length: i32, status: *mut i32) -> *mut u8;
}}
"
    );
    let to = env::var("OUT_DIR").expect("Cargo's folder for what is made");
    fs::write(Path::new(&to).join("icu.rs"), text).expect("a file for ICU's functions");
}
