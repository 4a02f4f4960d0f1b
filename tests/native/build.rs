//! Links the proved library that `./native` made; the fuzzer names another folder, whose library counts what it runs.

use std::env;

fn main() {
    let here = env::var("CARGO_MANIFEST_DIR").unwrap();
    let folder = env::var("PANXIDELL_NATIVE").unwrap_or(format!("{here}/../../target/native"));
    println!("cargo:rerun-if-env-changed=PANXIDELL_NATIVE");
    println!("cargo:rerun-if-changed={folder}/libpanxidell_c.a");
    println!("cargo:rustc-link-search=native={folder}");
    println!("cargo:rustc-link-lib=static:-bundle=panxidell_c");
}
