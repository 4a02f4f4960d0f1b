//! Links the proved text check by itself, which `./native` made.

use std::env;

fn main() {
    let folder = format!("{}/../../target/native", env::var("CARGO_MANIFEST_DIR").unwrap());
    println!("cargo:rerun-if-changed={folder}/libtext_c.a");
    println!("cargo:rustc-link-search=native={folder}");
    println!("cargo:rustc-link-lib=static:-bundle=text_c");
}
