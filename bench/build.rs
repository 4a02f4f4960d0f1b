//! Links others.c, which bench/run compiled, and the two libraries that it calls; and what another checkout's ./native made, if one was named.

fn main() {
    let folder = std::env::var("PANXIDELL_OTHERS").expect("bench/run names the folder of libothers.a");
    println!("cargo:rerun-if-env-changed=PANXIDELL_OTHERS");
    println!("cargo:rerun-if-changed={folder}/libothers.a");
    println!("cargo:rustc-link-search=native={folder}");
    println!("cargo:rustc-link-lib=static=others");
    println!("cargo:rustc-link-lib=msgpackc");
    println!("cargo:rustc-link-lib=cbor");
    if std::env::var("CARGO_FEATURE_BEFORE").is_ok() {
        for name in ["before_text_c", "before_panxidell_c"] {
            println!("cargo:rerun-if-changed={folder}/lib{name}.a");
            println!("cargo:rustc-link-lib=static={name}");
        }
    }
}
