//! Links libFuzzer, whose archive tests/fuzz/run names.

fn main() {
    println!("cargo:rerun-if-env-changed=LIBFUZZER");
    if let Ok(archive) = std::env::var("LIBFUZZER") {
        println!("cargo:rustc-link-arg={archive}");
        for library in ["stdc++", "m", "gcc_s", "c"] {
            println!("cargo:rustc-link-arg=-l{library}");
        }
    }
}
