//! Links the static libraries `calls`, `calls_real` and `job`, which `tools/staticlib` has written.
fn main() {
    let here = std::env::var("CARGO_MANIFEST_DIR").expect("cargo sets it");
    println!("cargo:rustc-link-search=native={here}/../target/staticlib");
    for name in ["calls", "calls_real", "job"] {
        println!("cargo:rerun-if-changed={here}/../target/staticlib/lib{name}.a");
    }
}
