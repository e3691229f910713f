//! Links the proved library, which `bench/run` builds first.
fn main() {
    let root = std::env::var("CARGO_MANIFEST_DIR").unwrap();
    println!("cargo:rustc-link-search=native={root}/../crates/exports/out");
    println!("cargo:rustc-link-lib=static=exports");
    println!("cargo:rerun-if-changed={root}/../crates/exports/out/libexports.a");
}
