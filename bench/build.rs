//! Tells where the library is, and to link again when it was written again.

fn main() {
    let archive = concat!(env!("CARGO_MANIFEST_DIR"), "/../target/staticlib");
    println!("cargo:rustc-link-search=native={archive}");
    println!("cargo:rerun-if-changed={archive}/libmazurlot.a");
}
