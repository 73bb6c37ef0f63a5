//! Links libmazurlot.a. It is looked for in the folder that MAZURLOT_LIB_DIR names, else where ./archive of this repository writes it.

use std::env;
use std::path::{Path, PathBuf};

fn main() {
    println!("cargo::rerun-if-env-changed=MAZURLOT_LIB_DIR");
    let beside = || Path::new(env!("CARGO_MANIFEST_DIR")).join("../../target/staticlib");
    let folder = env::var_os("MAZURLOT_LIB_DIR").map_or_else(beside, PathBuf::from);
    let archive = folder.join("libmazurlot.a");
    println!("cargo::rerun-if-changed={}", archive.display());
    let target = |part: &str| env::var(format!("CARGO_CFG_TARGET_{part}"));
    if target("ARCH").as_deref() != Ok("x86_64") || target("OS").as_deref() != Ok("linux") {
        println!("cargo::error=libmazurlot.a links into programs for x86-64 Linux only: build with --target x86_64-unknown-linux-gnu");
    }
    // The linker is run in another folder than this program, so it is given the whole path.
    let Ok(folder) = folder.canonicalize().and_then(|folder| archive.metadata().map(|_| folder)) else {
        println!(
            "cargo::error={} is missing: make it with ./archive at the top of the repository, or name its folder in MAZURLOT_LIB_DIR",
            archive.display()
        );
        return;
    };
    println!("cargo::rustc-link-search=native={}", folder.display());
    println!("cargo::rustc-link-lib=static=mazurlot");
}
