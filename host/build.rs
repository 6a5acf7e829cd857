//! Links the proved library `host_calls`.

use std::env;
use std::path::PathBuf;

fn main() {
    println!("cargo::rerun-if-changed=build.rs");

    let package = env::var_os("CARGO_MANIFEST_DIR").map(PathBuf::from).unwrap_or_default();
    let folder = package.join("../target/staticlib");
    let file = folder.join("libhost_calls.a");
    println!("cargo::rerun-if-changed={}", file.display());
    if file.is_file() {
        println!("cargo::rustc-link-search=native={}", folder.display());
        println!("cargo::rustc-link-lib=static=host_calls");
    } else {
        println!("cargo::error=there is no {}: run host/test in the root of the repository", file.display());
    }
}
