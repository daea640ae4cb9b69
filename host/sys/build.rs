//! Links libstore.a: the one that `tools/staticlib` writes, or that in the folder which ZILGWERN_STATICLIB names.

use std::env::var_os;
use std::path::PathBuf;

const CHOICE: &str = "ZILGWERN_STATICLIB";

fn main() {
    // Asked for now and not when this script was compiled: the folder may be a copy of another.
    let package = var_os("CARGO_MANIFEST_DIR").expect("cargo names the package");
    let folder = match var_os(CHOICE) {
        Some(folder) if !folder.is_empty() => PathBuf::from(folder),
        _ => PathBuf::from(package).join("../../target/staticlib"),
    };
    let library = folder.join("libstore.a");
    println!("cargo:rerun-if-env-changed={CHOICE}");
    println!("cargo:rerun-if-changed={}", library.display());
    if !library.exists() {
        let missing = library.display();
        println!("cargo:warning={missing} is missing: run `tools/staticlib` first");
    }
    println!("cargo:rustc-link-search=native={}", folder.display());
    println!("cargo:rustc-link-lib=static=store");
}
