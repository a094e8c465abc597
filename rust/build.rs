//! Links libselector.a, which `compare/library` writes to target/staticlib of the repository. `SELECTOR_LIBRARY` names
//! another folder.

use std::env;
use std::path::PathBuf;

fn main() {
    println!("cargo::rerun-if-env-changed=SELECTOR_LIBRARY");
    let package = PathBuf::from(env::var_os("CARGO_MANIFEST_DIR").unwrap());
    let folder = match env::var_os("SELECTOR_LIBRARY") {
        Some(folder) => package.join(folder),
        None => package.join("../target/staticlib"),
    };
    let library = folder.join("libselector.a");
    println!("cargo::rerun-if-changed={}", library.display());
    if !library.is_file() {
        println!(
            "cargo::error={} is not there: run `compare/library` in the repository first",
            library.display()
        );
    }
    println!("cargo::rustc-link-search=native={}", folder.display());
    println!("cargo::rustc-link-lib=static=selector");
}
