//! Finds the original source and declares its modules where it stands, so that it is compiled unchanged.

use std::env;
use std::fs;
use std::path::{Path, PathBuf};
use std::process::exit;

const COMPONENTS: &str = "nodes/io_sources/multi_scan/components";

const FILES: [&str; 5] = [
    "column_selector/mod.rs",
    "column_selector/builder.rs",
    "column_selector/transform.rs",
    "default_field_values.rs",
    "errors.rs",
];

/// The folder that a variable of the environment names, or else the one at a path from this package.
fn folder(variable: &str, default: &str) -> PathBuf {
    println!("cargo::rerun-if-env-changed={variable}");
    let package = PathBuf::from(env::var_os("CARGO_MANIFEST_DIR").unwrap());
    package.join(env::var_os(variable).unwrap_or_else(|| default.into()))
}

fn module(path: &Path, name: &str) -> String {
    format!("#[path = {:?}]\npub mod {name};\n", path.to_str().unwrap())
}

fn main() {
    let source = folder("SELECTOR_SOURCE", "../../../shared/docs/src");
    for file in FILES {
        let path = source.join(COMPONENTS).join(file);
        println!("cargo::rerun-if-changed={}", path.display());
        if !path.is_file() {
            println!(
                "cargo::error=the original source is not there: {}; set SELECTOR_SOURCE to the folder that has {COMPONENTS}",
                path.display()
            );
            exit(1);
        }
    }
    let components = source.canonicalize().unwrap().join(COMPONENTS);

    let mut modules = String::from(
        "pub mod nodes { pub mod io_sources { pub mod multi_scan { pub mod components {\n",
    );
    modules += &module(
        &components.join("column_selector/mod.rs"),
        "column_selector",
    );
    modules += &module(
        &components.join("default_field_values.rs"),
        "default_field_values",
    );
    modules += &module(&components.join("errors.rs"), "errors");
    modules += "}}}}\n";
    let out = PathBuf::from(env::var_os("OUT_DIR").unwrap());
    fs::write(out.join("source.rs"), modules).unwrap();

    // Arrays stand behind this feature in the original.
    println!("cargo::rustc-check-cfg=cfg(feature, values(\"dtype-array\"))");
    println!("cargo::rustc-cfg=feature=\"dtype-array\"");
}
