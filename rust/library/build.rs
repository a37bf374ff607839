//! Finds the static libraries of the proved crates and has them linked.

use std::env;
use std::path::{Path, PathBuf};

/// A folder that overrides the place where `tools/archives` puts the archives.
const FOLDER_VARIABLE: &str = "DRIFT_STATICLIB";

/// The archives that are linked: `libNAME.a` has the exports of the crate `NAME_c`.
const ARCHIVES: [&str; 4] = ["frame", "script", "lent_post", "csv"];

fn main() {
    println!("cargo::rerun-if-changed=build.rs");
    println!("cargo::rerun-if-env-changed={FOLDER_VARIABLE}");
    let folder = library_folder();
    println!("cargo::rustc-link-search=native={}", folder.display());
    for name in ARCHIVES {
        let archive = folder.join(format!("lib{name}.a"));
        println!("cargo::rerun-if-changed={}", archive.display());
        if archive.is_file() {
            println!("cargo::rustc-link-lib=static={name}");
        } else {
            println!(
                "cargo::error={} is missing: run `tools/archives {name}` in the repository root, \
                 or set {FOLDER_VARIABLE} to the folder that has lib{name}.a",
                archive.display()
            );
        }
    }
}

/// The folder as an absolute path; a relative one starts at this package.
fn library_folder() -> PathBuf {
    let package = env::var_os("CARGO_MANIFEST_DIR").expect("cargo sets CARGO_MANIFEST_DIR");
    let folder = match env::var_os(FOLDER_VARIABLE) {
        Some(folder) => PathBuf::from(folder),
        None => PathBuf::from("../../target/staticlib"),
    };
    Path::new(&package).join(folder)
}
