//! Links the archive that `tools/library` writes in the repository's root.

use std::path::PathBuf;
use std::{env, process};

fn main() {
    let host = env::var_os("CARGO_MANIFEST_DIR").expect("cargo sets CARGO_MANIFEST_DIR");
    let root = PathBuf::from(host).join("..");
    let folder = root.join("target/staticlib");
    let archive = folder.join("libworkbook.a");
    // Cargo runs this script again when the archive changes, also when it was missing before.
    println!("cargo::rerun-if-changed={}", archive.display());
    println!("cargo::rerun-if-changed=build.rs");
    if !archive.is_file() {
        eprintln!("There is no {}.", archive.display());
        eprintln!("Run `tools/library` in the repository's root first; it writes this archive.");
        process::exit(1);
    }
    println!("cargo::rustc-link-search=native={}", folder.display());
    println!("cargo::rustc-link-lib=static=workbook");
    // DEP_WORKBOOK_INCLUDE, for the build script of a package that compiles C over this one.
    println!("cargo::metadata=include={}", root.join("include").display());
}
