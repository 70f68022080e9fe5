//! Finds libdtoa_c.a, and has it linked.

use std::env;
use std::path::{Path, PathBuf};
use std::process::exit;

const ARCHIVE: &str = "libdtoa_c.a";

/// The folder that DTOA_LIB names, or else the one that `rt lib` writes to.
fn folder() -> PathBuf {
    match env::var_os("DTOA_LIB") {
        Some(folder) if !folder.is_empty() => PathBuf::from(folder),
        _ => {
            let package = env::var_os("CARGO_MANIFEST_DIR").expect("cargo sets CARGO_MANIFEST_DIR");
            Path::new(&package).join("../../crates/dtoa_c/out")
        }
    }
}

fn main() {
    let folder = folder();
    let archive = folder.join(ARCHIVE);
    println!("cargo:rerun-if-env-changed=DTOA_LIB");
    println!("cargo:rerun-if-changed={}", archive.display());
    if !archive.is_file() {
        eprintln!("malekoco: there is no {ARCHIVE} in {}.", folder.display());
        eprintln!("Run `rt lib` in crates/dtoa_c of the repository, which proves and makes it,");
        eprintln!("or set DTOA_LIB to the whole path of a folder that has it.");
        exit(1);
    }
    println!("cargo:rustc-link-search=native={}", folder.display());
    println!("cargo:rustc-link-lib=static=dtoa_c");
}
