//! Finds the proved archive `libvsss.a` and links it.
//!
//! It is looked for in `target/host` at the root of the repository, or in the folder that the
//! variable VSSS_LIB_DIR names.

use std::env;
use std::path::{Path, PathBuf};
use std::process::exit;

fn main() {
    println!("cargo:rerun-if-env-changed=VSSS_LIB_DIR");
    println!("cargo:rerun-if-changed=build.rs");
    let folder = archive_folder();
    let archive = folder.join("libvsss.a");
    println!("cargo:rerun-if-changed={}", archive.display());
    if !archive.is_file() {
        say_how_to_make(&archive);
        exit(1);
    }
    println!("cargo:rustc-link-search=native={}", folder.display());
    println!("cargo:rustc-link-lib=static=vsss");
    // The test with a C caller links the same archive.
    println!("cargo:rustc-env=VSSS_ARCHIVE={}", archive.display());
}

fn archive_folder() -> PathBuf {
    match env::var_os("VSSS_LIB_DIR") {
        Some(folder) => PathBuf::from(folder),
        None => {
            let package = env::var_os("CARGO_MANIFEST_DIR").expect("cargo sets it");
            Path::new(&package).join("../../target/host")
        }
    }
}

fn say_how_to_make(archive: &Path) {
    eprintln!("The proved library is missing: {}", archive.display());
    eprintln!("Make it at the root of the repository, with the Rattle kit on the PATH:");
    eprintln!("    host/library");
    eprintln!("or let VSSS_LIB_DIR name the folder that holds libvsss.a.");
}
