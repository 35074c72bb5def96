//! Copies the original's text to where the compiler reads it, and says whether it was there.

use std::path::{Path, PathBuf};
use std::{env, fs};

const VARIABLE: &str = "VSSS_RS_SOURCE";

/// The files of the text that are compiled, in the order in which the original's root names them.
const MODULES: [&str; 8] = [
    "error",
    "gf256",
    "numbering",
    "polynomial",
    "set",
    "shamir",
    "share",
    "util",
];

/// Modules whose copy is followed by a child module that reaches private functions.
const REACHED: [&str; 2] = ["gf256", "util"];

/// Features of the original that stay off: they need crates that no compared function uses.
const FEATURES_OFF: [&str; 8] = [
    "alloc",
    "bigint",
    "curve",
    "primitive",
    "random-participant-ids",
    "serde",
    "stream",
    "zeroize",
];

fn main() {
    println!("cargo::rustc-check-cfg=cfg(have_original)");
    println!("cargo::rustc-check-cfg=cfg(docsrs)");
    for feature in FEATURES_OFF {
        println!("cargo::rustc-check-cfg=cfg(feature, values({feature:?}))");
    }
    println!("cargo::rerun-if-env-changed={VARIABLE}");
    println!("cargo::rerun-if-changed=build.rs");
    println!("cargo::rerun-if-changed=reach");

    let out = PathBuf::from(env::var_os("OUT_DIR").expect("cargo sets OUT_DIR"));
    let declarations = match source_folder() {
        Some(source) => {
            println!("cargo::rustc-cfg=have_original");
            println!("cargo::metadata=PRESENT=1");
            copy_modules(&source, &out)
        }
        None => String::new(),
    };
    write(&out.join("modules.rs"), &declarations);
}

/// The folder with the text, if the variable names one that holds every file.
fn source_folder() -> Option<PathBuf> {
    let folder = PathBuf::from(env::var_os(VARIABLE)?).join("src");
    let missing: Vec<String> = MODULES
        .iter()
        .map(|module| format!("{module}.rs"))
        .filter(|file| !folder.join(file).is_file())
        .collect();
    if missing.is_empty() {
        return Some(folder);
    }
    println!(
        "cargo::warning={VARIABLE} is set, but {} has no {}: built without the original",
        folder.display(),
        missing.join(", ")
    );
    None
}

/// Copies every module and returns the declarations that name the copies.
fn copy_modules(source: &Path, out: &Path) -> String {
    MODULES
        .iter()
        .map(|module| {
            let file = format!("{module}.rs");
            let original = source.join(&file);
            println!("cargo::rerun-if-changed={}", original.display());
            let mut text = read(&original);
            if REACHED.contains(module) {
                text.push_str(&read(&Path::new("reach").join(&file)));
            }
            let copy = out.join(&file);
            write(&copy, &text);
            format!("#[path = {copy:?}]\npub mod {module};\n")
        })
        .collect()
}

fn read(file: &Path) -> String {
    fs::read_to_string(file).unwrap_or_else(|error| panic!("{}: {error}", file.display()))
}

fn write(file: &Path, text: &str) {
    fs::write(file, text).unwrap_or_else(|error| panic!("{}: {error}", file.display()));
}
