//! Notes the version of the compiler, for the page of results.

use std::process::Command;

fn main() {
    // Another compiler makes cargo build this anew by itself.
    println!("cargo::rerun-if-changed=build.rs");
    let compiler = std::env::var_os("RUSTC").expect("cargo sets RUSTC");
    let said = Command::new(compiler).arg("--version").output();
    let version = said.expect("the compiler runs").stdout;
    let version = String::from_utf8_lossy(&version);
    println!("cargo::rustc-env=BENCH_COMPILER={}", version.trim());
}
