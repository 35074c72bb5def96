//! The C header, compiled with a C caller, linked with the archive and run.

use std::env;
use std::ffi::OsString;
use std::path::{Path, PathBuf};
use std::process::{Command, Output};

/// $CC, else the first of the usual names that answers.
fn c_compiler() -> OsString {
    if let Some(named) = env::var_os("CC") {
        return named;
    }
    match ["cc", "gcc", "clang"]
        .into_iter()
        .find(|name| answers(name))
    {
        Some(name) => name.into(),
        None => panic!(
            "no C compiler: the test of the C header needs one. \
             Install gcc (on Debian: apt install gcc), or let CC name yours"
        ),
    }
}

fn answers(compiler: &str) -> bool {
    Command::new(compiler).arg("--version").output().is_ok()
}

fn package() -> &'static Path {
    Path::new(env!("CARGO_MANIFEST_DIR"))
}

fn compile_caller() -> PathBuf {
    let program = Path::new(env!("CARGO_TARGET_TMPDIR")).join("c_caller");
    let mut compiler = Command::new(c_compiler());
    compiler
        .args(["-std=c99", "-pedantic", "-Wall", "-Wextra", "-Werror", "-I"])
        .arg(package().join("../include"))
        .arg(package().join("tests/caller.c"))
        .arg(env!("VSSS_ARCHIVE"))
        .arg("-o")
        .arg(&program);
    succeeds(&mut compiler);
    program
}

fn succeeds(command: &mut Command) -> Output {
    let output = command
        .output()
        .unwrap_or_else(|error| panic!("{command:?}: {error}"));
    assert!(
        output.status.success(),
        "{command:?} failed:\n{}{}",
        String::from_utf8_lossy(&output.stdout),
        String::from_utf8_lossy(&output.stderr)
    );
    output
}

#[test]
fn a_c_caller_gets_the_rows_the_secret_the_sheets_and_the_refusals() {
    let output = succeeds(&mut Command::new(compile_caller()));
    let said = String::from_utf8_lossy(&output.stdout);
    assert_eq!(said.lines().count(), 29, "{said}");
}
