//! Where it was measured.

use std::process::Command;
use std::{env, fs};

/// The compiler of this program, and with it of all that ours is put beside.
pub const COMPILER: &str = env!("BENCH_COMPILER");

pub const ARCHITECTURE: &str = env::consts::ARCH;

/// The processor's name, or its architecture where the system has no name for it.
pub fn processor() -> String {
    match named_by_lscpu().or_else(named_by_kernel) {
        Some(name) => format!("{name} ({ARCHITECTURE})"),
        None => ARCHITECTURE.to_string(),
    }
}

/// `lscpu` knows names by number, which some kernels do not.
fn named_by_lscpu() -> Option<String> {
    let said = Command::new("lscpu").env("LC_ALL", "C").output().ok()?;
    model_name(&String::from_utf8_lossy(&said.stdout))
}

fn named_by_kernel() -> Option<String> {
    model_name(&fs::read_to_string("/proc/cpuinfo").ok()?)
}

/// The value of the first line `Model name: VALUE`, in capitals or not.
fn model_name(text: &str) -> Option<String> {
    text.lines().find_map(|line| {
        let (key, value) = line.split_once(':')?;
        let found = key.trim().eq_ignore_ascii_case("model name") && value.trim() != "-";
        found.then(|| value.trim().to_string())
    })
}
