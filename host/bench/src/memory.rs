//! How much memory a call takes beyond what it is lent.

use std::{fs, thread};

/// A call may take this much, in KiB: the system counts pages, and those not at once.
pub const MOST: u64 = 256;

/// By how many KiB the memory that the process holds rises at most during the call: stack, heap, all
/// of it. The call runs on a fresh stack. Nothing where the system does not tell.
pub fn growth(call: impl FnOnce() + Send) -> Option<u64> {
    let measured = || {
        // Asked twice, so that the memory for asking is there already.
        peak_from_here()?;
        let before = peak_from_here()?;
        apart(call);
        Some(peak()?.saturating_sub(before))
    };
    thread::scope(|scope| scope.spawn(measured).join().ok()?)
}

/// Its own stack frame: in that of the measurement it would be there from the start.
#[inline(never)]
fn apart(call: impl FnOnce()) {
    call();
}

/// The peak, once it is set to what is held now.
fn peak_from_here() -> Option<u64> {
    fs::write("/proc/self/clear_refs", "5").ok()?;
    peak()
}

fn peak() -> Option<u64> {
    let status = fs::read_to_string("/proc/self/status").ok()?;
    let line = status
        .lines()
        .find_map(|line| line.strip_prefix("VmHWM:"))?;
    line.trim().strip_suffix(" kB")?.parse().ok()
}

#[cfg(test)]
mod tests {
    use super::*;
    use std::hint::black_box;

    /// A megabyte on the stack or on the heap is seen, also where it is given back.
    #[test]
    fn what_a_call_takes_is_seen() {
        if growth(|| ()).is_none() {
            println!("not run: this system does not tell the peak of memory");
            return;
        }
        let stack = growth(|| {
            black_box([1u8; 1 << 20]);
        });
        let heap = growth(|| drop(black_box(vec![1u8; 1 << 20])));
        for seen in [stack, heap] {
            assert!(seen.unwrap() > 1024 - MOST, "{seen:?}");
        }
    }
}
