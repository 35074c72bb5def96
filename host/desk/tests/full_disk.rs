//! A disk that is full in the middle of a split: one of 12 KiB, in memory, that has room for three
//! rows of 4 KiB and not for four.

mod scratch;

use scratch::Scratch;

/// Runs the command where the folder `small` is such a disk, and gives what it writes; nothing on
/// a machine that lets no ordinary user mount one.
fn on_a_small_disk(scratch: &Scratch, command: &str) -> Option<String> {
    let mount = "mkdir small && mount -t tmpfs -o size=12k tmpfs small";
    let (said, _) = scratch.sh(&format!(
        "unshare --user --map-root-user --mount sh -c '{mount} && echo mounted && {command}'"
    ));
    said.strip_prefix("mounted\n").map(str::to_string)
}

#[test]
fn a_split_on_a_full_disk_leaves_nothing_behind() {
    let scratch = Scratch::new("full-disk");
    scratch.sh("head -c 4095 /dev/zero > key.bin");
    let split = "desk split --threshold 2 --out small/rows key.bin --ids";
    let commands = format!("{split} 1,2,3,4; ls -A small; {split} 1,2,3");
    let said = match on_a_small_disk(&scratch, &commands) {
        Some(said) => said,
        None => {
            println!("not run: this machine lets no ordinary user mount a disk in memory");
            return;
        }
    };
    let (refused, done) = said.split_once('\n').unwrap();
    assert_eq!(
        refused,
        "desk: cannot write small/rows/4.row: the disk is full; free some room and try again"
    );
    // Nothing is listed, and there is room again.
    assert!(done.starts_with("wrote small/rows/1.row\n"), "{done}");
}
