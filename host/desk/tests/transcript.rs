//! Plays the commands of `transcript.txt` and compares all that the commands write.
//!
//! A line that starts with `$ ` is a command for the shell, one that starts with `# ` says what is
//! tried, and the lines behind a command are what it must write, errors too. `[exit N]` follows
//! where it does not end with 0. After a change that is meant,
//!
//!     DESK_TRANSCRIPT=write cargo test -p desk --test transcript
//!
//! writes the file anew; read what has changed.

mod scratch;

use std::path::{Path, PathBuf};
use std::{env, fs};

use scratch::Scratch;

fn stored() -> PathBuf {
    Path::new(env!("CARGO_MANIFEST_DIR")).join("tests/transcript.txt")
}

/// The transcript with what the commands write now.
fn play(transcript: &str) -> String {
    let scratch = Scratch::new("transcript");
    let mut played = String::new();
    for line in transcript.lines() {
        if line.starts_with("# ") {
            let gap = if played.is_empty() { "" } else { "\n" };
            played += &format!("{gap}{line}\n");
        } else if let Some(command) = line.strip_prefix("$ ") {
            played += &format!("{line}\n{}", answer(&scratch, command));
        }
    }
    played
}

fn answer(scratch: &Scratch, command: &str) -> String {
    let (mut said, code) = scratch.sh(command);
    if !said.is_empty() && !said.ends_with('\n') {
        said.push('\n');
    }
    if code != 0 {
        said += &format!("[exit {code}]\n");
    }
    said
}

/// The first line that differs, with a few before it.
fn first_difference(stored: &str, played: &str) -> String {
    let same = stored
        .lines()
        .zip(played.lines())
        .take_while(|(a, b)| a == b);
    let place = same.count();
    let shown = |text: &str| {
        let lines: Vec<&str> = text.lines().skip(place.saturating_sub(3)).take(8).collect();
        lines.join("\n")
    };
    format!(
        "line {} differs\n--- stored ---\n{}\n--- played ---\n{}",
        place + 1,
        shown(stored),
        shown(played)
    )
}

#[test]
fn the_commands_answer_as_stored() {
    let transcript = fs::read_to_string(stored()).unwrap();
    let played = play(&transcript);
    if env::var_os("DESK_TRANSCRIPT") == Some("write".into()) {
        fs::write(stored(), played).unwrap();
    } else {
        assert!(
            played == transcript,
            "{}",
            first_difference(&transcript, &played)
        );
    }
}
