//! Why the desk stopped, in words that a person can act on.

use std::fmt;
use std::io::{self, ErrorKind};
use std::path::Path;

use vsss::Refusal;

/// Why no file was written or changed.
#[derive(Debug)]
pub enum Failure {
    /// The command line is wrong; `page` is the command whose help tells more.
    Usage { page: &'static str, message: String },
    /// The library refused; the message says which file or identifier.
    Refused { refusal: Refusal, message: String },
    /// The system failed, or a file was in the way.
    Failed(String),
}

impl Failure {
    pub fn exit_code(&self) -> u8 {
        match self {
            Failure::Refused { .. } | Failure::Failed(_) => 1,
            Failure::Usage { .. } => 2,
        }
    }

    pub fn cannot_read(path: &Path, error: &io::Error) -> Failure {
        Failure::Failed(format!("cannot read {}: {}", path.display(), reason(error)))
    }

    pub fn cannot_write(path: &Path, error: &io::Error) -> Failure {
        let reason = match error.kind() {
            ErrorKind::NotFound => "the folder for it is missing; make that first".to_string(),
            _ => reason(error),
        };
        Failure::Failed(format!("cannot write {}: {reason}", path.display()))
    }
}

impl fmt::Display for Failure {
    fn fmt(&self, f: &mut fmt::Formatter<'_>) -> fmt::Result {
        match self {
            Failure::Usage { page, message } => {
                write!(f, "desk: {message}\nSee '{page} --help'.")
            }
            Failure::Refused { refusal, message } => {
                let (number, name) = (refusal.number(), refusal.name());
                write!(f, "desk: refused: {number} {name}: {message}")
            }
            Failure::Failed(message) => write!(f, "desk: {message}"),
        }
    }
}

fn reason(error: &io::Error) -> String {
    let known = match error.raw_os_error() {
        Some(errno::NO_SUCH_FILE) => "there is no such file; check the name",
        Some(errno::PERMISSION_DENIED) => "permission denied; check owner and mode (ls -l)",
        Some(errno::NOT_A_FOLDER) => "a part of the path is a file, not a folder",
        Some(errno::IS_A_FOLDER) => "it is a folder, not a file",
        Some(errno::FILE_TOO_LARGE) => "the system allows no file of that size (ulimit -f)",
        Some(errno::DISK_FULL) => "the disk is full; free some room and try again",
        Some(errno::READ_ONLY) => "the disk can only be read; choose another place",
        Some(errno::QUOTA) => "your part of the disk is used up; free some room and try again",
        _ => return error.to_string(),
    };
    known.to_string()
}

/// Linux's numbers. Rust has names for all of them only lately.
mod errno {
    pub const NO_SUCH_FILE: i32 = 2;
    pub const PERMISSION_DENIED: i32 = 13;
    pub const NOT_A_FOLDER: i32 = 20;
    pub const IS_A_FOLDER: i32 = 21;
    pub const FILE_TOO_LARGE: i32 = 27;
    pub const DISK_FULL: i32 = 28;
    pub const READ_ONLY: i32 = 30;
    pub const QUOTA: i32 = 122;
}

#[cfg(test)]
mod tests {
    use super::*;

    #[test]
    fn a_refusal_shows_number_and_name() {
        let failure = Failure::Refused {
            refusal: Refusal::TooLong,
            message: "key.bin is long".to_string(),
        };
        assert_eq!(
            failure.to_string(),
            "desk: refused: 10 TooLong: key.bin is long"
        );
        assert_eq!(failure.exit_code(), 1);
    }

    #[test]
    fn wrong_usage_points_to_its_page() {
        let failure = Failure::Usage {
            page: "desk split",
            message: "no --out".to_string(),
        };
        assert_eq!(
            failure.to_string(),
            "desk: no --out\nSee 'desk split --help'."
        );
        assert_eq!(failure.exit_code(), 2);
    }
}
