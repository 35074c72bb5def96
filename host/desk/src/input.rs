//! Reading files into buffers that wipe themselves.

use std::fs::File;
use std::io::{self, ErrorKind, Read};
use std::os::unix::fs::FileTypeExt;
use std::path::Path;

use vsss::Secret;

use crate::failure::Failure;

const RANDOM_DEVICE: &str = "/dev/urandom";

/// The first `limit` bytes of a file, or all of it where it is shorter.
pub fn read_at_most(path: &Path, limit: usize) -> Result<Secret, Failure> {
    let read = File::open(path).and_then(|mut file| read_up_to(&mut file, limit));
    read.map_err(|error| Failure::cannot_read(path, &error))
}

/// `count` bytes of the system's random device, or a failure: never fewer.
pub fn random_bytes(count: usize) -> Result<Secret, Failure> {
    read_device(Path::new(RANDOM_DEVICE), count)
}

fn read_device(path: &Path, count: usize) -> Result<Secret, Failure> {
    let name = path.display();
    let mut file = File::open(path).map_err(|error| Failure::cannot_read(path, &error))?;
    let about = file
        .metadata()
        .map_err(|error| Failure::cannot_read(path, &error))?;
    // A plain file under this name would give the same bytes each time.
    if !about.file_type().is_char_device() {
        return Err(Failure::Failed(format!(
            "{name} is not a device; it must be mended first"
        )));
    }
    let bytes = read_up_to(&mut file, count).map_err(|error| Failure::cannot_read(path, &error))?;
    if bytes.len() < count {
        let got = bytes.len();
        return Err(Failure::Failed(format!(
            "{name} gave {got} of {count} bytes; try again"
        )));
    }
    Ok(bytes)
}

/// There is room for so much at first. It is doubled while more comes: most files are short, however
/// long the longest may be.
const FIRST_ROOM: usize = 8192;

/// Reads straight into buffers that wipe themselves; a reader with a buffer of its own would leave
/// a copy.
fn read_up_to(source: &mut impl Read, limit: usize) -> io::Result<Secret> {
    let mut buffer = Secret::zeroed(limit.min(FIRST_ROOM));
    let mut filled = 0;
    while filled < limit {
        if filled == buffer.len() {
            buffer = lengthened(&buffer, limit.min(2 * filled));
        }
        match source.read(&mut buffer[filled..]) {
            Ok(0) => return Ok(Secret::copy_of(&buffer[..filled])),
            Ok(count) => filled += count,
            Err(error) if error.kind() == ErrorKind::Interrupted => {}
            Err(error) => return Err(error),
        }
    }
    Ok(buffer)
}

fn lengthened(bytes: &[u8], len: usize) -> Secret {
    let mut longer = Secret::zeroed(len);
    longer[..bytes.len()].copy_from_slice(bytes);
    longer
}

#[cfg(test)]
mod tests {
    use super::*;

    /// Gives one byte at a time, and is interrupted before each.
    struct Slow {
        left: u8,
        interrupted: bool,
    }

    impl Read for Slow {
        fn read(&mut self, buffer: &mut [u8]) -> io::Result<usize> {
            self.interrupted = !self.interrupted;
            if self.interrupted {
                return Err(ErrorKind::Interrupted.into());
            }
            if self.left == 0 {
                return Ok(0);
            }
            buffer[0] = self.left;
            self.left -= 1;
            Ok(1)
        }
    }

    #[test]
    fn reading_goes_on_until_the_end_or_the_limit() {
        let slow = || Slow {
            left: 5,
            interrupted: false,
        };
        assert_eq!(read_up_to(&mut slow(), 9).unwrap()[..], [5, 4, 3, 2, 1]);
        assert_eq!(read_up_to(&mut slow(), 5).unwrap()[..], [5, 4, 3, 2, 1]);
        assert_eq!(read_up_to(&mut slow(), 2).unwrap()[..], [5, 4]);
        assert_eq!(read_up_to(&mut slow(), 0).unwrap()[..], []);
    }

    #[test]
    fn room_is_made_as_bytes_come() {
        let bytes: Vec<u8> = (0..3 * FIRST_ROOM).map(|i| (i / 7) as u8).collect();
        for limit in [
            FIRST_ROOM - 1,
            FIRST_ROOM,
            FIRST_ROOM + 1,
            2 * FIRST_ROOM,
            usize::MAX,
        ] {
            let read = read_up_to(&mut &bytes[..], limit).unwrap();
            assert!(read[..] == bytes[..limit.min(bytes.len())], "{limit}");
        }
    }

    #[test]
    fn random_bytes_come_in_full() {
        let (one, other) = (random_bytes(5000).unwrap(), random_bytes(5000).unwrap());
        assert_eq!((one.len(), other.len()), (5000, 5000));
        assert!(one[..] != other[..]);
    }

    #[test]
    fn a_device_that_gives_too_little_is_refused() {
        let failure = read_device(Path::new("/dev/null"), 3).unwrap_err();
        assert_eq!(
            failure.to_string(),
            "desk: /dev/null gave 0 of 3 bytes; try again"
        );
    }

    #[test]
    fn a_file_in_the_place_of_the_device_is_refused() {
        let file = Path::new(env!("CARGO_MANIFEST_DIR")).join("Cargo.toml");
        let failure = read_device(&file, 3).unwrap_err();
        assert!(failure.to_string().contains("is not a device"));
    }
}
