//! Writing files so that each appears whole or not at all, and several appear together or not at
//! all; and writing secrets to standard output.

use std::fs::{self, DirBuilder, File, OpenOptions};
use std::io::{self, ErrorKind, Write};
use std::os::unix::fs::{DirBuilderExt, MetadataExt, OpenOptionsExt};
use std::os::unix::io::AsFd;
use std::path::{Path, PathBuf};
use std::process;

use crate::failure::Failure;

/// Readable and writable by the owner alone.
const FILE_MODE: u32 = 0o600;
const FOLDER_MODE: u32 = 0o700;

/// Whether both paths lead to one file that exists.
pub fn same_file(one: &Path, other: &Path) -> bool {
    match (fs::metadata(one), fs::metadata(other)) {
        (Ok(one), Ok(other)) => (one.dev(), one.ino()) == (other.dev(), other.ino()),
        _ => false,
    }
}

/// Writes straight to standard output: the library's own writer has a buffer, which could keep a
/// copy of what is secret.
pub fn to_standard_output(what: &str, bytes: &[u8]) -> Result<(), Failure> {
    let output = io::stdout().as_fd().try_clone_to_owned().map(File::from);
    let written = output.and_then(|mut output| output.write_all(bytes));
    written.map_err(|error| Failure::cannot_write(Path::new(what), &error))
}

/// A folder for files. Where it had to be made it is removed again, unless it was kept.
pub struct Folder {
    path: PathBuf,
    to_remove: bool,
}

impl Folder {
    pub fn open(path: &Path) -> Result<Folder, Failure> {
        match fs::metadata(path) {
            Ok(found) if found.is_dir() => Ok(Folder {
                path: path.into(),
                to_remove: false,
            }),
            Ok(_) => {
                let name = path.display();
                Err(Failure::Failed(format!(
                    "{name} is a file, not a folder; name another folder"
                )))
            }
            Err(error) if error.kind() == ErrorKind::NotFound => Folder::make(path),
            Err(error) => Err(Failure::cannot_write(path, &error)),
        }
    }

    fn make(path: &Path) -> Result<Folder, Failure> {
        let made = DirBuilder::new().mode(FOLDER_MODE).create(path);
        made.map_err(|error| Failure::cannot_write(path, &error))?;
        Ok(Folder {
            path: path.into(),
            to_remove: true,
        })
    }

    pub fn keep(mut self) {
        self.to_remove = false;
    }
}

impl Drop for Folder {
    fn drop(&mut self) {
        if self.to_remove {
            // Fails where somebody else has put a file there: then it has to stay.
            let _ = fs::remove_dir(&self.path);
        }
    }
}

/// Files that are to appear together, in one folder.
pub struct Delivery {
    force: bool,
    files: Vec<NewFile>,
}

impl Delivery {
    /// Looks at the places first, so that no secret byte goes to the disk for a place that is taken.
    pub fn to<P: AsRef<Path>>(places: &[P], force: bool) -> Result<Delivery, Failure> {
        for place in places {
            may_be_written(place.as_ref(), force)?;
        }
        Ok(Delivery {
            force,
            files: Vec::new(),
        })
    }

    /// Writes the bytes to the disk, under another name in the folder of `place`.
    pub fn add(&mut self, place: &Path, bytes: &[u8]) -> Result<(), Failure> {
        let written = NewFile::write(place, bytes);
        let file = written.map_err(|error| Failure::cannot_write(place, &error))?;
        self.files.push(file);
        Ok(())
    }

    /// Gives every file its name. Where one cannot have it, none keeps it: dropping undoes.
    pub fn publish(mut self) -> Result<(), Failure> {
        for file in &mut self.files {
            file.publish(self.force)?;
        }
        if let Some(file) = self.files.last() {
            sync_folder_of(&file.place);
        }
        for file in &mut self.files {
            file.settle();
        }
        Ok(())
    }
}

/// A file on its way to its place. Dropped before it is settled, it leaves things as they were.
struct NewFile {
    place: PathBuf,
    /// Where the bytes are until they are in place.
    waiting: Option<PathBuf>,
    published: bool,
    /// Where the file that was replaced is kept.
    replaced: Option<PathBuf>,
}

impl NewFile {
    fn write(place: &Path, bytes: &[u8]) -> io::Result<NewFile> {
        let (waiting, mut target) = under_free_name(place, create_new)?;
        let file = NewFile {
            place: place.into(),
            waiting: Some(waiting),
            published: false,
            replaced: None,
        };
        write_through(&mut target, bytes)?;
        Ok(file)
    }

    fn publish(&mut self, force: bool) -> Result<(), Failure> {
        let moved = match may_be_written(&self.place, force)? {
            Place::Taken => self.replace(),
            Place::Free => self.appear(),
        };
        moved.map_err(|error| match error.kind() {
            ErrorKind::AlreadyExists => already_there(&self.place),
            _ => Failure::cannot_write(&self.place, &error),
        })
    }

    /// Takes the place only if it is free.
    fn appear(&mut self) -> io::Result<()> {
        if let Some(waiting) = &self.waiting {
            match fs::hard_link(waiting, &self.place) {
                // Some disks, such as those of cameras and sticks, know no second name of a file.
                Err(error) if knows_no_links(&error) => return self.claim_and_move(),
                linked => linked?,
            }
            self.published = true;
            fs::remove_file(waiting)?;
            self.waiting = None;
        }
        Ok(())
    }

    /// As `appear`: an empty file holds the place until the bytes are moved there.
    fn claim_and_move(&mut self) -> io::Result<()> {
        create_new(&self.place)?;
        self.published = true;
        self.move_to_place()
    }

    /// Takes the place of a file, which is kept until all is done.
    fn replace(&mut self) -> io::Result<()> {
        self.replaced = Some(keep_under_other_name(&self.place)?);
        self.move_to_place()
    }

    fn move_to_place(&mut self) -> io::Result<()> {
        if let Some(waiting) = &self.waiting {
            fs::rename(waiting, &self.place)?;
            self.published = true;
            self.waiting = None;
        }
        Ok(())
    }

    fn settle(&mut self) {
        self.published = false;
        if let Some(kept) = self.replaced.take() {
            // A second copy of what was to be replaced; it hinders nothing.
            let _ = fs::remove_file(kept);
        }
    }

    fn undo(&mut self) -> io::Result<()> {
        let cleared = match self.waiting.take() {
            Some(waiting) => fs::remove_file(waiting),
            None => Ok(()),
        };
        let restored = match self.replaced.take() {
            Some(kept) => put_back(&kept, &self.place),
            None if self.published => fs::remove_file(&self.place),
            None => Ok(()),
        };
        cleared.and(restored)
    }
}

impl Drop for NewFile {
    fn drop(&mut self) {
        if let Err(error) = self.undo() {
            let place = self.place.display();
            let _ = writeln!(io::stderr(), "desk: could not undo all at {place}: {error}");
        }
    }
}

/// A place that may be written.
enum Place {
    Free,
    /// By a plain file that may be replaced.
    Taken,
}

fn may_be_written(place: &Path, force: bool) -> Result<Place, Failure> {
    let name = place.display();
    match fs::symlink_metadata(place) {
        Ok(found) if found.is_dir() => {
            Err(Failure::Failed(format!("{name} is a folder; name a file")))
        }
        Ok(_) if !force => Err(already_there(place)),
        Ok(found) if !found.is_file() => Err(Failure::Failed(format!(
            "{name} is not a plain file; --force replaces no other"
        ))),
        Ok(_) => Ok(Place::Taken),
        Err(error) if error.kind() == ErrorKind::NotFound => Ok(Place::Free),
        Err(error) => Err(Failure::cannot_write(place, &error)),
    }
}

fn already_there(place: &Path) -> Failure {
    let name = place.display();
    Failure::Failed(format!(
        "{name} is there already; choose another name, or add --force to replace it"
    ))
}

/// Names in the folder of `place` to be tried in turn; short, whatever the name of `place` is.
fn names_beside(place: &Path) -> impl Iterator<Item = PathBuf> + '_ {
    (0..).map(|attempt: u32| place.with_file_name(format!(".desk-{}-{attempt}", process::id())))
}

/// Does `make` under the first name beside `place` that is free.
fn under_free_name<T>(
    place: &Path,
    make: impl Fn(&Path) -> io::Result<T>,
) -> io::Result<(PathBuf, T)> {
    for name in names_beside(place) {
        match make(&name) {
            Err(error) if error.kind() == ErrorKind::AlreadyExists => {}
            made => return made.map(|made| (name, made)),
        }
    }
    Err(ErrorKind::AlreadyExists.into())
}

fn keep_under_other_name(place: &Path) -> io::Result<PathBuf> {
    let keep = |name: &Path| match fs::hard_link(place, name) {
        Err(error) if knows_no_links(&error) => rename_to_free(place, name),
        linked => linked,
    };
    under_free_name(place, keep).map(|(name, ())| name)
}

fn rename_to_free(place: &Path, name: &Path) -> io::Result<()> {
    if fs::symlink_metadata(name).is_ok() {
        return Err(ErrorKind::AlreadyExists.into());
    }
    fs::rename(place, name)
}

fn put_back(kept: &Path, place: &Path) -> io::Result<()> {
    fs::rename(kept, place)?;
    // Where both are names of one file, renaming leaves both.
    match fs::remove_file(kept) {
        Err(error) if error.kind() == ErrorKind::NotFound => Ok(()),
        removed => removed,
    }
}

fn create_new(path: &Path) -> io::Result<File> {
    OpenOptions::new()
        .write(true)
        .create_new(true)
        .mode(FILE_MODE)
        .open(path)
}

fn write_through(file: &mut File, bytes: &[u8]) -> io::Result<()> {
    file.write_all(bytes)?;
    file.sync_all()
}

fn knows_no_links(error: &io::Error) -> bool {
    matches!(
        error.kind(),
        ErrorKind::PermissionDenied | ErrorKind::Unsupported
    )
}

/// So that the name, too, outlasts a power failure. The bytes are on the disk already and not every
/// folder can do this, so a failure here is none of the whole.
fn sync_folder_of(place: &Path) {
    let folder = match place.parent() {
        Some(folder) if folder != Path::new("") => folder,
        _ => Path::new("."),
    };
    let _ = File::open(folder).and_then(|folder| folder.sync_all());
}

#[cfg(test)]
mod tests {
    use super::*;
    use std::env;

    /// An empty folder that is removed with all that is in it.
    struct Scratch(PathBuf);

    impl Scratch {
        fn new(name: &str) -> Scratch {
            let path = env::temp_dir().join(format!("desk-output-{name}-{}", process::id()));
            fs::create_dir(&path).unwrap();
            Scratch(path)
        }

        fn join(&self, name: &str) -> PathBuf {
            self.0.join(name)
        }

        /// Names and contents, hidden ones too.
        fn contents(&self) -> Vec<(String, String)> {
            let mut files: Vec<_> = fs::read_dir(&self.0)
                .unwrap()
                .map(|entry| {
                    let entry = entry.unwrap();
                    let text = fs::read_to_string(entry.path()).unwrap_or_default();
                    (entry.file_name().into_string().unwrap(), text)
                })
                .collect();
            files.sort();
            files
        }

        fn holds(&self, expected: &[(&str, &str)]) {
            let expected: Vec<_> = expected
                .iter()
                .map(|(name, text)| (name.to_string(), text.to_string()))
                .collect();
            assert_eq!(self.contents(), expected);
        }
    }

    impl Drop for Scratch {
        fn drop(&mut self) {
            let _ = fs::remove_dir_all(&self.0);
        }
    }

    /// As if the places were free when they were looked at.
    fn unjudged(force: bool) -> Delivery {
        Delivery::to::<PathBuf>(&[], force).unwrap()
    }

    fn deliver(scratch: &Scratch, names: &[&str], force: bool) -> Result<(), Failure> {
        let mut delivery = unjudged(force);
        for name in names {
            delivery.add(&scratch.join(name), b"new")?;
        }
        delivery.publish()
    }

    #[test]
    fn a_taken_place_is_seen_before_anything_is_written() {
        let scratch = Scratch::new("first");
        fs::write(scratch.join("b"), "old").unwrap();
        fs::create_dir(scratch.join("c")).unwrap();
        let judged = |names: &[&str], force| {
            let places: Vec<PathBuf> = names.iter().map(|name| scratch.join(name)).collect();
            Delivery::to(&places, force).map(drop)
        };
        assert!(judged(&["a", "b"], false).is_err());
        assert!(judged(&["a", "b"], true).is_ok());
        assert!(judged(&["a", "c"], true).is_err());
        scratch.holds(&[("b", "old"), ("c", "")]);
    }

    #[test]
    fn files_appear_together() {
        let scratch = Scratch::new("together");
        deliver(&scratch, &["a", "b"], false).unwrap();
        scratch.holds(&[("a", "new"), ("b", "new")]);
        for name in ["a", "b"] {
            assert_eq!(
                fs::metadata(scratch.join(name)).unwrap().mode() & 0o7777,
                FILE_MODE
            );
        }
    }

    #[test]
    fn nothing_is_seen_before_all_is_written() {
        let scratch = Scratch::new("before");
        let mut delivery = unjudged(false);
        delivery.add(&scratch.join("a"), b"new").unwrap();
        assert!(!scratch.join("a").exists());
        drop(delivery);
        scratch.holds(&[]);
    }

    #[test]
    fn one_name_taken_undoes_all() {
        let scratch = Scratch::new("taken");
        fs::write(scratch.join("c"), "old").unwrap();
        let failure = deliver(&scratch, &["a", "b", "c"], false).unwrap_err();
        assert!(failure.to_string().contains("c is there already"));
        scratch.holds(&[("c", "old")]);
    }

    #[test]
    fn force_replaces_and_leaves_no_trace() {
        let scratch = Scratch::new("force");
        fs::write(scratch.join("a"), "old").unwrap();
        deliver(&scratch, &["a", "b"], true).unwrap();
        scratch.holds(&[("a", "new"), ("b", "new")]);
        assert_eq!(
            fs::metadata(scratch.join("a")).unwrap().mode() & 0o7777,
            FILE_MODE
        );
    }

    #[test]
    fn a_failure_under_force_brings_the_old_files_back() {
        let scratch = Scratch::new("back");
        fs::write(scratch.join("a"), "old").unwrap();
        fs::create_dir(scratch.join("c")).unwrap();
        let failure = deliver(&scratch, &["a", "b", "c"], true).unwrap_err();
        assert!(failure.to_string().contains("c is a folder"));
        scratch.holds(&[("a", "old"), ("c", "")]);
    }

    #[test]
    fn an_old_file_is_put_back_whether_or_not_it_was_replaced() {
        let scratch = Scratch::new("put-back");
        let place = scratch.join("a");
        for replace in [false, true] {
            fs::write(&place, "old").unwrap();
            let mut file = NewFile::write(&place, b"new").unwrap();
            file.replaced = Some(keep_under_other_name(&place).unwrap());
            if replace {
                file.move_to_place().unwrap();
            }
            drop(file);
            scratch.holds(&[("a", "old")]);
        }
        let kept = scratch.join("kept");
        rename_to_free(&place, &kept).unwrap();
        assert!(rename_to_free(&kept, &kept).is_err());
        put_back(&kept, &place).unwrap();
        scratch.holds(&[("a", "old")]);
    }

    #[test]
    fn force_replaces_plain_files_only() {
        let scratch = Scratch::new("plain");
        fs::write(scratch.join("a"), "old").unwrap();
        std::os::unix::fs::symlink("a", scratch.join("link")).unwrap();
        let failure = deliver(&scratch, &["link"], true).unwrap_err();
        assert!(failure.to_string().contains("not a plain file"));
        scratch.holds(&[("a", "old"), ("link", "old")]);
    }

    #[test]
    fn disks_without_links_are_served_too() {
        let scratch = Scratch::new("nolinks");
        fs::write(scratch.join("b"), "old").unwrap();
        let mut file = NewFile::write(&scratch.join("a"), b"new").unwrap();
        file.claim_and_move().unwrap();
        file.settle();
        let mut file = NewFile::write(&scratch.join("b"), b"new").unwrap();
        let error = file.claim_and_move().unwrap_err();
        assert_eq!(error.kind(), ErrorKind::AlreadyExists);
        drop(file);
        scratch.holds(&[("a", "new"), ("b", "old")]);
    }

    #[test]
    fn a_full_disk_is_named() {
        let mut full = OpenOptions::new().write(true).open("/dev/full").unwrap();
        let error = write_through(&mut full, b"new").unwrap_err();
        let failure = Failure::cannot_write(Path::new("rows/1.row"), &error);
        assert_eq!(
            failure.to_string(),
            "desk: cannot write rows/1.row: the disk is full; free some room and try again"
        );
    }

    #[test]
    fn a_long_name_is_no_hindrance() {
        let scratch = Scratch::new("long");
        let name = "n".repeat(255);
        deliver(&scratch, &[&name], false).unwrap();
        scratch.holds(&[(&name, "new")]);
    }

    #[test]
    fn a_folder_is_made_and_removed_unless_kept() {
        let scratch = Scratch::new("folder");
        drop(Folder::open(&scratch.join("new")).unwrap());
        scratch.holds(&[]);
        Folder::open(&scratch.join("new")).unwrap().keep();
        drop(Folder::open(&scratch.join("new")).unwrap());
        scratch.holds(&[("new", "")]);
        assert_eq!(
            fs::metadata(scratch.join("new")).unwrap().mode() & 0o7777,
            FOLDER_MODE
        );
    }
}
