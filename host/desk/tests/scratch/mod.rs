//! A folder to try the desk in, as an ordinary user.

use std::env;
use std::fs::{self, Permissions};
use std::os::unix::fs::{MetadataExt, PermissionsExt};
use std::os::unix::process::CommandExt;
use std::path::PathBuf;
use std::process::{self, Command};

/// Nobody: root may read and write all, so that nothing would be denied.
const ORDINARY_USER: u32 = 65_534;

/// A folder with the desk in `bin` and an empty `work`; removed when dropped.
pub struct Scratch {
    root: PathBuf,
    is_root: bool,
}

impl Scratch {
    pub fn new(name: &str) -> Scratch {
        let root = env::temp_dir().join(format!("desk-{name}-{}", process::id()));
        fs::create_dir(&root).unwrap();
        let is_root = fs::metadata(&root).unwrap().uid() == 0;
        let scratch = Scratch { root, is_root };
        scratch.fill();
        scratch
    }

    fn fill(&self) {
        let (bin, work) = (self.root.join("bin"), self.root.join("work"));
        for folder in [&bin, &work] {
            fs::create_dir(folder).unwrap();
        }
        fs::copy(env!("CARGO_BIN_EXE_desk"), bin.join("desk")).unwrap();
        for path in [&self.root, &bin, &work, &bin.join("desk")] {
            fs::set_permissions(path, Permissions::from_mode(0o755)).unwrap();
        }
        if self.is_root {
            let owner = format!("{ORDINARY_USER}:{ORDINARY_USER}");
            let given = Command::new("chown").arg(owner).arg(work).status().unwrap();
            assert!(given.success());
        }
    }

    /// What the command writes, errors too, and its exit code.
    pub fn sh(&self, command: &str) -> (String, i32) {
        let mut shell = Command::new("/bin/sh");
        shell
            .arg("-c")
            .arg(format!("exec 2>&1\numask 022\n{command}"))
            .current_dir(self.root.join("work"))
            .env_clear()
            .env("LC_ALL", "C")
            .env(
                "PATH",
                format!("{}:/usr/bin:/bin", self.root.join("bin").display()),
            );
        if self.is_root {
            shell.uid(ORDINARY_USER).gid(ORDINARY_USER);
        }
        let output = shell.output().expect(
            "an ordinary user must be able to reach the folder of temporary files; \
             let TMPDIR name another",
        );
        let said = String::from_utf8_lossy(&output.stdout).into_owned();
        (said, output.status.code().expect("ended by a signal"))
    }
}

impl Drop for Scratch {
    fn drop(&mut self) {
        // Folders that a command has shut must be opened to be removed.
        let _ = self.sh("chmod -R u+rwX .");
        let _ = fs::remove_dir_all(&self.root);
    }
}
