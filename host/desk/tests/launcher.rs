//! The scripts `desk` at the root, `host/library`, `host/clang-here` and `host/cargo`: what they
//! build, when, and what they say where a tool is missing. They are played in a copy of the tree,
//! with stand-ins for the tools that do little more than say that they were called.

use std::os::unix::fs::PermissionsExt;
use std::path::{Path, PathBuf};
use std::process::{self, Command};
use std::sync::{Mutex, MutexGuard, PoisonError};
use std::time::Duration;
use std::{env, fs, thread};

const SOURCES: [&str; 9] = [
    "crates/vsss/src/lib.rt",
    "crates/vsss_c/src/lib.rt",
    "crates.txt",
    "host/Cargo.toml",
    "host/vsss/Cargo.toml",
    "host/vsss/build.rs",
    "host/vsss/src/lib.rs",
    "host/desk/Cargo.toml",
    "host/desk/src/main.rs",
];

const SCRIPTS: [&str; 4] = ["desk", "host/library", "host/clang-here", "host/cargo"];

/// What the scripts use of the system.
const BORROWED: [&str; 15] = [
    "basename", "cat", "chmod", "cp", "dirname", "find", "grep", "head", "ln", "mkdir", "mv",
    "readlink", "rm", "sed", "sh",
];

const TOOLS: [(&str, &str); 3] = [("rt", RT), ("cargo", CARGO), ("cc", "#!/bin/sh\n")];

/// Compiles, where it stands in for a kit shown to itself, by the clang of that kit.
const RT: &str = "#!/bin/sh
case $1 in doc) echo \"${0%/bin/rt}/kit/guide\"; exit ;; esac
echo \"rt $*\"
mkdir -p out
module=out/module.bc
printf 'target datalayout = \"theirs\"\\ntarget triple = \"theirs\"\\ncode\\n' > $module
clang=${RATTLE_HOME-}/on/aarch64/toolchain/bin/clang
if [ ! -x \"$clang\" ]; then mv $module out/libvsss_c.a; exit; fi
\"$clang\" --target=x86_64 -march=x86-64 -O3 -c -x ir $module -o out/libvsss_c.a
";

/// Shows a module as text, and compiles it by copying; before that, the words of the call.
const CLANG: &str = "#!/bin/sh
words=$*
for word; do last=$word; case $word in /dev/null|*.bc|*.ll) input=$word ;; esac; done
case $words in
*/dev/null*) printf 'target datalayout = \"ours\"\\ntarget triple = \"ours\"\\n' ;;
*-emit-llvm*) cat \"$input\" > \"$last\" ;;
*) { echo \"$words\"; cat \"$input\"; } > \"$last\" ;;
esac
";

const CARGO: &str = "#!/bin/sh
echo \"cargo $1, library ${VSSS_LIB_DIR-as proved}\"
while [ \"$1\" != --target-dir ]; do shift; done
folder=$2/release
mkdir -p \"$folder\"
printf '#!/bin/sh\\necho \"ran: $*\"\\n' > \"$folder/desk\"
chmod +x \"$folder/desk\"
";

/// One tree at a time: a program cannot be run while another test, about to start one of its own,
/// still holds it open.
static ONE_AT_A_TIME: Mutex<()> = Mutex::new(());

/// A tree with the scripts and sources, and a folder `bin` that is the whole PATH.
struct Tree {
    root: PathBuf,
    _turn: MutexGuard<'static, ()>,
}

impl Tree {
    fn new(name: &str, processor: &str) -> Tree {
        let turn = ONE_AT_A_TIME.lock().unwrap_or_else(PoisonError::into_inner);
        let root = env::temp_dir().join(format!("desk-launcher-{name}-{}", process::id()));
        fs::create_dir(&root).unwrap();
        let tree = Tree { root, _turn: turn };
        for source in SOURCES {
            tree.write(source, "");
        }
        for script in SCRIPTS {
            let original = Path::new(env!("CARGO_MANIFEST_DIR"))
                .join("../..")
                .join(script);
            tree.write_program(script, &fs::read_to_string(original).unwrap());
        }
        tree.borrow_tools();
        tree.write_program("bin/uname", &format!("#!/bin/sh\necho {processor}\n"));
        tree.give_all_tools();
        tree.write_program("kit/on/aarch64/toolchain/bin/clang", CLANG);
        tree
    }

    fn write(&self, path: &str, text: &str) {
        let path = self.root.join(path);
        fs::create_dir_all(path.parent().unwrap()).unwrap();
        fs::write(path, text).unwrap();
    }

    fn write_program(&self, path: &str, text: &str) {
        self.write(path, text);
        fs::set_permissions(self.root.join(path), fs::Permissions::from_mode(0o755)).unwrap();
    }

    fn borrow_tools(&self) {
        for tool in BORROWED {
            let paths = ["/usr/bin", "/bin"].map(|folder| Path::new(folder).join(tool));
            let found = paths.iter().find(|path| path.exists()).unwrap();
            let text = format!("#!/bin/sh\nexec {} \"$@\"\n", found.display());
            self.write_program(&format!("bin/{tool}"), &text);
        }
    }

    fn give_all_tools(&self) {
        for (tool, text) in TOOLS {
            self.write_program(&format!("bin/{tool}"), text);
        }
    }

    /// What `./desk split "a b"` writes, errors last, and its exit code.
    fn run(&self) -> (String, i32) {
        let output = Command::new(self.root.join("desk"))
            .args(["split", "a b"])
            .current_dir("/")
            .env_clear()
            .env("PATH", self.root.join("bin"))
            .env("VSSS_LIB_DIR", "elsewhere")
            .output()
            .unwrap();
        let said = [output.stdout, output.stderr].concat();
        let said = String::from_utf8(said).unwrap();
        (said, output.status.code().unwrap())
    }

    /// Makes the file newer than all that was built, whatever the steps of the disk's clock.
    fn touch(&self, path: &str) {
        thread::sleep(Duration::from_millis(20));
        self.write(path, "touched");
        thread::sleep(Duration::from_millis(20));
    }

    fn is_named_when_missing(&self, tool: &str, how: &str) {
        fs::remove_file(self.root.join("bin").join(tool)).unwrap();
        let (said, code) = self.run();
        assert_eq!(code, 1, "{said}");
        let named = format!("cannot build: the command '{tool}' is missing; ");
        assert!(said.contains(&named), "{said}");
        assert!(said.contains(how), "{said}");
        self.give_all_tools();
    }
}

impl Drop for Tree {
    fn drop(&mut self) {
        let _ = fs::remove_dir_all(&self.root);
    }
}

#[test]
fn all_is_built_once_and_then_it_is_quiet() {
    let tree = Tree::new("once", "x86_64");
    let (said, code) = tree.run();
    assert_eq!(code, 0, "{said}");
    assert!(said.starts_with("ran: split a b\ndesk: proving"), "{said}");
    let builds = "\nrt lib\nfor this machine: target/host/libvsss.a\n\
                  cargo build, library as proved\n";
    assert!(said.ends_with(builds), "{said}");
    assert_eq!(tree.run(), ("ran: split a b\n".to_string(), 0));
}

#[test]
fn on_another_processor_the_module_is_compiled_for_it() {
    let tree = Tree::new("elsewhere", "aarch64");
    let (said, code) = tree.run();
    assert_eq!(code, 0, "{said}");
    let archive = fs::read_to_string(tree.root.join("target/host/libvsss.a")).unwrap();
    let made = "--target=aarch64-unknown-linux-gnu -O3 -c -x ir out/module.ll \
                -o out/libvsss_c.a\n\
                target datalayout = \"ours\"\ntarget triple = \"ours\"\ncode\n";
    assert_eq!(archive, made);
    assert_eq!(tree.run(), ("ran: split a b\n".to_string(), 0));
}

#[test]
fn what_is_older_than_its_source_is_built_again() {
    let tree = Tree::new("again", "x86_64");
    tree.run();
    for source in SOURCES {
        tree.touch(source);
        let (said, _) = tree.run();
        assert!(said.contains("cargo build"), "{source}: {said}");
        let proved_again = said.contains("rt lib");
        assert_eq!(
            proved_again,
            source.starts_with("crates"),
            "{source}: {said}"
        );
    }
}

#[test]
fn what_the_kit_keeps_beside_its_sources_is_no_source() {
    let tree = Tree::new("kept", "x86_64");
    tree.run();
    tree.touch("crates/vsss/out/kept");
    assert_eq!(tree.run(), ("ran: split a b\n".to_string(), 0));
}

#[test]
fn a_missing_tool_is_named_with_how_to_get_it() {
    let tree = Tree::new("missing", "x86_64");
    tree.is_named_when_missing("rt", "the Rattle kit");
    tree.is_named_when_missing("cargo", "rustup.rs");
    tree.is_named_when_missing("cc", "apt install gcc");
}

#[test]
fn what_was_not_built_is_not_run() {
    for tool in ["rt", "cargo"] {
        let tree = Tree::new(&format!("fails-{tool}"), "x86_64");
        tree.write_program(&format!("bin/{tool}"), "#!/bin/sh\necho no >&2; exit 3\n");
        let (said, code) = tree.run();
        assert_eq!(code, 1);
        assert!(said.contains("no\ndesk: the "), "{said}");
        assert!(said.ends_with("could not be built; see above\n"), "{said}");
    }
}
