//! The command as a person meets it: a folder of their own, words, what is typed in, and what comes back.

use std::env;
use std::fs;
use std::io::Write;
use std::os::unix::fs::symlink;
use std::path::{Path, PathBuf};
use std::process::{self, Command, Stdio};
use std::sync::atomic::{AtomicUsize, Ordering};

pub const COMMAND: &str = env!("CARGO_BIN_EXE_rulketoos");

/// The repository's root.
pub fn root() -> PathBuf {
    Path::new(env!("CARGO_MANIFEST_DIR")).join("../..")
}

/// A folder that is gone when its person is.
pub struct Person {
    pub folder: PathBuf,
}

/// What came back.
#[derive(Debug)]
pub struct Reply {
    pub status: i32,
    pub out: Vec<u8>,
    pub said: String,
}

impl Person {
    /// A person with a copy of the samples, and the folder of them.
    pub fn new() -> Person {
        static NEXT: AtomicUsize = AtomicUsize::new(0);
        let next = NEXT.fetch_add(1, Ordering::Relaxed);
        let folder = env::temp_dir().join(format!("rulketoos-test-{}-{next}", process::id()));
        fs::create_dir(&folder).expect("a folder of the test's own");
        for entry in fs::read_dir(root().join("samples")).expect("the samples") {
            let from = entry.expect("a sample").path();
            let name = from.file_name().expect("a name");
            fs::copy(&from, folder.join(name)).expect("a copy");
        }
        symlink(root().join("samples"), folder.join("samples")).expect("a link");
        Person { folder }
    }

    pub fn has(&self, name: &str, bytes: impl AsRef<[u8]>) -> &Person {
        fs::write(self.folder.join(name), bytes).expect("a file of the test's own");
        self
    }

    pub fn file(&self, name: &str) -> Option<Vec<u8>> {
        fs::read(self.folder.join(name)).ok()
    }

    /// How many things are in the folder.
    pub fn count(&self) -> usize {
        fs::read_dir(&self.folder).expect("the folder").count()
    }

    /// The command in that folder, not yet started.
    pub fn command(&self, program: &str, words: &[&str]) -> Command {
        let mut command = Command::new(program);
        command
            .args(words)
            .current_dir(&self.folder)
            .env_remove("RULKETOOS_TOOLS");
        command
    }

    /// Types the words, and the input after them.
    pub fn types(&self, words: &[&str], input: &[u8]) -> Reply {
        reply(&mut self.command(COMMAND, words), input)
    }
}

impl Drop for Person {
    fn drop(&mut self) {
        let _ = fs::remove_dir_all(&self.folder);
    }
}

/// Starts a command and waits for what comes back.
pub fn reply(command: &mut Command, input: &[u8]) -> Reply {
    let piped = command
        .stdin(Stdio::piped())
        .stdout(Stdio::piped())
        .stderr(Stdio::piped());
    let mut child = piped.spawn().expect("the command starts");
    // a command that doesn't read its input leaves it
    let _ = child.stdin.take().expect("its input").write_all(input);
    let done = child.wait_with_output().expect("the command ends");
    Reply {
        status: done.status.code().expect("it ends by itself"),
        out: done.stdout,
        said: String::from_utf8(done.stderr).expect("text"),
    }
}
