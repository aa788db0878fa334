//! The tool in Python that gives the trees of scripts' texts.

use crate::failure::Failure;
use crate::places::Places;
use std::cell::RefCell;
use std::env;
use std::io::{self, ErrorKind, Read, Write};
use std::path::{Path, PathBuf};
use std::process::{Child, ChildStdin, ChildStdout, Command, Stdio};
use std::thread::{self, JoinHandle};

const TOOL: &str = "tree_of.py";

/// Names the folder of the tools where it isn't the repository's.
const FOLDER: &str = "RULKETOOS_TOOLS";

thread_local! {
    /// Started at the first script, and kept for those after it.
    static STARTED: RefCell<Option<Tool>> = const { RefCell::new(None) };
}

/// The tree of a script's text, and where its parts stand in the text.
pub fn tree_of(name: &str, text: &[u8]) -> Result<(Vec<u8>, Places), Failure> {
    let (unfit, told) = STARTED.with_borrow_mut(|started| answer(started, name, text))?;
    if unfit {
        let wrong = String::from_utf8_lossy(&told);
        return Err(Failure::Refused(format!("{name}{wrong}")));
    }
    parted(told).ok_or_else(|| {
        Failure::unable(format!(
            "{TOOL} gave no tree with places: it is not this repository's"
        ))
    })
}

/// What the tool answers; where it ends instead, what it says of that.
fn answer(started: &mut Option<Tool>, name: &str, text: &[u8]) -> Result<(bool, Vec<u8>), Failure> {
    let mut tool = match started.take() {
        Some(tool) => tool,
        None => Tool::start()?,
    };
    match tool.ask(text) {
        Ok(answer) => {
            *started = Some(tool);
            Ok(answer)
        }
        Err(error) => {
            let said = tool.end();
            let said = if said.is_empty() {
                error.to_string()
            } else {
                said
            };
            Err(Failure::unable(format!("{TOOL} failed on {name}:\n{said}")))
        }
    }
}

/// A tree and the lines after it, which its header tells apart.
fn parted(mut told: Vec<u8>) -> Option<(Vec<u8>, Places)> {
    let header = *told.first_chunk()?;
    let end = usize::try_from(u32::from_be_bytes(header))
        .ok()?
        .checked_add(4)?;
    if told.len() < end {
        return None;
    }
    let places = Places::of(&told.split_off(end))?;
    Some((told, places))
}

/// The tool as it runs: it answers each script before it reads the next.
struct Tool {
    child: Child,
    scripts: ChildStdin,
    answers: ChildStdout,
    said: JoinHandle<Vec<u8>>,
}

impl Tool {
    fn start() -> Result<Tool, Failure> {
        let path = folder()?.join(TOOL);
        let mut child = Command::new("python3")
            .arg(path)
            .arg("--each")
            .env("PYTHONUTF8", "1")
            .stdin(Stdio::piped())
            .stdout(Stdio::piped())
            .stderr(Stdio::piped())
            .spawn()
            .map_err(|error| match error.kind() {
                ErrorKind::NotFound => Failure::unable(format!(
                    "python3 is missing, and {TOOL} needs it: install Python 3.8 or later; trees (.tree) and modules \
                     (.module) can be lowered, checked, read, listed and run without it"
                )),
                _ => Failure::unable(format!("python3 can't be started: {error}")),
            })?;
        let scripts = child.stdin.take().expect("standard input was asked for");
        let answers = child.stdout.take().expect("standard output was asked for");
        let mut error = child.stderr.take().expect("standard error was asked for");
        // warnings must not fill the pipe
        let said = thread::spawn(move || {
            let mut said = Vec::new();
            error.read_to_end(&mut said).ok();
            said
        });
        Ok(Tool {
            child,
            scripts,
            answers,
            said,
        })
    }

    /// Whether a script is unfit, and why; else its tree and places.
    fn ask(&mut self, text: &[u8]) -> io::Result<(bool, Vec<u8>)> {
        let Tool {
            scripts, answers, ..
        } = self;
        let length = u32::try_from(text.len()).map_err(io::Error::other)?;
        thread::scope(|scope| {
            // a tool that ends early says why on its standard error
            scope.spawn(move || {
                scripts.write_all(&length.to_be_bytes())?;
                scripts.write_all(text)
            });
            let mut head = [0; 5];
            answers.read_exact(&mut head)?;
            let [unfit, length @ ..] = head;
            let length = u32::from_be_bytes(length);
            let mut told = Vec::new();
            answers.take(length.into()).read_to_end(&mut told)?;
            Ok((unfit != 0, told))
        })
    }

    /// Ends it; what it said on its standard error.
    fn end(mut self) -> String {
        drop(self.scripts);
        drop(self.answers);
        self.child.wait().ok();
        let said = self.said.join().unwrap_or_default();
        String::from_utf8_lossy(&said).trim_end().to_string()
    }
}

/// The folder with the tool: as the environment says, or the repository's.
fn folder() -> Result<PathBuf, Failure> {
    let has = |folder: &Path| folder.join(TOOL).is_file();
    if let Some(folder) = env::var_os(FOLDER) {
        let folder = PathBuf::from(folder);
        return if has(&folder) {
            Ok(folder)
        } else {
            Err(Failure::unable(format!(
                "{FOLDER} is {}, which has no {TOOL}",
                folder.display()
            )))
        };
    }
    let own = env::current_exe().unwrap_or_default();
    let mut folders = own.ancestors().map(|above| above.join("tools"));
    let built = Path::new(env!("CARGO_MANIFEST_DIR")).join("../../tools");
    folders
        .find(|folder| has(folder))
        .or_else(|| has(&built).then_some(built))
        .ok_or_else(|| {
            Failure::unable(format!(
                "{TOOL} is missing: let {FOLDER} name the folder tools of Rulketoos' repository"
            ))
        })
}
