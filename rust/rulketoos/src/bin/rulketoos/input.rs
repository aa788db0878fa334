//! What a command is given: a script's text, a tree or a module, from a file or standard input.

use crate::failure::Failure;
use crate::places::{self, Places};
use crate::script;
use rulketoos::{Areas, Limits, Refusal, MODULE_ROOM};
use std::ffi::OsStr;
use std::fs::File;
use std::io::{self, Read};
use std::path::Path;

/// No script, tree or module is longer, so that a file without end is told.
const LONGEST: u64 = 16 << 20;

#[derive(Clone, Copy, PartialEq, Eq)]
pub enum Kind {
    Script,
    Tree,
    Module,
}

impl Kind {
    fn words(self) -> &'static str {
        match self {
            Kind::Script => "a script",
            Kind::Tree => "a tree",
            Kind::Module => "a module",
        }
    }
}

/// Bytes that were read, and what they are.
pub struct Input {
    name: String,
    kind: Kind,
    bytes: Vec<u8>,
}

/// A tree, and the script that it came from.
pub struct Source {
    pub name: String,
    pub tree: Vec<u8>,
    script: Option<Script>,
}

/// A script's text, and where the parts of its tree stand in it.
struct Script {
    text: Vec<u8>,
    places: Places,
}

/// A module, and the name to speak of it.
pub struct Module {
    name: String,
    pub bytes: Vec<u8>,
}

/// Reads a file or standard input. `wanted` is what bytes are taken for that might be anything.
pub fn read(file: &OsStr, wanted: Kind) -> Result<Input, Failure> {
    let (name, read) = if file == "-" {
        ("standard input".to_string(), limited(io::stdin().lock()))
    } else {
        let name = Path::new(file).display().to_string();
        (name, File::open(file).and_then(limited))
    };
    let bytes = read.map_err(|error| Failure::unable(format!("{name} can't be read: {error}")))?;
    if bytes.len() as u64 > LONGEST {
        return Err(Failure::unable(format!(
            "{name} has more than {LONGEST} bytes: no script, tree or module has"
        )));
    }
    Ok(match told(file, &bytes) {
        Some(kind) => Input { name, kind, bytes },
        None => Input {
            name: format!("{name} (taken for {})", wanted.words()),
            kind: wanted,
            bytes,
        },
    })
}

fn limited(from: impl Read) -> io::Result<Vec<u8>> {
    let mut bytes = Vec::new();
    from.take(LONGEST + 1).read_to_end(&mut bytes)?;
    Ok(bytes)
}

/// Bytes that read as a module or a tree are one; else the extension tells; else text is a script; else nothing tells.
fn told(file: &OsStr, bytes: &[u8]) -> Option<Kind> {
    if reads_as_module(bytes) {
        return Some(Kind::Module);
    }
    if reads_as_tree(bytes) {
        return Some(Kind::Tree);
    }
    match Path::new(file).extension().and_then(OsStr::to_str) {
        Some("py") => Some(Kind::Script),
        Some("tree") => Some(Kind::Tree),
        Some("module") => Some(Kind::Module),
        _ => is_text(bytes).then_some(Kind::Script),
    }
}

/// Whether bytes are text: UTF-8, and some. Both records begin with a zero byte, text doesn't.
fn is_text(bytes: &[u8]) -> bool {
    bytes.first().is_some_and(|&first| first != 0) && std::str::from_utf8(bytes).is_ok()
}

/// Whether bytes have a module's layout, whatever is in it.
fn reads_as_module(bytes: &[u8]) -> bool {
    !matches!(
        rulketoos::read(bytes),
        Err(Refusal::ModuleHeader | Refusal::ModuleVersion | Refusal::ModuleLayout)
    )
}

/// Whether bytes have a tree's layout, whatever is in it.
fn reads_as_tree(bytes: &[u8]) -> bool {
    !matches!(
        rulketoos::check(bytes),
        Err(Refusal::TreeTooLong
            | Refusal::TreeHeader
            | Refusal::TreeVersion
            | Refusal::TreeLayout)
    )
}

impl Input {
    /// The tree of a script or tree.
    pub fn source(self) -> Result<Source, Failure> {
        let Input { name, kind, bytes } = self;
        match kind {
            Kind::Script => {
                let (tree, places) = script::tree_of(&name, &bytes)?;
                let script = Some(Script { text: bytes, places });
                Ok(Source { name, tree, script })
            }
            Kind::Tree => Ok(Source { name, tree: bytes, script: None }),
            Kind::Module => Err(Failure::unable(format!(
                "{name} is a module, and a script or a tree is wanted here: a module is lowered already"
            ))),
        }
    }

    /// A module as it is.
    pub fn module(self) -> Result<Module, Failure> {
        let Input { name, kind, bytes } = self;
        if kind == Kind::Module {
            return Ok(Module { name, bytes });
        }
        let what = kind.words();
        Err(Failure::unable(format!(
            "{name} is {what}, and a module is wanted here: `rulketoos lower` makes one"
        )))
    }

    /// A module, or what a script or tree is lowered to at the office.
    pub fn lowered(self) -> Result<Module, Failure> {
        self.lowered_by(Limits::Office)
    }

    /// A module, or what a script or tree is lowered to by these limits. The console's say nothing of a module.
    pub fn lowered_by(self, limits: Limits) -> Result<Module, Failure> {
        match (self.kind, limits) {
            (Kind::Module, Limits::Office) => return self.module(),
            (Kind::Module, Limits::Console) => return Err(Failure::unable(format!(
                "{} is a module, and --console is for a script or a tree: a module is lowered already",
                self.name
            ))),
            (Kind::Script | Kind::Tree, _) => {}
        }
        let source = self.source()?;
        let bytes = source.lowered(limits)?;
        Ok(Module {
            name: source.name,
            bytes,
        })
    }
}

impl Source {
    /// The module of the tree.
    pub fn lowered(&self, limits: Limits) -> Result<Vec<u8>, Failure> {
        rulketoos::lower_to_vec(&self.tree, limits).map_err(|refusal| self.refused(refusal))
    }

    /// The same by measured lengths.
    pub fn lowered_measured(&self, limits: Limits) -> Result<Vec<u8>, Failure> {
        let mut module = vec![0; MODULE_ROOM];
        let count = rulketoos::lower_measured(&self.tree, limits, &mut Areas::new(), &mut module)
            .map_err(|refusal| self.refused(refusal))?;
        module.truncate(count);
        Ok(module)
    }

    /// The refusal as what keeps a command from being done.
    pub fn refused(&self, refusal: Refusal) -> Failure {
        Failure::Refused(self.told(refusal))
    }

    /// The refusal in words, with the first place where its question is answered no.
    pub fn told(&self, refusal: Refusal) -> String {
        let noes = places::noes(&self.tree, refusal);
        let place = match &self.script {
            Some(script) => {
                let first = noes.iter().filter_map(|&at| script.places.at(at)).min();
                first.map(|(line, column)| format!("{line}:{column}: "))
            }
            None => noes.first().map(|at| format!(" byte {at}: ")),
        };
        let place = place.unwrap_or_else(|| " ".to_string());
        format!("{}:{place}{refusal}", self.name)
    }

    /// The lines of the script with their numbers, from that of the statement that begins at the first byte to the last
    /// of the one that begins at the other; none where there is no script.
    pub fn lines(&self, first: usize, last: usize) -> Option<Vec<(usize, String)>> {
        let script = self.script.as_ref()?;
        let wanted = script.places.lines(first, last)?;
        let text = String::from_utf8_lossy(&script.text);
        let text = text.trim_start_matches('\u{feff}');
        // as Python parts lines
        let text = text.replace("\r\n", "\n").replace('\r', "\n");
        let lines = (1..).zip(text.split('\n').map(str::to_string));
        Some(
            lines
                .filter(|(number, _)| wanted.contains(number))
                .collect(),
        )
    }
}

impl Module {
    /// The refusal of the module, or of a call on it, in words.
    pub fn refused(&self, refusal: Refusal) -> Failure {
        Failure::Refused(format!("{}: {refusal}", self.name))
    }
}
