//! What a command writes: text or bytes, to standard output or to a file that is whole or isn't there.

use crate::failure::Failure;
use std::ffi::{OsStr, OsString};
use std::fs::{self, File, OpenOptions};
use std::io::{self, ErrorKind, IsTerminal, Write};
use std::path::{Path, PathBuf};
use std::process;

/// Text to standard output.
pub fn text(text: &str) -> Result<(), Failure> {
    standard(text.as_bytes())
}

/// Text to the file that the option -o names, or to standard output.
pub fn text_to(file: Option<&OsStr>, text: &str) -> Result<(), Failure> {
    named(file, text.as_bytes())
}

/// Bytes to the file that the option -o names, or to standard output where that is no terminal.
pub fn bytes(file: Option<&OsStr>, bytes: &[u8]) -> Result<(), Failure> {
    if file.is_none() && io::stdout().is_terminal() {
        return Err(Failure::unable(
            "what is written is no text, and standard output is a terminal: name a file with -o FILE",
        ));
    }
    named(file, bytes)
}

/// To the file of that name; no name, and `-`, are standard output.
fn named(file: Option<&OsStr>, bytes: &[u8]) -> Result<(), Failure> {
    match file {
        Some(file) if file != "-" => {
            let path = Path::new(file);
            whole(path, bytes).map_err(|error| {
                Failure::unable(format!("{} can't be written: {error}", path.display()))
            })
        }
        _ => standard(bytes),
    }
}

fn standard(bytes: &[u8]) -> Result<(), Failure> {
    let mut out = io::stdout().lock();
    match out.write_all(bytes).and_then(|()| out.flush()) {
        Ok(()) => Ok(()),
        Err(error) if error.kind() == ErrorKind::BrokenPipe => Err(Failure::Unread),
        Err(error) => Err(Failure::unable(format!(
            "standard output can't be written: {error}"
        ))),
    }
}

/// Writes a file in one go: a new file beside it gets the bytes and then its name. What is no plain file (a device, a
/// pipe) is written as it is.
fn whole(path: &Path, bytes: &[u8]) -> io::Result<()> {
    let path = fs::canonicalize(path).unwrap_or_else(|_| path.to_path_buf());
    let before = fs::metadata(&path).ok();
    if before.as_ref().is_some_and(|known| !known.is_file()) {
        return OpenOptions::new().write(true).open(&path)?.write_all(bytes);
    }
    let (aside, mut file) = beside(&path)?;
    let done = file
        .write_all(bytes)
        .and_then(|()| before.map_or(Ok(()), |known| file.set_permissions(known.permissions())))
        .and_then(|()| file.sync_all())
        .and_then(|()| fs::rename(&aside, &path));
    if done.is_err() {
        let _ = fs::remove_file(&aside);
    }
    done
}

/// A new file in the same folder, of a name that nothing has.
fn beside(path: &Path) -> io::Result<(PathBuf, File)> {
    let name = path.file_name().ok_or(ErrorKind::IsADirectory)?;
    for attempt in 0..100 {
        let mut aside = OsString::from(".");
        aside.push(name);
        aside.push(format!(".{}-{attempt}", process::id()));
        let aside = path.with_file_name(aside);
        match OpenOptions::new().write(true).create_new(true).open(&aside) {
            Ok(file) => return Ok((aside, file)),
            Err(error) if error.kind() == ErrorKind::AlreadyExists => {}
            Err(error) => return Err(error),
        }
    }
    Err(ErrorKind::AlreadyExists.into())
}
