//! The command `rulketoos`: what the crate does, for a person at a terminal. `rulketoos --help` lists the
//! subcommands; each is a file of `commands`, with its line in the table there.
//!
//! Exit status: 0 done; 1 refused; 2 wrong usage, or a file that can't be read or written.

mod arguments;
mod commands;
mod failure;
mod input;
mod notes;
mod output;
mod places;
mod progress;
mod script;
#[cfg(test)]
mod vectors;

use arguments::{Command, Given};
use failure::Failure;
use std::env;
use std::ffi::OsString;
use std::io::{self, Write};
use std::process::ExitCode;

fn main() -> ExitCode {
    let Err(failure) = answer(env::args_os().skip(1).collect()) else {
        return ExitCode::SUCCESS;
    };
    if let Some(message) = failure.message() {
        // where standard error can't be written either, the status alone tells
        let _ = writeln!(io::stderr(), "{message}");
    }
    ExitCode::from(failure.status())
}

/// Does what the words of the command line ask for.
fn answer(words: Vec<OsString>) -> Result<(), Failure> {
    let Some((first, rest)) = words.split_first() else {
        return Err(Failure::unable(format!(
            "no command is given\n\n{}",
            overview()
        )));
    };
    match first.to_str() {
        Some("-h" | "--help" | "help") => output::text(&overview()),
        Some("-V" | "--version") => {
            output::text(concat!("rulketoos ", env!("CARGO_PKG_VERSION"), "\n"))
        }
        name => match commands::ALL
            .iter()
            .find(|command| Some(command.name) == name)
        {
            Some(command) => obey(command, rest),
            None => Err(Failure::unable(format!(
                "there is no command {}; `rulketoos --help` lists them",
                first.to_string_lossy()
            ))),
        },
    }
}

/// Does what one subcommand's words ask for.
fn obey(command: &Command, words: &[OsString]) -> Result<(), Failure> {
    match command.given(words)? {
        Given::Help => output::text(&command.help()),
        Given::Words(words) => (command.run)(&words),
    }
}

/// The subcommands, a line each.
fn overview() -> String {
    let mut text = String::from("usage: rulketoos COMMAND [WORDS]\n\n");
    for command in commands::ALL {
        text += &format!("  {:8} {}\n", command.name, command.about);
    }
    text += "\nFILE is a file, or - for standard input: a script's text (.py), a tree (.tree) or a module (.module).\n\
             `rulketoos COMMAND --help` says more, with an example.\n\
             Exit status: 0 done; 1 refused; 2 wrong usage, or a file that can't be read or written.\n";
    text
}
