//! The subcommands: a file each, and a line each in the table, by which help and parsing go.

mod check;
mod code;
mod cut;
mod heights;
mod list;
mod lower;
mod order;
mod reach;
mod read;
mod run;
mod sheet;
mod show;
mod sort;

use crate::arguments::{Command, Opt, Words};
use rulketoos::Limits;

/// In the order in which a person meets them.
pub const ALL: &[Command] = &[
    show::COMMAND,
    list::COMMAND,
    sheet::COMMAND,
    lower::COMMAND,
    check::COMMAND,
    cut::COMMAND,
    read::COMMAND,
    heights::COMMAND,
    code::COMMAND,
    run::COMMAND,
    reach::COMMAND,
    order::COMMAND,
    sort::COMMAND,
];

/// Where bytes or text go, for each command that writes a file.
const OUTPUT: Opt = Opt {
    name: "-o",
    value: Some("FILE"),
    about: "the file to write; it is whole or isn't there. Standard output if none is given",
};

/// Which set of limits a script is lowered by, for each command that lowers one.
const CONSOLE: Opt = Opt {
    name: "--console",
    value: None,
    about: "lowers by the console's limits; by the office's if it isn't given",
};

/// The set that the words ask for.
fn limits(words: &Words) -> Limits {
    match words.option(CONSOLE.name) {
        Some(_) => Limits::Console,
        None => Limits::Office,
    }
}
