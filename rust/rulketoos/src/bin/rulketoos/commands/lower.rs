//! `rulketoos lower`: a script or a tree to a module.

use crate::arguments::{Command, Opt, Words};
use crate::failure::Failure;
use crate::input::{self, Kind};
use crate::output;

pub const COMMAND: Command = Command {
    name: "lower",
    operands: &["FILE"],
    least: 1,
    options: &[super::CONSOLE, MEASURED, super::OUTPUT],
    about: "lowers a script or a tree to a module",
    more: "Asks questions 2 to 15, 33 and 36, 15 by the limits of the office or, with --console, of the console at the\n\
           casing-in machine. The module's bytes are written, or nothing. With --measured they are made by the plain lowering,\n\
           which docs/LOWERING.md reads aloud; they are the same.",
    example: "rulketoos lower samples/spine.py -o spine.module",
    run,
};

/// Which of the two lowerings.
const MEASURED: Opt = Opt {
    name: "--measured",
    value: None,
    about:
        "lowers by measured lengths, with every jump written as it stays; the bytes are the same",
};

fn run(words: &Words) -> Result<(), Failure> {
    let source = input::read(words.needed(0), Kind::Tree)?.source()?;
    let limits = super::limits(words);
    let module = match words.option(MEASURED.name) {
        Some(_) => source.lowered_measured(limits)?,
        None => source.lowered(limits)?,
    };
    output::bytes(words.option("-o"), &module)
}
