//! `rulketoos read`: the questions that a module is asked.

use crate::arguments::{Command, Words};
use crate::failure::Failure;
use crate::input::{self, Kind};
use crate::output;

pub const COMMAND: Command = Command {
    name: "read",
    operands: &["FILE"],
    least: 1,
    options: &[],
    about: "asks questions 17 to 21 of a module",
    more: "Writes `accepted`, or says which question is answered no. Every module that is lowered is accepted.",
    example: "rulketoos read samples/spine.module",
    run,
};

fn run(words: &Words) -> Result<(), Failure> {
    let module = input::read(words.needed(0), Kind::Module)?.module()?;
    rulketoos::read(&module.bytes).map_err(|refusal| module.refused(refusal))?;
    output::text("accepted\n")
}
