//! `rulketoos check`: the questions that a tree is asked by itself.

use crate::arguments::{Command, Words};
use crate::failure::Failure;
use crate::input::{self, Kind};
use crate::output;

pub const COMMAND: Command = Command {
    name: "check",
    operands: &["FILE"],
    least: 1,
    options: &[],
    about: "asks questions 2 to 13, 33 and 36 of a script or a tree",
    more: "Writes `accepted`, or says which question is answered no, and where.",
    example: "rulketoos check samples/spine.py",
    run,
};

fn run(words: &Words) -> Result<(), Failure> {
    let source = input::read(words.needed(0), Kind::Tree)?.source()?;
    rulketoos::check(&source.tree).map_err(|refusal| source.refused(refusal))?;
    output::text("accepted\n")
}
