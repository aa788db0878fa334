//! `rulketoos sheet`: the count sheet, for estimates.

use crate::arguments::{Command, Words};
use crate::failure::Failure;
use crate::input::{self, Kind};
use crate::output;

pub const COMMAND: Command = Command {
    name: "sheet",
    operands: &["FILE"],
    least: 1,
    options: &[super::OUTPUT],
    about: "writes the count sheet of a script, a tree or a module",
    more: "A script or tree is lowered first. A line has 40 characters: a function's number, its instructions, conditional\n\
           jumps and calls; the last line has the totals. Asks questions 17 to 21 of the module.",
    example: "rulketoos sheet samples/spine.py",
    run,
};

fn run(words: &Words) -> Result<(), Failure> {
    let module = input::read(words.needed(0), Kind::Module)?.lowered()?;
    let sheet = rulketoos::count_sheet_to_string(&module.bytes)
        .map_err(|refusal| module.refused(refusal))?;
    output::text_to(words.option("-o"), &sheet)
}
