//! `rulketoos heights`: the stack that the functions of a module need.

use crate::arguments::{Command, Words};
use crate::failure::Failure;
use crate::input::{self, Kind};
use crate::output;
use rulketoos::Refusal;

pub const COMMAND: Command = Command {
    name: "heights",
    operands: &["FILE"],
    least: 1,
    options: &[],
    about: "checks the stack heights of a module, and writes what each function needs",
    more: "FILE is a module, or a script or tree that is lowered first. Writes a line for each function: its number and the\n\
           largest height of its stack. Asks questions 17 to 21 and 37: every place that some answers bring a run to is met\n\
           at one height, has values enough, and leaves no more than that. Every module that is lowered passes.",
    example: "rulketoos heights samples/loops.py",
    run,
};

fn run(words: &Words) -> Result<(), Failure> {
    let module = input::read(words.needed(0), Kind::Module)?.lowered()?;
    rulketoos::heights_of(&module.bytes).map_err(|refusal| module.refused(refusal))?;
    let mut text = String::new();
    for function in 0.. {
        match rulketoos::height(&module.bytes, function) {
            Ok(height) => text += &format!("function {function}: {height}\n"),
            Err(Refusal::NoSuchFunction) => break,
            Err(refusal) => return Err(module.refused(refusal)),
        }
    }
    output::text(&text)
}
