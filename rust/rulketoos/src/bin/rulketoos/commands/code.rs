//! `rulketoos code`: the code of one function.

use crate::arguments::{self, Command, Words};
use crate::failure::Failure;
use crate::input::{self, Kind};
use crate::output;

pub const COMMAND: Command = Command {
    name: "code",
    operands: &["FILE", "FUNCTION"],
    least: 2,
    options: &[super::OUTPUT],
    about: "writes the bytes of one function's code",
    more: "FILE is a module, or a script or tree that is lowered first. Function 0 is main.\n\
           Asks questions 17 to 22 of the module. `rulketoos show` has the code as text.",
    example: "rulketoos code samples/spine.py 1 -o warn.code",
    run,
};

fn run(words: &Words) -> Result<(), Failure> {
    let function = arguments::number("FUNCTION", words.needed(1))?;
    let module = input::read(words.needed(0), Kind::Module)?.lowered()?;
    let code =
        rulketoos::code(&module.bytes, function).map_err(|refusal| module.refused(refusal))?;
    output::bytes(words.option("-o"), code)
}
