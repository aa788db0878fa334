//! `rulketoos list`: the code listing for the job folder.

use crate::arguments::{Command, Words};
use crate::failure::Failure;
use crate::input::{self, Kind};
use crate::output;

pub const COMMAND: Command = Command {
    name: "list",
    operands: &["FILE"],
    least: 1,
    options: &[super::OUTPUT],
    about: "writes the code listing of a script, a tree or a module, for printing",
    more: "A script or tree is lowered first. A line has 52 characters: function, place, instruction and operands; a page\n\
           line stands before each 50. Asks questions 17 to 21 of the module. `rulketoos show` has the same lines with\n\
           what the operands stand for.",
    example: "rulketoos list samples/spine.py -o spine.listing",
    run,
};

fn run(words: &Words) -> Result<(), Failure> {
    let module = input::read(words.needed(0), Kind::Module)?.lowered()?;
    let listing =
        rulketoos::list_to_string(&module.bytes).map_err(|refusal| module.refused(refusal))?;
    output::text_to(words.option("-o"), &listing)
}
