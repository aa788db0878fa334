//! `rulketoos show`: the listing with names.

use crate::arguments::{Command, Words};
use crate::failure::Failure;
use crate::input::{self, Kind};
use crate::{notes, output};

pub const COMMAND: Command = Command {
    name: "show",
    operands: &["FILE"],
    least: 1,
    options: &[super::CONSOLE],
    about: "shows the code of a script, a tree or a module, with names",
    more: "A script or tree is lowered first. Each line of the listing (`rulketoos list`) is followed by what its operands\n\
           stand for; before a function's first line stands its name with its parameters and slots, and the classes\n\
           come last.",
    example: "rulketoos show samples/spine.py",
    run,
};

fn run(words: &Words) -> Result<(), Failure> {
    let module = input::read(words.needed(0), Kind::Module)?.lowered_by(super::limits(words))?;
    let listing =
        rulketoos::list_to_string(&module.bytes).map_err(|refusal| module.refused(refusal))?;
    output::text(&notes::noted(&module.bytes, &listing))
}
