//! `rulketoos reach`: answers that bring a run to a place.

use super::run::{outcome, BUDGET};
use crate::arguments::{self, Command, Opt, Words};
use crate::failure::Failure;
use crate::input::{self, Kind};
use crate::output;

pub const COMMAND: Command = Command {
    name: "reach",
    operands: &["FILE", "FUNCTION", "PLACE"],
    least: 3,
    options: &[Opt {
        name: "--run",
        value: None,
        about: "runs the function with these answers, too, and writes what `rulketoos run` writes",
    }],
    about: "finds answers that bring a run to a place",
    more: "FILE is a module, or a script or tree that is lowered first; function 0 is main. PLACE is an instruction's place in\n\
           the function, as `rulketoos show` has it. Writes yes (1) and no (0) answers with which the run of the function\n\
           meets the place (- where it needs none), or `none` where no answers bring a run there. Asks questions 17 to 22\n\
           and 34.",
    example: "rulketoos reach samples/loops.py 0 32 --run",
    run,
};

fn run(words: &Words) -> Result<(), Failure> {
    let function = arguments::number("FUNCTION", words.needed(1))?;
    let place = arguments::number("PLACE", words.needed(2))?;
    let module = input::read(words.needed(0), Kind::Module)?.lowered()?;
    let found = rulketoos::reach_to_vec(&module.bytes, function, place)
        .map_err(|refusal| module.refused(refusal))?;
    let Some(answers) = found else {
        return output::text("none\n");
    };
    let mut text = format!("answers: {}\n", shown(&answers));
    if words.option("--run").is_some() {
        // no function has as many instructions as the budget has steps, so it is enough
        text += &outcome(&module, function, &answers, BUDGET)?;
    }
    output::text(&text)
}

/// Answers as a word of 0 and 1.
fn shown(answers: &[u8]) -> String {
    if answers.is_empty() {
        return "-".to_string();
    }
    answers.iter().map(u8::to_string).collect()
}
