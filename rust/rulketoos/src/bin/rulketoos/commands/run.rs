//! `rulketoos run`: a function on yes and no answers.

use crate::arguments::{self, Command, Opt, Words};
use crate::failure::Failure;
use crate::input::{self, Kind, Module};
use crate::output;
use rulketoos::{Ending, Refusal, Run};
use std::ffi::OsStr;
use std::fmt::Write;

pub const COMMAND: Command = Command {
    name: "run",
    operands: &["FILE", "FUNCTION", "ANSWERS"],
    least: 2,
    options: &[Opt {
        name: "--budget",
        value: Some("STEPS"),
        about: "how many instructions may be met at the most; 100000 if none is given",
    }],
    about: "runs a function on a list of yes and no answers",
    more: "FILE is a module, or a script or tree that is lowered first; function 0 is main. ANSWERS is a word of 0 (no)\n\
           and 1 (yes), in the order in which conditions are met. Writes how the run ended, the steps, the answers used\n\
           and the events: each instruction's bytes, a condition's opcode and its answer. Asks questions 17 to 24.",
    example: "rulketoos run samples/loops.py 0 1101 --budget 1000",
    run,
};

/// The budget where none is given: more steps than a function has instructions.
pub const BUDGET: u64 = 100_000;

/// The longest event buffer that is tried: what is longer is of no use to a person.
const MOST: usize = 256 << 20;

fn run(words: &Words) -> Result<(), Failure> {
    let function = arguments::number("FUNCTION", words.needed(1))?;
    let answers = answers(words.operand(2).unwrap_or_default())?;
    let budget = match words.option("--budget") {
        Some(word) => arguments::number("STEPS", word)?,
        None => BUDGET,
    };
    let module = input::read(words.needed(0), Kind::Module)?.lowered()?;
    output::text(&outcome(&module, function, &answers, budget)?)
}

/// What a run comes to, as text.
pub fn outcome(
    module: &Module,
    function: u64,
    answers: &[u8],
    budget: u64,
) -> Result<String, Failure> {
    let mut room = 1 << 16;
    loop {
        let mut events = vec![0; room];
        match rulketoos::run(&module.bytes, function, answers, budget, &mut events) {
            Ok(run) => return Ok(shown(&run)),
            Err(Refusal::EventsTooShort) if room < MOST => room *= 4,
            Err(refusal) => return Err(module.refused(refusal)),
        }
    }
}

/// The answers of a word of digits; question 23 is the run's to ask.
fn answers(word: &OsStr) -> Result<Vec<u8>, Failure> {
    let digit = |byte: &u8| byte.is_ascii_digit().then(|| byte - b'0');
    let answers: Option<_> = word.as_encoded_bytes().iter().map(digit).collect();
    answers.ok_or_else(|| {
        let word = word.to_string_lossy();
        Failure::unable(format!(
            "ANSWERS is a word of 0 and 1, as 1101, not {word:?}"
        ))
    })
}

fn shown(run: &Run) -> String {
    let ending = match run.ending {
        Ending::Returned => "returned",
        Ending::NoAnswerLeft => "no answer left",
        Ending::BudgetSpent => "budget spent",
    };
    let number = run.ending.number();
    let mut text = format!(
        "ending: {number} ({ending})\nsteps: {}\nanswers used: {}\nevents: ",
        run.steps, run.used
    );
    for byte in run.events {
        write!(text, "{byte:02x}").expect("a string takes all text");
    }
    text + if run.events.is_empty() { "-\n" } else { "\n" }
}
