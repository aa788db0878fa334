//! The run of one function: questions 22 to 24.

use crate::instruction as op;
use crate::module::{Function, Module};

/// What a run answers.
#[derive(Debug, Clone, PartialEq, Eq)]
pub struct Ran {
    /// 1 returned, 2 no answer left, 3 budget spent.
    pub ending: u8,
    pub steps: u64,
    pub used: usize,
    pub events: Vec<u8>,
}

/// Runs a function of a module that was read; 24 where the events do not fit.
pub fn run(
    module: &Module,
    function: &Function,
    answers: &[u8],
    budget: u64,
    room: usize,
) -> Result<Ran, u8> {
    let mut runner = Runner::new(module, function, answers);
    while runner.ran.ending == 0 {
        runner.step(budget);
        if runner.ran.events.len() > room {
            return Err(24);
        }
    }
    Ok(runner.ran)
}

/// The places that a run counts as steps, in order, if its budget is without
/// end. A run that counts more steps without an answer than there are places
/// goes round for ever, and counts no other place.
pub fn places_met<'r>(
    module: &'r Module<'r>,
    function: &'r Function,
    answers: &'r [u8],
) -> impl Iterator<Item = usize> + 'r {
    let mut runner = Runner::new(module, function, answers);
    let mut alone = 0;
    std::iter::from_fn(move || {
        let (place, steps, used) = (runner.place, runner.ran.steps, runner.ran.used);
        if runner.ran.ending != 0 || alone > function.places.len() {
            return None;
        }
        runner.step(u64::MAX);
        runner.ran.events.clear();
        alone = if runner.ran.used > used { 0 } else { alone + 1 };
        (runner.ran.steps > steps).then_some(place)
    })
}

struct Runner<'r> {
    module: &'r Module<'r>,
    function: &'r Function,
    answers: &'r [u8],
    place: usize,
    jumps_in_a_row: usize,
    ran: Ran,
}

impl<'r> Runner<'r> {
    fn new(module: &'r Module<'r>, function: &'r Function, answers: &'r [u8]) -> Self {
        Self {
            module,
            function,
            answers,
            place: 0,
            jumps_in_a_row: 0,
            ran: Ran {
                ending: 0,
                steps: 0,
                used: 0,
                events: Vec::new(),
            },
        }
    }

    /// Budget first, then answers.
    fn step(&mut self, budget: u64) {
        if self.ran.steps == budget {
            self.ran.ending = 3;
            return;
        }
        match self.bytes()[0] {
            op::JUMP => self.jump(budget),
            opcode @ (op::JUMP_IF_FALSE | op::JUMP_IF_TRUE) => self.question(opcode),
            opcode => self.other(opcode),
        }
    }

    fn bytes(&self) -> &[u8] {
        self.module.instruction(self.function, self.place)
    }

    fn target(&self) -> usize {
        let target = self.module.jump_target(self.function, self.place);
        usize::try_from(target).expect("question 21 was asked")
    }

    /// More jumps in a row than there are places go round for ever: such a
    /// run spends its whole budget, however large.
    fn jump(&mut self, budget: u64) {
        self.ran.steps += 1;
        self.place = self.target();
        self.jumps_in_a_row += 1;
        if self.jumps_in_a_row > self.function.places.len() {
            self.ran.steps = budget;
        }
    }

    /// Without an answer left the question is no step.
    fn question(&mut self, opcode: u8) {
        let Some(&answer) = self.answers.get(self.ran.used) else {
            self.ran.ending = 2;
            return;
        };
        self.ran.used += 1;
        self.ran.steps += 1;
        self.ran.events.extend([opcode, answer]);
        self.jumps_in_a_row = 0;
        let jumps = (answer == 1) == (opcode == op::JUMP_IF_TRUE);
        self.place = if jumps { self.target() } else { self.place + 1 };
    }

    fn other(&mut self, opcode: u8) {
        self.ran.steps += 1;
        let bytes = self.bytes().to_vec();
        self.ran.events.extend(bytes);
        self.jumps_in_a_row = 0;
        self.place += 1;
        if opcode == op::RETURN {
            self.ran.ending = 1;
        }
    }
}
