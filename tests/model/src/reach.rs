//! Which answers bring a run to a place.

use crate::instruction as op;
use crate::module::{Function, Module};
use std::collections::VecDeque;

/// The least length of the work area.
pub const AREA: usize = 131_072;

/// How many conditional jumps a function has.
pub fn questions(module: &Module, function: &Function) -> usize {
    let code = function.places.iter();
    code.filter(|&&place| is_question(module.bytes[place]))
        .count()
}

fn is_question(opcode: u8) -> bool {
    matches!(opcode, op::JUMP_IF_FALSE | op::JUMP_IF_TRUE)
}

/// A list of answers: one more after another list. The first of all has none.
#[derive(Clone, Copy)]
struct List {
    before: usize,
    answer: u8,
}

/// The places of a function that some list of answers reaches.
pub struct Reached {
    lists: Vec<List>,
    /// For each place, with which list it is first met.
    met: Vec<Option<usize>>,
    questions: Vec<bool>,
}

impl Reached {
    /// Runs with no answer, then with one more answer after each question that
    /// was met, as long as places are met that weren't met before.
    pub fn of(module: &Module, function: &Function) -> Self {
        let opcode = |at: usize| module.bytes[function.places[at]];
        let target = |at: usize| module.jump_target(function, at) as usize;
        let mut lists = vec![List {
            before: 0,
            answer: 0,
        }];
        let mut met = vec![None; function.places.len()];
        let mut waiting = VecDeque::from([(0, 0)]);
        while let Some((mut at, list)) = waiting.pop_front() {
            while met[at].is_none() {
                met[at] = Some(list);
                match opcode(at) {
                    op::RETURN => {}
                    op::JUMP => at = target(at),
                    op::JUMP_IF_FALSE | op::JUMP_IF_TRUE => {
                        for answer in [0, 1] {
                            let jumps = (answer == 1) == (opcode(at) == op::JUMP_IF_TRUE);
                            let next = if jumps { target(at) } else { at + 1 };
                            waiting.push_back((next, lists.len()));
                            lists.push(List {
                                before: list,
                                answer,
                            });
                        }
                    }
                    _ => at += 1,
                }
            }
        }
        let questions = (0..met.len()).map(|at| is_question(opcode(at))).collect();
        Self {
            lists,
            met,
            questions,
        }
    }

    /// A list with which the run counts the place as a step: a question counts
    /// only if it has an answer of its own.
    pub fn list(&self, place: usize) -> Option<Vec<u8>> {
        let mut at = self.met[place]?;
        let mut answers = Vec::new();
        if self.questions[place] {
            answers.push(0);
        }
        while at != 0 {
            answers.push(self.lists[at].answer);
            at = self.lists[at].before;
        }
        answers.reverse();
        Some(answers)
    }
}
