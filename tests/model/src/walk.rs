//! The walk: through the tree's own shape, with no jumps.

use crate::instruction as op;
use crate::plan::{ForParts, Part, Parts, ShortParts};

/// What a walk ends with.
#[derive(Debug, Clone, PartialEq, Eq)]
pub struct Walked {
    /// 1 returned, 2 no answer left.
    pub ending: u8,
    pub used: usize,
    pub events: Vec<u8>,
}

/// Walks through one function's body.
pub fn walk(parts: &Parts, answers: &[u8]) -> Walked {
    let mut walker = Walker {
        answers,
        used: 0,
        events: Vec::new(),
    };
    let Err(Leave::End(ending)) = walker.parts(parts) else {
        unreachable!("a body ends in Return");
    };
    Walked {
        ending,
        used: walker.used,
        events: walker.events,
    }
}

/// Why the rest of a list of parts is not walked.
enum Leave {
    End(u8),
    Break,
    Continue,
}

struct Walker<'w> {
    answers: &'w [u8],
    used: usize,
    events: Vec<u8>,
}

impl Walker<'_> {
    fn parts(&mut self, parts: &Parts) -> Result<(), Leave> {
        for part in parts {
            self.part(part)?;
        }
        Ok(())
    }

    fn part(&mut self, part: &Part) -> Result<(), Leave> {
        match part {
            Part::Op(instruction) => {
                self.events.extend(instruction.bytes());
                if instruction.bytes()[0] == op::RETURN {
                    return Err(Leave::End(1));
                }
                Ok(())
            }
            Part::If(arms, otherwise) => self.if_part(arms, otherwise),
            Part::While(condition, body) => {
                while {
                    self.parts(condition)?;
                    self.question(op::JUMP_IF_FALSE)?
                } {
                    if !self.round(body)? {
                        break;
                    }
                }
                Ok(())
            }
            Part::For(parts) => self.for_part(parts),
            Part::Break => Err(Leave::Break),
            Part::Continue => Err(Leave::Continue),
            Part::Short(parts) => self.short_part(parts),
        }
    }

    /// Takes the next answer and adds its event.
    fn question(&mut self, opcode: u8) -> Result<bool, Leave> {
        let Some(answer) = self.answers.get(self.used) else {
            return Err(Leave::End(2));
        };
        self.used += 1;
        self.events.extend([opcode, *answer]);
        Ok(*answer == 1)
    }

    /// One round of a loop's body; false means that a break left the loop.
    fn round(&mut self, body: &Parts) -> Result<bool, Leave> {
        match self.parts(body) {
            Ok(()) | Err(Leave::Continue) => Ok(true),
            Err(Leave::Break) => Ok(false),
            Err(end) => Err(end),
        }
    }

    fn if_part(&mut self, arms: &[(Parts, Parts)], otherwise: &Parts) -> Result<(), Leave> {
        for (condition, block) in arms {
            self.parts(condition)?;
            if self.question(op::JUMP_IF_FALSE)? {
                return self.parts(block);
            }
        }
        self.parts(otherwise)
    }

    fn for_part(&mut self, parts: &ForParts) -> Result<(), Leave> {
        self.parts(&parts.before)?;
        loop {
            self.parts(&parts.more)?;
            if !self.question(op::JUMP_IF_FALSE)? {
                return Ok(());
            }
            self.parts(&parts.next)?;
            if !self.round(&parts.body)? {
                return Ok(());
            }
        }
    }

    /// `and`: yes takes the right. `or`: no takes the right.
    fn short_part(&mut self, parts: &ShortParts) -> Result<(), Leave> {
        self.parts(&parts.left)?;
        let yes = self.question(parts.question)?;
        if yes == (parts.question == op::JUMP_IF_FALSE) {
            self.parts(&parts.right)
        } else {
            self.events.extend(parts.value.bytes());
            Ok(())
        }
    }
}
