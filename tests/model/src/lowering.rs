//! From a plan to code with jumps, and to the module record: question 16.

use crate::instruction::{self as op, Instruction};
use crate::plan::{ForParts, FunctionPlan, Part, Parts, Plan, ShortParts};
use crate::{height, module};

/// The module record, if it is at most `room` bytes long.
pub fn write(plan: &Plan, room: usize) -> Result<Vec<u8>, u8> {
    let mut body = vec![module::VERSION];
    count(&mut body, plan.symbols.len());
    for symbol in &plan.symbols {
        name(&mut body, symbol);
    }
    count(&mut body, plan.strings.len());
    for string in &plan.strings {
        count(&mut body, string.len());
        body.extend(*string);
    }
    count(&mut body, plan.functions.len());
    for function in &plan.functions {
        write_function(&mut body, function);
    }
    write_classes(&mut body, plan);
    let length = u32::try_from(body.len()).expect("32 bits");
    let mut module = length.to_be_bytes().to_vec();
    module.append(&mut body);
    if module.len() <= room {
        Ok(module)
    } else {
        Err(16)
    }
}

fn count(out: &mut Vec<u8>, number: usize) {
    let number = u16::try_from(number).expect("question 15 bounds it");
    out.extend(number.to_be_bytes());
}

fn name(out: &mut Vec<u8>, name: &[u8]) {
    out.push(u8::try_from(name.len()).expect("at most 64"));
    out.extend(name);
}

fn write_function(out: &mut Vec<u8>, function: &FunctionPlan) {
    out.extend(function.name.to_be_bytes());
    out.push(function.arity);
    out.extend(function.locals.to_be_bytes());
    out.extend(height::number(&function.parts).to_be_bytes());
    let code = code(&function.parts);
    count(out, code.len());
    for instruction in &code {
        out.extend(instruction.bytes());
    }
}

fn write_classes(out: &mut Vec<u8>, plan: &Plan) {
    count(out, plan.classes.len());
    for class in &plan.classes {
        name(out, class.name);
        count(out, class.methods.len());
        for (method, function) in &class.methods {
            name(out, method);
            out.extend(function.to_be_bytes());
        }
    }
    count(out, plan.constants.len());
    for class in &plan.constants {
        out.extend(class.to_be_bytes());
    }
}

/// The instructions of a function, jumps included.
pub fn code(parts: &Parts) -> Vec<Instruction> {
    let mut emitter = Emitter {
        code: Vec::new(),
        loops: Vec::new(),
    };
    emitter.parts(parts);
    emitter.code
}

/// A loop being emitted: where a round begins, and the breaks to be aimed.
struct Loop {
    start: usize,
    breaks: Vec<usize>,
}

struct Emitter {
    code: Vec<Instruction>,
    loops: Vec<Loop>,
}

impl Emitter {
    fn here(&self) -> usize {
        self.code.len()
    }

    /// Leaves room for a jump that is aimed later.
    fn hole(&mut self) -> usize {
        self.code.push(Instruction::plain(op::RETURN));
        self.here() - 1
    }

    fn aim(&mut self, opcode: u8, hole: usize, target: usize) {
        self.code[hole] = Instruction::jump(opcode, hole, target);
    }

    fn jump_to(&mut self, target: usize) {
        let place = self.here();
        self.code.push(Instruction::jump(op::JUMP, place, target));
    }

    fn parts(&mut self, parts: &Parts) {
        for part in parts {
            self.part(part);
        }
    }

    fn part(&mut self, part: &Part) {
        match part {
            Part::Op(instruction) => self.code.push(*instruction),
            Part::If(arms, otherwise) => self.if_part(arms, otherwise),
            Part::While(condition, body) => {
                let start = self.here();
                self.parts(condition);
                self.rounds(start, &Parts::new(), body);
            }
            Part::For(parts) => self.for_part(parts),
            Part::Break => {
                let hole = self.hole();
                self.innermost().breaks.push(hole);
            }
            Part::Continue => {
                let start = self.innermost().start;
                self.jump_to(start);
            }
            Part::Short(parts) => self.short_part(parts),
        }
    }

    fn innermost(&mut self) -> &mut Loop {
        self.loops.last_mut().expect("question 9 was asked")
    }

    /// Each block's end jump lands on the next arm's end jump, a chain; only
    /// the last one lands at the end of the whole.
    fn if_part(&mut self, arms: &[(Parts, Parts)], otherwise: &Parts) {
        let mut previous_end = None;
        for (condition, block) in arms {
            self.parts(condition);
            let question = self.hole();
            self.parts(block);
            let end = self.hole();
            let after = self.here();
            self.aim(op::JUMP_IF_FALSE, question, after);
            if let Some(previous) = previous_end.replace(end) {
                self.aim(op::JUMP, previous, end);
            }
        }
        self.parts(otherwise);
        let after = self.here();
        if let Some(last) = previous_end {
            self.aim(op::JUMP, last, after);
        }
    }

    fn for_part(&mut self, parts: &ForParts) {
        self.parts(&parts.before);
        let start = self.here();
        self.parts(&parts.more);
        self.rounds(start, &parts.next, &parts.body);
    }

    /// The question of a loop, its body, and the jump back.
    fn rounds(&mut self, start: usize, next: &Parts, body: &Parts) {
        let question = self.hole();
        self.parts(next);
        self.loops.push(Loop {
            start,
            breaks: Vec::new(),
        });
        self.parts(body);
        self.jump_to(start);
        let end = self.here();
        self.aim(op::JUMP_IF_FALSE, question, end);
        let done = self.loops.pop().expect("pushed above");
        for hole in done.breaks {
            self.aim(op::JUMP, hole, end);
        }
    }

    fn short_part(&mut self, parts: &ShortParts) {
        self.parts(&parts.left);
        let question = self.hole();
        self.parts(&parts.right);
        let end = self.hole();
        let short_way = self.here();
        self.aim(parts.question, question, short_way);
        self.code.push(parts.value);
        let after = self.here();
        self.aim(op::JUMP, end, after);
    }
}
