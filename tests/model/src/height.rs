//! Stack heights: what an instruction pops and pushes, the number in a
//! function's record, and question 37.

use crate::instruction as op;
use crate::module::{Function, Module};
use crate::plan::{ForParts, Part, Parts, ShortParts};

/// How many values an instruction pops, and how many it pushes; by its bytes.
pub fn effect(bytes: &[u8]) -> (usize, usize) {
    let wide = || usize::from(u16::from_be_bytes([bytes[1], bytes[2]]));
    match bytes[0] {
        op::CONST_I64..=op::LOAD_CONST | op::LOAD_LOCAL | op::LOAD_GLOBAL => (0, 1),
        op::POP | op::STORE_LOCAL | op::STORE_GLOBAL => (1, 0),
        op::DUP => (1, 2),
        op::NEG | op::POS | op::NOT | op::LOAD_ATTR => (1, 1),
        op::JUMP | op::RETURN => (0, 0),
        op::JUMP_IF_FALSE | op::JUMP_IF_TRUE => (1, 0),
        op::CALL | op::MAKE_CLOSURE => (bytes[3].into(), 1),
        op::CALL_BUILTIN => (bytes[2].into(), 1),
        op::CALL_VALUE => (usize::from(bytes[1]) + 1, 1),
        op::CALL_METHOD => (usize::from(bytes[3]) + 1, 1),
        op::BUILD_DICT => (2 * wide(), 1),
        op::BUILD_LIST..=op::BUILD_TREE_SET => (wide(), 1),
        op::STORE_ATTR => (2, 0),
        op::STORE_INDEX => (3, 0),
        // Operators of two operands, and LoadIndex.
        _ => (2, 1),
    }
}

/// The largest height that an instruction of a function leaves, each of its
/// statements and its end starting at 0, whether a run reaches them or not.
pub fn number(parts: &Parts) -> u16 {
    let mut count = Count { largest: 0 };
    count.parts(parts, 0);
    u16::try_from(count.largest).expect("question 15 bounds it")
}

struct Count {
    largest: usize,
}

impl Count {
    /// The height after parts that start at a height.
    fn parts(&mut self, parts: &Parts, start: usize) -> usize {
        parts
            .iter()
            .fold(start, |height, part| self.part(part, height))
    }

    fn part(&mut self, part: &Part, height: usize) -> usize {
        match part {
            Part::Op(instruction) => self.op(instruction.bytes(), height),
            Part::If(arms, otherwise) => {
                for (condition, block) in arms {
                    self.asked(condition);
                    self.statements(block);
                }
                self.statements(otherwise)
            }
            Part::While(condition, body) => {
                self.asked(condition);
                self.statements(body)
            }
            Part::For(parts) => self.for_part(parts),
            Part::Break | Part::Continue => 0,
            Part::Short(parts) => self.short_part(parts, height),
        }
    }

    /// A Return ends: what stands behind it starts a statement.
    fn op(&mut self, bytes: &[u8], height: usize) -> usize {
        let (pops, pushes) = effect(bytes);
        let left = height.checked_sub(pops).expect("values enough") + pushes;
        self.largest = self.largest.max(left);
        if bytes[0] == op::RETURN {
            0
        } else {
            left
        }
    }

    /// A condition, and the question that takes its value.
    fn asked(&mut self, condition: &Parts) {
        assert_eq!(self.parts(condition, 0), 1, "one value");
    }

    /// A block: every statement starts and ends at 0.
    fn statements(&mut self, block: &Parts) -> usize {
        assert_eq!(self.parts(block, 0), 0, "nothing is left");
        0
    }

    fn for_part(&mut self, parts: &ForParts) -> usize {
        self.statements(&parts.before);
        self.asked(&parts.more);
        self.statements(&parts.next);
        self.statements(&parts.body)
    }

    /// Either way one value more: the right side's, or the constant.
    fn short_part(&mut self, parts: &ShortParts, height: usize) -> usize {
        assert_eq!(self.parts(&parts.left, height), height + 1, "one value");
        let right = self.parts(&parts.right, height);
        let value = self.op(parts.value.bytes(), height);
        assert_eq!(right, value, "one value either way");
        value
    }
}

/// Question 37 of every function.
pub fn ask(module: &Module) -> Result<(), u8> {
    if module.functions.iter().all(|f| holds(module, f)) {
        Ok(())
    } else {
        Err(37)
    }
}

/// Whether each place that some answers reach has one height, values enough,
/// and leaves no more than the function's number.
fn holds(module: &Module, function: &Function) -> bool {
    let mut heights = vec![None; function.places.len()];
    let mut waiting = vec![(0, 0)];
    while let Some((place, height)) = waiting.pop() {
        if let Some(known) = heights[place] {
            if known != height {
                return false;
            }
            continue;
        }
        heights[place] = Some(height);
        let bytes = &module.bytes[function.places[place]..];
        let (pops, pushes) = effect(bytes);
        if height < pops || height - pops + pushes > usize::from(function.height) {
            return false;
        }
        let left = height - pops + pushes;
        let target = || usize::try_from(module.jump_target(function, place)).expect("question 21");
        match bytes[0] {
            op::RETURN => {}
            op::JUMP => waiting.push((target(), left)),
            op::JUMP_IF_FALSE | op::JUMP_IF_TRUE => {
                waiting.push((target(), left));
                waiting.push((place + 1, left));
            }
            _ => waiting.push((place + 1, left)),
        }
    }
    true
}
