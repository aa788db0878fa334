//! The count sheet of a module: a line a function, and the totals.

use crate::instruction as op;
use crate::module::Module;
use std::fmt::Write as _;

/// How many instructions, conditional jumps and calls some opcodes are.
fn counts(opcodes: &[u8]) -> [usize; 3] {
    let (mut questions, mut calls) = (0, 0);
    for &opcode in opcodes {
        match opcode {
            op::JUMP_IF_FALSE | op::JUMP_IF_TRUE => questions += 1,
            op::CALL | op::CALL_BUILTIN | op::CALL_VALUE | op::CALL_METHOD => calls += 1,
            _ => {}
        }
    }
    [opcodes.len(), questions, calls]
}

/// The whole sheet. The totals are counted from the records, not added up.
pub fn text(module: &Module) -> String {
    let mut text = String::new();
    let mut whole = Vec::new();
    for (number, function) in module.functions.iter().enumerate() {
        let opcodes = function.places.iter().map(|&place| module.bytes[place]);
        let opcodes: Vec<u8> = opcodes.collect();
        line(&mut text, &number.to_string(), counts(&opcodes));
        whole.extend(opcodes);
    }
    line(&mut text, "TOTAL", counts(&whole));
    text
}

/// The head in columns 1 to 5, instructions in 7 to 12, conditional jumps in 14
/// to 19, calls in 21 to 26, all right; 40 columns.
fn line(text: &mut String, head: &str, [all, questions, calls]: [usize; 3]) {
    writeln!(
        text,
        "{head:>5} {all:>6} {questions:>6} {calls:>6}{:14}",
        ""
    )
    .expect("text");
}
