//! The code listing of a module: a line an instruction, in pages.

use crate::instruction as op;
use crate::module::Module;
use std::fmt::Write as _;

/// The code lines of a page; the last may have fewer.
const PAGE: usize = 50;

/// The instructions by opcode, as the Rust spells them.
pub const NAMES: [&str; 46] = [
    "ConstI64",
    "ConstF64",
    "ConstStr",
    "True",
    "False",
    "None",
    "LoadConst",
    "Pop",
    "Dup",
    "LoadLocal",
    "StoreLocal",
    "LoadGlobal",
    "StoreGlobal",
    "Add",
    "Sub",
    "Mul",
    "Div",
    "TrueDiv",
    "Mod",
    "Neg",
    "Pos",
    "Eq",
    "Ne",
    "Lt",
    "Le",
    "Gt",
    "Ge",
    "Not",
    "Jump",
    "JumpIfFalse",
    "JumpIfTrue",
    "Call",
    "CallBuiltin",
    "Return",
    "CallValue",
    "CallMethod",
    "LoadAttr",
    "StoreAttr",
    "BuildList",
    "BuildTuple",
    "BuildDict",
    "BuildSet",
    "BuildTreeSet",
    "LoadIndex",
    "StoreIndex",
    "MakeClosure",
];

/// The whole listing. Pages run through functions.
pub fn text(module: &Module) -> String {
    let mut text = String::new();
    let mut lines = 0;
    for (number, function) in module.functions.iter().enumerate() {
        for place in 0..function.places.len() {
            if lines % PAGE == 0 {
                page_line(&mut text, lines / PAGE + 1);
            }
            lines += 1;
            code_line(
                &mut text,
                number,
                place,
                module.instruction(function, place),
            );
        }
    }
    text
}

/// `PAGE` in columns 1 to 4, the number right in 6 to 11, padded to 52.
fn page_line(text: &mut String, number: usize) {
    writeln!(text, "PAGE {number:>6}{:41}", "").expect("text");
}

/// The function in columns 1 to 5, the place in 7 to 11, the name left in 13
/// to 27, the operands in 29 to 48 and 50 to 52.
fn code_line(text: &mut String, function: usize, place: usize, bytes: &[u8]) {
    let name = NAMES[usize::from(bytes[0])];
    let (first, second) = operands(bytes);
    writeln!(
        text,
        "{function:>5} {place:>5} {name:<15} {first:>20} {second:>3}"
    )
    .expect("text");
}

/// Both operands as they are shown; none is no text.
fn operands(bytes: &[u8]) -> (String, String) {
    let (opcode, rest) = (bytes[0], &bytes[1..]);
    match (opcode, rest) {
        (op::CONST_I64, &[a, b, c, d, e, f, g, h]) => {
            let number = i64::from_be_bytes([a, b, c, d, e, f, g, h]);
            (number.to_string(), String::new())
        }
        (op::CONST_F64, _) => (
            rest.iter().map(|b| format!("{b:02X}")).collect(),
            String::new(),
        ),
        (op::JUMP | op::JUMP_IF_FALSE | op::JUMP_IF_TRUE, &[a, b, c, d]) => {
            (i32::from_be_bytes([a, b, c, d]).to_string(), String::new())
        }
        (_, []) => (String::new(), String::new()),
        (_, &[a]) => (a.to_string(), String::new()),
        (op::CALL_BUILTIN, &[a, count]) => (a.to_string(), count.to_string()),
        (_, &[a, b]) => (u16::from_be_bytes([a, b]).to_string(), String::new()),
        (_, &[a, b, count]) => (u16::from_be_bytes([a, b]).to_string(), count.to_string()),
        (_, &[a, b, c, d]) => (u32::from_be_bytes([a, b, c, d]).to_string(), String::new()),
        _ => unreachable!("no instruction has {} operand bytes", rest.len()),
    }
}
