//! Writes the reference's module as a module record of the paper's layout.

use crate::vm::bytecode::{FunctionCode, Instruction, Module, Value};
use crate::vm::value::ObjectData;
use std::collections::HashMap;

/// The whole record: header, version, and the five parts.
pub fn write(module: &Module) -> Vec<u8> {
    let mut body = vec![1];
    count(&mut body, module.symbols.len());
    for symbol in &module.symbols {
        short_name(&mut body, symbol);
    }
    count(&mut body, module.string_pool.len());
    for string in &module.string_pool {
        count(&mut body, string.len());
        body.extend(string.as_bytes());
    }
    count(&mut body, module.functions.len());
    for function in &module.functions {
        write_function(&mut body, module, function);
    }
    write_classes(&mut body, module);
    let mut record = u32::try_from(body.len())
        .expect("length")
        .to_be_bytes()
        .to_vec();
    record.append(&mut body);
    record
}

fn count(out: &mut Vec<u8>, number: usize) {
    out.extend(u16::try_from(number).expect("count").to_be_bytes());
}

fn short_name(out: &mut Vec<u8>, name: &str) {
    out.push(u8::try_from(name.len()).expect("name length"));
    out.extend(name.as_bytes());
}

fn write_classes(out: &mut Vec<u8>, module: &Module) {
    count(out, module.classes.len());
    for class in &module.classes {
        short_name(out, &class.name);
        let mut methods: Vec<_> = class.methods.iter().collect();
        methods.sort_by(|a, b| a.0.as_bytes().cmp(b.0.as_bytes()));
        count(out, methods.len());
        for (name, function) in methods {
            short_name(out, name);
            out.extend(function.to_be_bytes());
        }
    }
    count(out, module.consts.len());
    for constant in &module.consts {
        out.extend(class_number(constant).to_be_bytes());
    }
}

/// A constant is a class object whose type number is 100 plus its class.
fn class_number(constant: &Value) -> u16 {
    let Value::Object(object) = constant else {
        panic!("a constant that is no object");
    };
    let ObjectData::UserClass { class_id, .. } = &object.data else {
        panic!("a constant that is no class");
    };
    assert_eq!(object.type_id, 100 + class_id, "type number");
    *class_id
}

fn write_function(out: &mut Vec<u8>, module: &Module, function: &FunctionCode) {
    let name = &module.symbols[usize::from(function.name_sym)];
    out.extend(function.name_sym.to_be_bytes());
    out.push(function.arity);
    out.extend(function.num_locals.to_be_bytes());
    count(out, function.code.len());
    let mut slots = SlotOrder::new(function.arity, name.starts_with('<'));
    for instruction in &function.code {
        write_instruction(out, instruction, &mut slots);
    }
}

/// Slots at or above the arity take new numbers in the order of first use.
/// A lambda's slots are settled by the names and stay.
struct SlotOrder {
    keep: bool,
    arity: u16,
    seen: HashMap<u16, u16>,
}

impl SlotOrder {
    fn new(arity: u8, keep: bool) -> Self {
        Self {
            keep,
            arity: arity.into(),
            seen: HashMap::new(),
        }
    }

    fn of(&mut self, slot: u16) -> u16 {
        if self.keep || slot < self.arity {
            return slot;
        }
        let next = self.arity + u16::try_from(self.seen.len()).expect("slot");
        *self.seen.entry(slot).or_insert(next)
    }
}

fn write_instruction(out: &mut Vec<u8>, instruction: &Instruction, slots: &mut SlotOrder) {
    use Instruction as I;
    out.push(opcode(instruction));
    match instruction {
        I::ConstI64(number) => out.extend(number.to_be_bytes()),
        I::ConstF64(number) => out.extend(number.to_bits().to_be_bytes()),
        I::ConstStr(index) | I::LoadConst(index) => out.extend(index.to_be_bytes()),
        I::LoadLocal(slot) | I::StoreLocal(slot) => out.extend(slots.of(*slot).to_be_bytes()),
        I::LoadGlobal(n) | I::StoreGlobal(n) | I::LoadAttr(n) | I::StoreAttr(n) => {
            out.extend(n.to_be_bytes());
        }
        I::Jump(distance) | I::JumpIfFalse(distance) | I::JumpIfTrue(distance) => {
            out.extend(distance.to_be_bytes());
        }
        I::Call(n, small) | I::CallMethod(n, small) | I::MakeClosure(n, small) => {
            out.extend(n.to_be_bytes());
            out.push(*small);
        }
        I::CallBuiltin(id, argc) => out.extend([*id, *argc]),
        I::CallValue(argc) => out.push(*argc),
        I::BuildList(n) | I::BuildTuple(n) | I::BuildDict(n) | I::BuildSet(n) => {
            out.extend(n.to_be_bytes());
        }
        I::BuildTreeSet(n) => out.extend(n.to_be_bytes()),
        _ => {}
    }
}

/// The place in the reference's list of instructions, from 0.
fn opcode(instruction: &Instruction) -> u8 {
    use Instruction as I;
    match instruction {
        I::ConstI64(_) => 0,
        I::ConstF64(_) => 1,
        I::ConstStr(_) => 2,
        I::True => 3,
        I::False => 4,
        I::None => 5,
        I::LoadConst(_) => 6,
        I::Pop => 7,
        I::Dup => 8,
        I::LoadLocal(_) => 9,
        I::StoreLocal(_) => 10,
        I::LoadGlobal(_) => 11,
        I::StoreGlobal(_) => 12,
        I::Add => 13,
        I::Sub => 14,
        I::Mul => 15,
        I::Div => 16,
        I::TrueDiv => 17,
        I::Mod => 18,
        I::Neg => 19,
        I::Pos => 20,
        I::Eq => 21,
        I::Ne => 22,
        I::Lt => 23,
        I::Le => 24,
        I::Gt => 25,
        I::Ge => 26,
        I::Not => 27,
        I::Jump(_) => 28,
        I::JumpIfFalse(_) => 29,
        I::JumpIfTrue(_) => 30,
        I::Call(..) => 31,
        I::CallBuiltin(..) => 32,
        I::Return => 33,
        I::CallValue(_) => 34,
        I::CallMethod(..) => 35,
        I::LoadAttr(_) => 36,
        I::StoreAttr(_) => 37,
        I::BuildList(_) => 38,
        I::BuildTuple(_) => 39,
        I::BuildDict(_) => 40,
        I::BuildSet(_) => 41,
        I::BuildTreeSet(_) => 42,
        I::LoadIndex => 43,
        I::StoreIndex => 44,
        I::MakeClosure(..) => 45,
    }
}
