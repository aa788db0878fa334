//! One instruction as its bytes: the opcode, then its operands.

pub const CONST_I64: u8 = 0;
pub const CONST_F64: u8 = 1;
pub const CONST_STR: u8 = 2;
pub const TRUE: u8 = 3;
pub const FALSE: u8 = 4;
pub const NONE: u8 = 5;
pub const LOAD_CONST: u8 = 6;
pub const POP: u8 = 7;
pub const DUP: u8 = 8;
pub const LOAD_LOCAL: u8 = 9;
pub const STORE_LOCAL: u8 = 10;
pub const LOAD_GLOBAL: u8 = 11;
pub const STORE_GLOBAL: u8 = 12;
pub const NEG: u8 = 19;
pub const POS: u8 = 20;
pub const NOT: u8 = 27;
pub const JUMP: u8 = 28;
pub const JUMP_IF_FALSE: u8 = 29;
pub const JUMP_IF_TRUE: u8 = 30;
pub const CALL: u8 = 31;
pub const CALL_BUILTIN: u8 = 32;
pub const RETURN: u8 = 33;
pub const CALL_VALUE: u8 = 34;
pub const CALL_METHOD: u8 = 35;
pub const LOAD_ATTR: u8 = 36;
pub const STORE_ATTR: u8 = 37;
pub const BUILD_LIST: u8 = 38;
pub const BUILD_TUPLE: u8 = 39;
pub const BUILD_DICT: u8 = 40;
pub const BUILD_SET: u8 = 41;
pub const BUILD_TREE_SET: u8 = 42;
pub const LOAD_INDEX: u8 = 43;
pub const STORE_INDEX: u8 = 44;
pub const MAKE_CLOSURE: u8 = 45;

/// The instruction of each binary operator but `and` and `or`: Add, Sub, Mul,
/// TrueDiv, Div, Mod, then the six comparisons.
pub const BINARY: [u8; 12] = [13, 14, 15, 17, 16, 18, 21, 22, 23, 24, 25, 26];
/// The instruction of each unary operator.
pub const UNARY: [u8; 3] = [NOT, NEG, POS];

/// The number of operand bytes, or none where there is no such opcode.
pub fn operand_bytes(opcode: u8) -> Option<usize> {
    Some(match opcode {
        CONST_I64 | CONST_F64 => 8,
        CONST_STR | LOAD_CONST | JUMP | JUMP_IF_FALSE | JUMP_IF_TRUE => 4,
        LOAD_LOCAL | STORE_LOCAL | LOAD_GLOBAL | STORE_GLOBAL => 2,
        CALL | CALL_METHOD | MAKE_CLOSURE => 3,
        CALL_BUILTIN | LOAD_ATTR | STORE_ATTR => 2,
        CALL_VALUE => 1,
        BUILD_LIST..=BUILD_TREE_SET => 2,
        0..=MAKE_CLOSURE => 0,
        _ => return None,
    })
}

#[derive(Clone, Copy, PartialEq, Eq)]
pub struct Instruction {
    bytes: [u8; 9],
    length: usize,
}

impl Instruction {
    pub fn new(opcode: u8, operands: &[u8]) -> Self {
        debug_assert_eq!(operand_bytes(opcode), Some(operands.len()));
        let mut bytes = [0; 9];
        bytes[0] = opcode;
        bytes[1..=operands.len()].copy_from_slice(operands);
        Self {
            bytes,
            length: operands.len() + 1,
        }
    }

    pub fn plain(opcode: u8) -> Self {
        Self::new(opcode, &[])
    }

    pub fn wide(opcode: u8, number: u16) -> Self {
        Self::new(opcode, &number.to_be_bytes())
    }

    pub fn long(opcode: u8, number: usize) -> Self {
        let number = u32::try_from(number).expect("32 bits");
        Self::new(opcode, &number.to_be_bytes())
    }

    /// A number and a count: calls of functions and methods, closures.
    pub fn counted(opcode: u8, number: u16, count: u8) -> Self {
        let [high, low] = number.to_be_bytes();
        Self::new(opcode, &[high, low, count])
    }

    /// A jump's operand is target minus (own place + 1), signed.
    pub fn jump(opcode: u8, place: usize, target: usize) -> Self {
        let distance = target as i64 - (place as i64 + 1);
        let distance = i32::try_from(distance).expect("32 bits");
        Self::new(opcode, &distance.to_be_bytes())
    }

    pub fn bytes(&self) -> &[u8] {
        &self.bytes[..self.length]
    }
}
