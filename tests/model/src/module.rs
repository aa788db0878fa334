//! The module reader: questions 17 to 21, and the hand-back of code.

use crate::instruction as op;
use crate::{names, utf8};

pub const MAX_MODULE: usize = 524_288;
pub const VERSION: u8 = 2;

/// A module that was read, with places into its bytes.
pub struct Module<'m> {
    pub bytes: &'m [u8],
    pub symbols: Vec<&'m [u8]>,
    pub strings: usize,
    pub functions: Vec<Function>,
    pub classes: usize,
    /// The function numbers of all methods of all classes.
    method_functions: Vec<u16>,
    pub constants: Vec<u16>,
}

pub struct Function {
    pub name: u16,
    pub arity: u8,
    pub locals: u16,
    /// The largest height of the stack.
    pub height: u16,
    /// Where the code begins in the module bytes, and where it ends.
    pub start: usize,
    pub end: usize,
    /// Where each instruction begins in the module bytes.
    pub places: Vec<usize>,
}

/// Questions 17 to 21.
pub fn read(module: &[u8]) -> Result<Module<'_>, u8> {
    let Some((header, rest)) = module.split_first_chunk::<4>() else {
        return Err(17);
    };
    if module.len() > MAX_MODULE || u32::from_be_bytes(*header) as usize != rest.len() {
        return Err(17);
    }
    if rest.first() != Some(&VERSION) {
        return Err(18);
    }
    let module = layout(module).ok_or(19)?;
    if !module.numbers_exist() {
        return Err(20);
    }
    if !module.functions.iter().all(|f| module.sound(f)) {
        return Err(21);
    }
    Ok(module)
}

/// Question 19: everything after the version byte.
fn layout(bytes: &[u8]) -> Option<Module<'_>> {
    let mut cursor = Cursor { bytes, at: 5 };
    let symbols = cursor.several(Cursor::name)?;
    let strings = cursor.several(Cursor::string)?.len();
    let functions = cursor.several(Cursor::function)?;
    let mut method_functions = Vec::new();
    let classes = cursor.several(|c| c.class(&mut method_functions))?.len();
    let constants = cursor.several(Cursor::number)?;
    (cursor.at == bytes.len()).then_some(Module {
        bytes,
        symbols,
        strings,
        functions,
        classes,
        method_functions,
        constants,
    })
}

struct Cursor<'m> {
    bytes: &'m [u8],
    at: usize,
}

impl<'m> Cursor<'m> {
    fn take(&mut self, length: usize) -> Option<&'m [u8]> {
        let taken = self.bytes.get(self.at..)?.get(..length)?;
        self.at += length;
        Some(taken)
    }

    fn byte(&mut self) -> Option<u8> {
        Some(self.take(1)?[0])
    }

    fn number(&mut self) -> Option<u16> {
        let bytes = self.take(2)?;
        Some(u16::from_be_bytes([bytes[0], bytes[1]]))
    }

    fn several<T>(&mut self, mut one: impl FnMut(&mut Self) -> Option<T>) -> Option<Vec<T>> {
        let count = self.number()?;
        (0..count).map(|_| one(self)).collect()
    }

    fn name(&mut self) -> Option<&'m [u8]> {
        let length = self.byte()?;
        self.take(length.into())
    }

    /// Strings are well-formed UTF-8; symbols are any bytes.
    fn string(&mut self) -> Option<&'m [u8]> {
        let length = self.number()?;
        self.take(length.into())
            .filter(|bytes| utf8::well_formed(bytes))
    }

    fn well_formed_name(&mut self) -> Option<&'m [u8]> {
        self.name().filter(|name| names::well_formed(name))
    }

    fn function(&mut self) -> Option<Function> {
        let (name, arity, locals) = (self.number()?, self.byte()?, self.number()?);
        let height = self.number()?;
        let count = self.number()?;
        let start = self.at;
        let places = (0..count)
            .map(|_| self.instruction())
            .collect::<Option<_>>()?;
        Some(Function {
            name,
            arity,
            locals,
            height,
            start,
            end: self.at,
            places,
        })
    }

    fn instruction(&mut self) -> Option<usize> {
        let place = self.at;
        let opcode = self.byte()?;
        self.take(op::operand_bytes(opcode)?)?;
        Some(place)
    }

    /// Method names rise strictly by their bytes.
    fn class(&mut self, functions: &mut Vec<u16>) -> Option<()> {
        self.well_formed_name()?;
        let mut previous: &[u8] = &[];
        for _ in 0..self.number()? {
            let name = self.well_formed_name()?;
            if name <= previous {
                return None;
            }
            previous = name;
            functions.push(self.number()?);
        }
        Some(())
    }
}

/// The first operand, widened, of the instruction at this place.
fn first_operand(bytes: &[u8], place: usize) -> usize {
    let operands = &bytes[place + 1..];
    let width = match bytes[place] {
        op::CALL_BUILTIN | op::CALL_VALUE => 1,
        op::CONST_STR | op::LOAD_CONST => 4,
        _ => 2,
    };
    let digits = operands[..width].iter();
    digits.fold(0, |number, byte| number * 256 + usize::from(*byte))
}

impl Module<'_> {
    /// Question 20.
    fn numbers_exist(&self) -> bool {
        let functions = self.functions.len();
        self.functions
            .iter()
            .all(|f| self.function_numbers_exist(f))
            && self
                .method_functions
                .iter()
                .all(|&f| usize::from(f) < functions)
            && self
                .constants
                .iter()
                .all(|&c| usize::from(c) < self.classes)
    }

    fn function_numbers_exist(&self, function: &Function) -> bool {
        usize::from(function.name) < self.symbols.len()
            && function
                .places
                .iter()
                .all(|&p| self.number_exists(function, p))
    }

    fn number_exists(&self, function: &Function, place: usize) -> bool {
        let number = || first_operand(self.bytes, place);
        match self.bytes[place] {
            op::CONST_STR => number() < self.strings,
            op::LOAD_CONST => number() < self.constants.len(),
            op::LOAD_LOCAL | op::STORE_LOCAL => number() < function.locals.into(),
            op::LOAD_GLOBAL | op::STORE_GLOBAL | op::LOAD_ATTR | op::STORE_ATTR => {
                number() < self.symbols.len()
            }
            op::CALL_METHOD => number() < self.symbols.len(),
            op::CALL | op::MAKE_CLOSURE => number() < self.functions.len(),
            op::CALL_BUILTIN => names::builtin_exists(self.bytes[place + 1]),
            _ => true,
        }
    }

    /// Question 21 for one function.
    fn sound(&self, function: &Function) -> bool {
        let last = function.places.last();
        last.is_some_and(|&place| self.bytes[place] == op::RETURN)
            && (0..function.places.len()).all(|at| self.jump_lands(function, at))
    }

    fn jump_lands(&self, function: &Function, at: usize) -> bool {
        match self.bytes[function.places[at]] {
            op::JUMP | op::JUMP_IF_FALSE | op::JUMP_IF_TRUE => {
                let target = self.jump_target(function, at);
                0 <= target && target < function.places.len() as i64
            }
            _ => true,
        }
    }

    /// The bytes of the instruction at this place.
    pub fn instruction(&self, function: &Function, at: usize) -> &[u8] {
        let next = function.places.get(at + 1);
        &self.bytes[function.places[at]..next.copied().unwrap_or(function.end)]
    }

    /// The place that the jump at this place lands on.
    pub fn jump_target(&self, function: &Function, at: usize) -> i64 {
        let place = function.places[at];
        let operand = self.bytes[place + 1..place + 5]
            .try_into()
            .expect("4 bytes");
        at as i64 + 1 + i64::from(i32::from_be_bytes(operand))
    }
}
