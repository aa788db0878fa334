//! A listing with notes: what a module's functions are called, and what the operands of its instructions stand for.

use std::fmt::Write;
use std::ops::Range;

/// The columns of a code line (docs/FORMAT.md), from 0.
const FUNCTION: Range<usize> = 0..5;
const PLACE: Range<usize> = 6..11;
const NAME: Range<usize> = 12..27;
const FIRST: Range<usize> = 28..48;

/// The built-ins by their ids; 8 and 9 are unused.
const BUILTINS: [&str; 15] = [
    "print", "input", "int", "bool", "str", "len", "range", "float", "", "", "assert", "map",
    "filter", "set", "treeset",
];

/// The listing of a module that was read, each line with its note.
pub fn noted(module: &[u8], listing: &str) -> String {
    let tables = Tables::of(module);
    let mut text = String::new();
    for line in listing.lines() {
        if line.starts_with("PAGE") {
            text += line.trim_end();
        } else {
            if number(line, PLACE) == 0 {
                text += &tables.head(number(line, FUNCTION) as usize);
            }
            text += format!("{line}  {}", tables.note(line)).trim_end();
        }
        text.push('\n');
    }
    text + &tables.class_lines()
}

/// A number of a line; one that isn't there is 0.
fn number(line: &str, columns: Range<usize>) -> i64 {
    line[columns].trim_start().parse().unwrap_or_default()
}

/// The tables of a module that was read.
struct Tables<'m> {
    symbols: Vec<&'m [u8]>,
    strings: Vec<&'m [u8]>,
    functions: Vec<Function>,
    classes: Vec<Class<'m>>,
    constants: Vec<u16>,
}

struct Function {
    name: u16,
    parameters: u8,
    slots: u16,
    height: u16,
}

struct Class<'m> {
    name: &'m [u8],
    methods: Vec<(&'m [u8], u16)>,
}

impl<'m> Tables<'m> {
    fn of(module: &'m [u8]) -> Tables<'m> {
        // the header and the version come first
        let mut rest = Rest(&module[5..]);
        Tables {
            symbols: rest.several(Rest::name),
            strings: rest.several(|rest| {
                let length = rest.wide();
                rest.take(length.into())
            }),
            functions: rest.several(Rest::function),
            classes: rest.several(|rest| Class {
                name: rest.name(),
                methods: rest.several(|rest| (rest.name(), rest.wide())),
            }),
            constants: rest.several(Rest::wide),
        }
    }

    /// The line before a function's first instruction.
    fn head(&self, number: usize) -> String {
        let function = &self.functions[number];
        format!(
            "function {number} {}: {} parameters, {} slots, height {}\n",
            self.symbol(function.name.into()),
            function.parameters,
            function.slots,
            function.height
        )
    }

    /// What the operands of a code line stand for.
    fn note(&self, line: &str) -> String {
        let operand = number(line, FIRST);
        let index = operand as usize;
        match line[NAME].trim_end() {
            "ConstF64" => {
                let bits = u64::from_str_radix(line[FIRST].trim_start(), 16);
                format!("{:?}", f64::from_bits(bits.unwrap_or_default()))
            }
            "ConstStr" => format!("{:?}", String::from_utf8_lossy(self.strings[index])),
            "LoadConst" => {
                let class = &self.classes[usize::from(self.constants[index])];
                format!("class {}", class.name.escape_ascii())
            }
            "LoadGlobal" | "StoreGlobal" | "CallMethod" | "LoadAttr" | "StoreAttr" => {
                self.symbol(index)
            }
            "Jump" | "JumpIfFalse" | "JumpIfTrue" => {
                format!("to {}", number(line, PLACE) + 1 + operand)
            }
            "Call" | "MakeClosure" => self.symbol(self.functions[index].name.into()),
            "CallBuiltin" => BUILTINS[index].to_string(),
            _ => String::new(),
        }
    }

    fn symbol(&self, number: usize) -> String {
        self.symbols[number].escape_ascii().to_string()
    }

    /// The classes with their methods, a line each.
    fn class_lines(&self) -> String {
        let mut text = String::new();
        for (number, class) in self.classes.iter().enumerate() {
            write!(text, "class {number} {}", class.name.escape_ascii()).expect("text");
            for (place, (method, function)) in class.methods.iter().enumerate() {
                let sign = if place == 0 { ':' } else { ',' };
                let method = method.escape_ascii();
                write!(text, "{sign} {method} is function {function}").expect("text");
            }
            text.push('\n');
        }
        text
    }
}

/// The bytes of a module that are still to be taken. Questions 17 to 21 were asked, so they are there.
struct Rest<'m>(&'m [u8]);

impl<'m> Rest<'m> {
    fn take(&mut self, length: usize) -> &'m [u8] {
        let (taken, rest) = self.0.split_at(length);
        self.0 = rest;
        taken
    }

    fn byte(&mut self) -> u8 {
        self.take(1)[0]
    }

    fn wide(&mut self) -> u16 {
        u16::from_be_bytes([self.byte(), self.byte()])
    }

    fn name(&mut self) -> &'m [u8] {
        let length = self.byte();
        self.take(length.into())
    }

    fn several<T>(&mut self, mut one: impl FnMut(&mut Self) -> T) -> Vec<T> {
        let count = self.wide();
        (0..count).map(|_| one(self)).collect()
    }

    fn function(&mut self) -> Function {
        let function = Function {
            name: self.wide(),
            parameters: self.byte(),
            slots: self.wide(),
            height: self.wide(),
        };
        for _ in 0..self.wide() {
            let opcode = self.byte();
            self.take(operand_bytes(opcode));
        }
        function
    }
}

/// How many bytes the operands of an instruction have.
fn operand_bytes(opcode: u8) -> usize {
    match opcode {
        0 | 1 => 8,
        2 | 6 | 28..=30 => 4,
        31 | 35 | 45 => 3,
        9..=12 | 32 | 36..=42 => 2,
        34 => 1,
        _ => 0,
    }
}

#[cfg(test)]
mod tests;
