//! The two sets of limits of question 15.

/// How many of each a module may have.
#[derive(Debug, Clone, Copy, PartialEq, Eq)]
pub struct Limits {
    pub functions: usize,
    pub symbols: usize,
    pub strings: usize,
    pub classes: usize,
    pub instructions: usize,
}

/// The office's.
pub const OFFICE: Limits = Limits {
    functions: 256,
    symbols: 1_024,
    strings: 512,
    classes: 64,
    instructions: 8_192,
};

/// Those of the console at the casing-in machine.
pub const CONSOLE: Limits = Limits {
    functions: 64,
    symbols: 256,
    instructions: 2_048,
    ..OFFICE
};

/// The set that a number names.
pub fn by(number: u32) -> Limits {
    match number {
        0 => OFFICE,
        _ => CONSOLE,
    }
}
