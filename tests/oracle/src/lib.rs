//! The reference answer: the published Rust compiler, with the edits that the
//! change requests name, fed with tree records and answering with module
//! records.
//!
//! Slots at or above the arity in defs and methods are renumbered by first
//! use, since the Rust takes them from a hash set in random order.

use std::io::Write as _;

#[cfg(have_rust)]
include!(concat!(env!("OUT_DIR"), "/reference.rs"));

#[cfg(have_rust)]
mod module;
#[cfg(have_rust)]
pub mod standins;
#[cfg(have_rust)]
pub mod tree;

/// Why there is no module.
#[derive(Debug, Clone, PartialEq, Eq)]
pub enum Failure {
    /// The Rust source was not there when this was built; the text says what.
    Missing(&'static str),
    /// The record is no tree.
    Unreadable,
    /// The Rust gave up with a panic.
    Panicked(String),
}

/// What of the Rust source was missing at build time, if anything.
pub fn missing() -> Option<&'static str> {
    option_env!("RULKETOOS_RUST_MISSING")
}

/// Whether the environment demands the comparison with the Rust.
pub fn demanded() -> bool {
    std::env::var_os("RULKETOOS_DEMAND_RUST").is_some_and(|value| value == "1")
}

/// True when the Rust can be asked. Otherwise says so on standard output, also
/// from inside a test, and panics where the environment demands the Rust.
pub fn ready(what: &str) -> bool {
    let Some(files) = missing() else {
        return true;
    };
    let text = format!("the Rust source is missing ({files}); not compared with the Rust");
    assert!(!demanded(), "RULKETOOS_DEMAND_RUST=1, but {text}");
    // Written to the handle: `println!` would be kept back in a passing test.
    let mut stdout = std::io::stdout();
    writeln!(stdout, "{what}: {text}").expect("standard output");
    false
}

/// Lowers a tree with the Rust. Call it on trees that the model accepts.
#[cfg(have_rust)]
pub fn lower(tree: &[u8]) -> Result<Vec<u8>, Failure> {
    let program = tree::read(tree).ok_or(Failure::Unreadable)?;
    let answer = std::panic::catch_unwind(|| module::write(&compile(&program)));
    answer.map_err(|panic| Failure::Panicked(panic_text(panic.as_ref())))
}

/// The Rust's own part alone: its module of a tree that was read before. No
/// bytes are read or written.
#[cfg(have_rust)]
pub fn compile(program: &[parser::ast::StmtS]) -> vm::bytecode::Module {
    vm::compiler::Compiler::new().compile(program)
}

/// The Rust's own text of each instruction of each function, `Call(1, 2)`.
#[cfg(have_rust)]
pub fn instructions(tree: &[u8]) -> Option<Vec<Vec<String>>> {
    let module = compile(&tree::read(tree)?);
    let texts = |function: &vm::bytecode::FunctionCode| {
        let code = function.code.iter();
        code.map(|instruction| format!("{instruction:?}")).collect()
    };
    Some(module.functions.iter().map(texts).collect())
}

/// Without the Rust source there is none.
#[cfg(not(have_rust))]
pub fn instructions(_tree: &[u8]) -> Option<Vec<Vec<String>>> {
    None
}

/// Without the Rust source there is no tree to compile.
#[cfg(not(have_rust))]
pub fn compile(_program: &[()]) {}

/// Without the Rust source no tree is read.
#[cfg(not(have_rust))]
pub mod tree {
    pub fn read(_tree: &[u8]) -> Option<Vec<()>> {
        None
    }
}

/// Without the Rust source there is no answer.
#[cfg(not(have_rust))]
pub fn lower(_tree: &[u8]) -> Result<Vec<u8>, Failure> {
    Err(Failure::Missing(missing().unwrap_or("the Rust source")))
}

#[cfg(have_rust)]
fn panic_text(panic: &(dyn std::any::Any + Send)) -> String {
    let text = panic.downcast_ref::<String>().map(String::as_str);
    let text = text.or_else(|| panic.downcast_ref::<&str>().copied());
    text.unwrap_or("a panic without text").to_string()
}
