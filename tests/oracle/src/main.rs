//! Reads a tree record from standard input and writes the Rust's module
//! record, slots renumbered, or `refused N` where the paper refuses.

use std::io::{Read, Write};
use std::process::ExitCode;

fn main() -> ExitCode {
    let mut tree = Vec::new();
    if let Err(error) = std::io::stdin().take(32_769).read_to_end(&mut tree) {
        eprintln!("standard input: {error}");
        return ExitCode::FAILURE;
    }
    if let Err(number) = model::lower(&tree, model::OFFICE, 16_384, 16_384, 65_536) {
        println!("refused {number}");
        return ExitCode::SUCCESS;
    }
    match oracle::lower(&tree) {
        Ok(module) => match std::io::stdout().write_all(&module) {
            Ok(()) => ExitCode::SUCCESS,
            Err(_) => ExitCode::FAILURE,
        },
        Err(failure) => {
            eprintln!("no answer from the Rust: {failure:?}");
            ExitCode::FAILURE
        }
    }
}
