//! Texts of a module's code, beside the model's: plain Rust that reads the
//! module, formats each line and appends it to a string.

use crate::{best, line, script};
use generator::modules;
use rulketoos::Refusal;
use std::hint::black_box;

/// The module of a script of 30 lines, and one near the longest.
fn cases() -> [(&'static str, Vec<u8>); 2] {
    let lowered = rulketoos::lower_to_vec(&script(), rulketoos::Limits::Office).expect("accepted");
    [
        ("the module of a script of 30 lines", lowered),
        ("458,745 instructions", modules::full_of_code()),
    ]
}

/// A call that writes a text, the buffer made once, beside the model's.
fn beside(
    ours: fn(&[u8], &mut [u8]) -> Result<usize, Refusal>,
    model: fn(&[u8], usize) -> Result<String, u8>,
) {
    for (what, module) in cases() {
        let text = model(&module, usize::MAX).expect("accepted");
        let mut out = vec![0; text.len()];
        assert_eq!(ours(&module, &mut out), Ok(text.len()));
        assert!(out == text.as_bytes());
        let ours = best(|| ours(black_box(&module), &mut out));
        let other = best(|| model(black_box(&module), usize::MAX));
        line(what, ours, other);
    }
}

pub fn listings() {
    println!("listing a module (17 to 21, 31), beside plain Rust");
    beside(rulketoos::list, model::list);
}

pub fn sheets() {
    println!("count sheet of a module (17 to 21, 32), beside plain Rust");
    beside(rulketoos::count_sheet, model::count_sheet);
}
