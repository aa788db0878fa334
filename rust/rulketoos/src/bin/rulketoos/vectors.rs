//! The repository's vectors, for the tests here.

use std::fs;
use std::path::Path;

fn byte(pair: &[u8]) -> u8 {
    let text = std::str::from_utf8(pair).expect("text");
    u8::from_str_radix(text, 16).expect("hexadecimal")
}

/// The records of a file of vectors: trees or modules.
pub fn records(file: &str) -> Vec<Vec<u8>> {
    let folder = Path::new(env!("CARGO_MANIFEST_DIR")).join("../../tests/vectors");
    let text = fs::read_to_string(folder.join(file)).expect("the vectors");
    let record = |line: &str| {
        let hex = line.split('\t').nth(1).expect("a record");
        hex.as_bytes().chunks_exact(2).map(byte).collect()
    };
    text.lines().map(record).collect()
}
