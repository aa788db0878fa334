//! Writes random trees as lines of hexadecimal: `generator SEED COUNT`, or
//! damaged copies of them with a third word `damaged`.

use generator::{damage, random, text, Rng};
use std::io::{BufWriter, Write};
use std::process::ExitCode;

fn main() -> ExitCode {
    let words: Vec<String> = std::env::args().skip(1).collect();
    let numbers: Vec<u64> = words.iter().filter_map(|word| word.parse().ok()).collect();
    let [seed, count] = numbers[..] else {
        eprintln!("usage: generator SEED COUNT [damaged]");
        return ExitCode::FAILURE;
    };
    let damaged = words.get(2).is_some_and(|word| word == "damaged");
    match write(seed, count, damaged) {
        Ok(()) => ExitCode::SUCCESS,
        Err(_) => ExitCode::FAILURE,
    }
}

fn write(seed: u64, count: u64, damaged: bool) -> std::io::Result<()> {
    let mut rng = Rng::new(seed);
    let mut out = BufWriter::new(std::io::stdout().lock());
    for _ in 0..count {
        let mut tree = random::tree(&mut rng);
        if damaged {
            tree = damage::damaged(&mut rng, &tree);
        }
        writeln!(out, "{}", text::hex_or_dash(&tree))?;
    }
    out.flush()
}
