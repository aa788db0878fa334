//! The model as a program: a tree record on standard input; the module record,
//! or `refused N` and a line feed, on standard output.

use std::io::{self, Read, Write};

fn main() -> io::Result<()> {
    let mut tree = Vec::new();
    io::stdin().take(32_769).read_to_end(&mut tree)?;
    match model::lower(&tree, model::OFFICE, model::AREA, model::AREA, 65_536) {
        Ok(module) => io::stdout().write_all(&module),
        Err(question) => writeln!(io::stdout(), "refused {question}"),
    }
}
