//! Writes the vectors again: `vectors FOLDER`.

use std::path::PathBuf;
use std::process::ExitCode;

fn main() -> ExitCode {
    let Some(folder) = std::env::args_os().nth(1).map(PathBuf::from) else {
        eprintln!("usage: vectors FOLDER");
        return ExitCode::FAILURE;
    };
    for (name, text) in generator::vectors::files() {
        let path = folder.join(name);
        if let Err(error) = std::fs::write(&path, &text) {
            eprintln!("{}: {error}", path.display());
            return ExitCode::FAILURE;
        }
        println!(
            "{name}: {} cases, {} bytes",
            text.lines().count(),
            text.len()
        );
    }
    ExitCode::SUCCESS
}
