//! `rulketoos sort`: a library of scripts in order.

use super::order::{accepted, compare};
use crate::arguments::{Command, Words};
use crate::failure::Failure;
use crate::input::{self, Kind, Source};
use crate::output;
use rulketoos::Areas;
use std::cmp::Ordering;

pub const COMMAND: Command = Command {
    name: "sort",
    operands: &["FILE.."],
    least: 1,
    options: &[super::CONSOLE],
    about: "puts scripts and trees in order, and marks equal ones",
    more: "Writes a line a file: its name, with `=` before it where it is equal to the one above, which differs in `pass`\n\
           and class attributes at most. Equal ones keep the order in which they are given. All are asked questions 2 to\n\
           15 first, one after the other.",
    example: "rulketoos sort samples/spine.py samples/loops.py samples/spine.py",
    run,
};

fn run(words: &Words) -> Result<(), Failure> {
    let limits = super::limits(words);
    let mut areas = Areas::new();
    let mut library: Vec<(String, Source)> = Vec::new();
    for file in words.operands() {
        let source = input::read(file, Kind::Tree)?.source()?;
        accepted(&source, limits, &mut areas)?;
        library.push((file.to_string_lossy().into_owned(), source));
    }
    library.sort_by(|(_, first), (_, second)| compare(first, second, limits, &mut areas));
    let mut text = String::new();
    for (place, (name, source)) in library.iter().enumerate() {
        let above = place.checked_sub(1).map(|above| &library[above].1);
        let same = above
            .is_some_and(|above| compare(above, source, limits, &mut areas) == Ordering::Equal);
        text += if same { "= " } else { "  " };
        text += name;
        text.push('\n');
    }
    output::text(&text)
}
