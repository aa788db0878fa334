//! `rulketoos order`: which of two scripts comes first.

use crate::arguments::{Command, Words};
use crate::failure::Failure;
use crate::input::{self, Kind, Source};
use crate::output;
use rulketoos::{Areas, Limits};
use std::cmp::Ordering;

pub const COMMAND: Command = Command {
    name: "order",
    operands: &["FILE", "OTHER"],
    least: 2,
    options: &[super::CONSOLE],
    about: "tells whether a script or a tree comes before another",
    more: "Writes `before`, `equal` or `after`. Each `pass` and each class attribute is taken out, and the bytes of what is\n\
           left are compared: a shorter rest comes first. Equal scripts have equal modules. Both are asked questions 2 to\n\
           15, the first before the second.",
    example: "rulketoos order samples/spine.py samples/loops.py",
    run,
};

fn run(words: &Words) -> Result<(), Failure> {
    let first = input::read(words.needed(0), Kind::Tree)?.source()?;
    let second = input::read(words.needed(1), Kind::Tree)?.source()?;
    let limits = super::limits(words);
    let mut areas = Areas::new();
    for source in [&first, &second] {
        accepted(source, limits, &mut areas)?;
    }
    output::text(match compare(&first, &second, limits, &mut areas) {
        Ordering::Less => "before\n",
        Ordering::Equal => "equal\n",
        Ordering::Greater => "after\n",
    })
}

/// Whether a tree has a place in the order: questions 2 to 15.
pub fn accepted(source: &Source, limits: Limits, areas: &mut Areas) -> Result<(), Failure> {
    rulketoos::order(&source.tree, &source.tree, limits, areas)
        .map(|_| ())
        .map_err(|refusal| source.refused(refusal))
}

/// The order of two trees that have a place in it.
pub fn compare(first: &Source, second: &Source, limits: Limits, areas: &mut Areas) -> Ordering {
    rulketoos::order(&first.tree, &second.tree, limits, areas)
        .expect("both trees were accepted by the same limits")
}
