//! `rulketoos cut`: a refused script cut down to the statements that are refused.

use crate::arguments::{Command, Opt, Words};
use crate::failure::Failure;
use crate::input::{self, Kind, Source};
use crate::output;
use crate::places;
use crate::progress;
use rulketoos::Limits;

pub const COMMAND: Command = Command {
    name: "cut",
    operands: &["FILE"],
    least: 1,
    options: &[
        super::CONSOLE,
        Opt {
            name: "-o",
            value: Some("FILE"),
            about: "writes the tree of these statements to this file, and no text; it is whole or isn't there",
        },
    ],
    about: "cuts a refused script or tree down to the fewest statements that are refused alike",
    more: "Finds the fewest consecutive top statements that, by themselves, are refused by the question that refuses the\n\
           whole, the earliest of equals; it is one of 7 to 15, 33 and 36. Writes the question, which of the top statements\n\
           they are, and their lines in the script; or `not refused`. Other refusals are told as `rulketoos lower` tells\n\
           them. A script of thousands of statements that is refused by 15 may take some seconds; dots count them.",
    example: "rulketoos cut samples/spine.py",
    run,
};

fn run(words: &Words) -> Result<(), Failure> {
    let source = input::read(words.needed(0), Kind::Tree)?.source()?;
    let limits = super::limits(words);
    let what = format!(
        "rulketoos: {} is being cut down, a dot a second ",
        source.name
    );
    let cut = progress::told(&what, || rulketoos::cut_to_vec(&source.tree, limits));
    match (
        cut.map_err(|refusal| source.refused(refusal))?,
        words.option("-o"),
    ) {
        (None, _) => output::text("not refused\n"),
        (Some(cut), None) => output::text(&shown(&source, &cut, limits)),
        (Some(cut), file) => output::bytes(file, &cut),
    }
}

/// The question that refuses the source and what it is cut down to; which of its statements these are, and where.
fn shown(source: &Source, cut: &[u8], limits: Limits) -> String {
    let refusal = rulketoos::lower_to_vec(cut, limits).expect_err("what is cut down is refused");
    let starts = places::statements(&source.tree);
    let few = places::statements(cut).len() - 1;
    let same = |run: &[usize]| source.tree[run[0]..run[few]] == cut[7..];
    let first = starts.windows(few + 1).position(same);
    let first = first.expect("these are statements of the tree");
    let (numbers, all) = (numbered(first + 1, first + few), starts.len() - 1);
    let mut text = format!("{}\ntop statement{numbers} of {all}", source.told(refusal));
    match source.lines(starts[first], starts[first + few - 1]) {
        Some(lines) => {
            text += ":\n";
            for (number, line) in lines {
                text += &format!("{number:5}  {}\n", printable(&line));
            }
        }
        None => {
            let (start, last) = (starts[first], starts[first + few] - 1);
            text += &format!(": byte{}\n", numbered(start, last));
        }
    }
    text
}

/// ` 3`, or `s 3 to 5`.
fn numbered(first: usize, last: usize) -> String {
    if first == last {
        format!(" {first}")
    } else {
        format!("s {first} to {last}")
    }
}

/// A line of a script without what a terminal would obey.
fn printable(line: &str) -> String {
    let obeyed = |c: char| c.is_control() && c != '\t';
    let shown = |c: char| {
        if obeyed(c) {
            c.escape_default().to_string()
        } else {
            c.to_string()
        }
    };
    line.chars().map(shown).collect()
}
