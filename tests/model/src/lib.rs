//! A plain model of the paper: lowering, reader, run and walk; and of the
//! requests after it: the code listing, the count sheet,
//! answers that bring a run to a place, the order of trees, a refused tree cut down.
//!
//! Written from the documents alone, to be held against the reference compiler
//! and against the project's own code. A refusal is the question's number.

pub mod cut;
pub mod height;
pub mod instruction;
pub mod limits;
pub mod listing;
pub mod lowering;
pub mod module;
pub mod names;
pub mod plan;
pub mod questions;
pub mod reach;
mod renumber;
pub mod run;
pub mod sheet;
pub mod slots;
pub mod tree;
pub mod utf8;
pub mod walk;
pub mod write;

pub use limits::{Limits, CONSOLE, OFFICE};
pub use run::Ran;
pub use walk::Walked;

use std::cmp::Ordering;

/// The least length of each work area.
pub const AREA: usize = 16_384;

/// Questions 1 to 16, 33 and 36: the module record of a tree, or the first no.
pub fn lower(
    tree: &[u8],
    limits: Limits,
    area1: usize,
    area2: usize,
    room: usize,
) -> Result<Vec<u8>, u8> {
    if area1 < AREA || area2 < AREA {
        return Err(1);
    }
    lowering::write(&plan(tree, limits)?, room)
}

/// Questions 2 to 13, 33 and 36: the statements of the tree.
fn checked(tree: &[u8]) -> Result<tree::Block<'_>, u8> {
    let program = tree::read(tree)?;
    questions::ask(&program)?;
    Ok(program)
}

/// Questions 2 to 13, 33 and 36.
pub fn check(tree: &[u8]) -> Result<(), u8> {
    checked(tree).map(|_| ())
}

/// Questions 2 to 15, 33 and 36: the numbered tree, before it becomes bytes.
pub fn plan(tree: &[u8], limits: Limits) -> Result<plan::Plan<'_>, u8> {
    let program = checked(tree)?;
    slots::ask(&program)?;
    plan::make(&program, limits)
}

/// Question 1, then 2 to 15 and 33 of the first tree, then of the second: where
/// the first comes in the order of trees.
pub fn order(
    first: &[u8],
    second: &[u8],
    limits: Limits,
    area1: usize,
    area2: usize,
) -> Result<Ordering, u8> {
    if area1 < AREA || area2 < AREA {
        return Err(1);
    }
    let first = rest(first, limits)?;
    let second = rest(second, limits)?;
    Ok(first.cmp(&second))
}

/// Questions 2 to 15 and 33: the tree without its Pass statements and class
/// attributes.
pub fn rest(tree: &[u8], limits: Limits) -> Result<Vec<u8>, u8> {
    plan(tree, limits)?;
    Ok(write::rest(&tree::read(tree)?))
}

/// Questions 1, 38 and 2 to 6: the fewest consecutive top statements that are
/// refused with the number that the tree is refused with by 7 to 15, 33 or 36, or
/// none where the tree isn't refused.
pub fn cut(
    tree: &[u8],
    limits: Limits,
    area1: usize,
    area2: usize,
    room: usize,
) -> Result<Option<Vec<u8>>, u8> {
    if area1 < AREA || area2 < AREA {
        return Err(1);
    }
    if room < tree.len() {
        return Err(38);
    }
    let program = tree::read(tree)?;
    let refusal = plan(tree, limits).err();
    Ok(refusal.map(|number| cut::fewest(&program, limits, number)))
}

/// Questions 17 to 21.
pub fn read(module: &[u8]) -> Result<(), u8> {
    module::read(module).map(|_| ())
}

/// Questions 1, 17 to 21 and 37: the check of heights.
pub fn heights(module: &[u8], area: usize) -> Result<(), u8> {
    if area < reach::AREA {
        return Err(1);
    }
    height::ask(&module::read(module)?)
}

/// Questions 17 to 21 and 31: the code listing.
pub fn list(module: &[u8], room: usize) -> Result<String, u8> {
    fitting(listing::text(&module::read(module)?), room, 31)
}

/// Questions 17 to 21 and 32: the count sheet.
pub fn count_sheet(module: &[u8], room: usize) -> Result<String, u8> {
    fitting(sheet::text(&module::read(module)?), room, 32)
}

/// A text that fits the room, or the number of the question whether it does.
fn fitting(text: String, room: usize, question: u8) -> Result<String, u8> {
    if text.len() <= room {
        Ok(text)
    } else {
        Err(question)
    }
}

/// The start and length of a function's code in the module's bytes.
pub fn code(module: &[u8], function: u64) -> Result<(usize, usize), u8> {
    let module = module::read(module)?;
    let function = find(&module.functions, function)?;
    Ok((function.start, function.end - function.start))
}

/// Question 22.
fn find<T>(functions: &[T], number: u64) -> Result<&T, u8> {
    let number = usize::try_from(number).map_err(|_| 22)?;
    functions.get(number).ok_or(22)
}

/// Question 23, asked of every answer, also of those never used.
fn ask_answers(answers: &[u8]) -> Result<(), u8> {
    if answers.iter().all(|&answer| answer <= 1) {
        Ok(())
    } else {
        Err(23)
    }
}

/// Questions 17 to 24: the run of one function.
pub fn run(
    module: &[u8],
    function: u64,
    answers: &[u8],
    budget: u64,
    room: usize,
) -> Result<Ran, u8> {
    let module = module::read(module)?;
    let function = find(&module.functions, function)?;
    ask_answers(answers)?;
    run::run(&module, function, answers, budget, room)
}

/// Question 1 of an area of 131,072, then 17 to 22, 34 and 35: answers with
/// which the run meets the place, or none if no answers bring it there.
pub fn reach(
    module: &[u8],
    function: u64,
    place: u64,
    area: usize,
    room: usize,
) -> Result<Option<Vec<u8>>, u8> {
    if area < reach::AREA {
        return Err(1);
    }
    let module = module::read(module)?;
    let function = find(&module.functions, function)?;
    if place >= function.places.len() as u64 {
        return Err(34);
    }
    if room < reach::questions(&module, function) {
        return Err(35);
    }
    Ok(reach::Reached::of(&module, function).list(place as usize))
}

/// The walk through the body with that number. A tree that the office refuses by
/// questions 2 to 15, 33 or 36, a function that does not exist, or a bad answer
/// gives its number.
pub fn walk(tree: &[u8], function: u64, answers: &[u8]) -> Result<Walked, u8> {
    let plan = plan(tree, OFFICE)?;
    let function = find(&plan.functions, function)?;
    ask_answers(answers)?;
    Ok(walk::walk(&function.parts, answers))
}

/// The module as the reference's record has it, or the reader's refusal: slots
/// numbered by first use, version 1, and no heights.
pub fn renumber(module: &[u8]) -> Result<Vec<u8>, u8> {
    Ok(renumber::renumber(&module::read(module)?))
}
