//! The text of the committed vectors, made again byte for byte.

use crate::cuts::{self, CutCase};
use crate::heights;
use crate::modules::{self, ModuleCase};
use crate::orders::{self, OrderCase};
use crate::runs::{self, RunCase};
use crate::samples::{self, Case};
use crate::text::{hex, hex_or_dash};
use crate::{damage, limits, random, Bytes, Rng};
use model::{Limits, CONSOLE, OFFICE};
use std::cmp::Ordering;

const SEED: u64 = 20_251_125;

/// File names below tests/vectors and their whole text.
pub fn files() -> [(&'static str, String); 7] {
    [
        ("trees.txt", tree_lines(&trees(), OFFICE)),
        ("console.txt", tree_lines(&console_trees(), CONSOLE)),
        ("modules.txt", lines(module_cases().iter().map(module_line))),
        ("runs.txt", lines(run_cases().iter().map(run_line))),
        ("heights.txt", lines(height_cases().iter().map(height_line))),
        ("orders.txt", lines(order_cases().iter().map(order_line))),
        ("cuts.txt", lines(cut_cases().iter().map(cut_line))),
    ]
}

fn lines(each: impl Iterator<Item = String>) -> String {
    each.map(|line| line + "\n").collect()
}

/// The answer on this tree with the areas and the output of the program `lower`.
pub fn tree_answer(tree: &[u8], limits: Limits) -> String {
    match model::lower(tree, limits, 16_384, 16_384, 65_536) {
        Ok(module) => hex(&module),
        Err(number) => format!("refused {number}"),
    }
}

pub fn module_answer(module: &[u8]) -> String {
    match model::read(module) {
        Ok(()) => "accepted".to_string(),
        Err(number) => format!("refused {number}"),
    }
}

/// The answer of the check of heights.
pub fn height_answer(module: &[u8]) -> String {
    match model::heights(module, model::reach::AREA) {
        Ok(()) => "accepted".to_string(),
        Err(number) => format!("refused {number}"),
    }
}

pub fn run_answer(case: &RunCase) -> String {
    match case.run() {
        Ok(ran) => {
            let events = hex_or_dash(&ran.events);
            format!("{} {} {} {events}", ran.ending, ran.steps, ran.used)
        }
        Err(number) => format!("refused {number}"),
    }
}

/// The answer on two trees, with areas that are long enough.
pub fn order_answer(first: &[u8], second: &[u8]) -> String {
    match model::order(first, second, OFFICE, 16_384, 16_384) {
        Ok(Ordering::Less) => "before".to_string(),
        Ok(Ordering::Equal) => "equal".to_string(),
        Ok(Ordering::Greater) => "after".to_string(),
        Err(number) => format!("refused {number}"),
    }
}

/// What a tree is cut down to, with areas that are long enough.
pub fn cut_answer(case: &CutCase) -> String {
    match model::cut(&case.tree, case.limits, 16_384, 16_384, case.room) {
        Ok(Some(tree)) => hex(&tree),
        Ok(None) => "not refused".to_string(),
        Err(number) => format!("refused {number}"),
    }
}

/// A field of bytes; the empty record is a dash, too.
fn tree_lines(cases: &[Case], limits: Limits) -> String {
    let line = |case: &Case| {
        let answer = tree_answer(&case.tree, limits);
        format!("{}\t{}\t{answer}", case.name, hex_or_dash(&case.tree))
    };
    lines(cases.iter().map(line))
}

fn module_line(case: &ModuleCase) -> String {
    let answer = module_answer(&case.module);
    format!("{}\t{}\t{answer}", case.name, hex_or_dash(&case.module))
}

fn height_line(case: &ModuleCase) -> String {
    let answer = height_answer(&case.module);
    format!("{}\t{}\t{answer}", case.name, hex_or_dash(&case.module))
}

fn run_line(case: &RunCase) -> String {
    format!(
        "{}\t{}\t{}\t{}\t{}\t{}\t{}",
        case.name,
        hex_or_dash(&case.module),
        case.function,
        hex_or_dash(&case.answers),
        case.budget,
        case.room,
        run_answer(case)
    )
}

fn order_line(case: &OrderCase) -> String {
    let answer = order_answer(&case.first, &case.second);
    let (first, second) = (hex_or_dash(&case.first), hex_or_dash(&case.second));
    format!("{}\t{first}\t{second}\t{answer}", case.name)
}

fn cut_line(case: &CutCase) -> String {
    format!(
        "{}\t{}\t{}\t{}\t{}",
        case.name,
        cuts::set(case.limits),
        hex_or_dash(&case.tree),
        case.room,
        cut_answer(case)
    )
}

/// A random tree of at most so many bytes.
fn small_tree(rng: &mut Rng, longest: usize) -> Bytes {
    loop {
        let tree = random::tree(rng);
        if (20..=longest).contains(&tree.len()) {
            return tree;
        }
    }
}

/// Samples, random trees, damaged copies, then the limits.
pub fn trees() -> Vec<Case> {
    let mut rng = Rng::new(SEED);
    let mut cases = samples::starred();
    cases.extend(samples::small());
    for number in 0..150 {
        let tree = small_tree(&mut rng, 250);
        cases.push(samples::case(&format!("random-{number}"), tree));
    }
    for number in 0..150 {
        let tree = small_tree(&mut rng, 200);
        let tree = damage::damaged(&mut rng, &tree);
        cases.push(samples::case(&format!("damaged-{number}"), tree));
    }
    cases.extend(limits::all());
    cases
}

/// Samples, and what the console is asked about.
pub fn console_trees() -> Vec<Case> {
    let mut cases = samples::starred();
    cases.extend(limits::at_console());
    cases
}

/// Hand-made modules, random ones, lowered ones, and damaged copies.
pub fn module_cases() -> Vec<ModuleCase> {
    let mut rng = Rng::new(SEED + 1);
    let mut cases = modules::all();
    for number in 0..100 {
        let module = modules::random(&mut rng).bytes();
        cases.push(modules::module_case(&format!("made-{number}"), module));
    }
    for number in 0..40 {
        let module = small_module(&mut rng, 500);
        cases.push(modules::module_case(&format!("lowered-{number}"), module));
    }
    for number in 0..200 {
        let module = small_module(&mut rng, 300);
        let module = damage::damaged(&mut rng, &module);
        cases.push(modules::module_case(&format!("damaged-{number}"), module));
    }
    cases
}

/// A lowered module of at most so many bytes.
fn small_module(rng: &mut Rng, longest: usize) -> Bytes {
    loop {
        let tree = small_tree(rng, longest);
        let module = model::lower(&tree, OFFICE, 16_384, 16_384, longest);
        if let Ok(module) = module {
            return module;
        }
    }
}

pub fn run_cases() -> Vec<RunCase> {
    let mut rng = Rng::new(SEED + 2);
    let mut cases = runs::all();
    cases.extend(runs::random_runs(&mut rng, 150, 500));
    cases.extend(runs::made_runs(&mut rng, 150));
    cases
}

/// Modules of the check of heights: hand-made, random, and of the reader's the
/// short ones that it takes, and those whose layout is wrong.
pub fn height_cases() -> Vec<ModuleCase> {
    let mut rng = Rng::new(SEED + 3);
    let mut cases = heights::all();
    for number in 0..70 {
        let module = loop {
            let module = heights::random_module(&mut rng);
            if module.len() <= 150 {
                break module;
            }
        };
        cases.push(modules::module_case(
            &format!("heights-random-{number}"),
            module,
        ));
    }
    cases.extend(module_cases().into_iter().filter(|case| {
        let taken = model::read(&case.module).is_ok();
        case.module.len() <= 200 && (taken || case.name.starts_with("module-"))
    }));
    cases
}

/// Pairs made by hand, random trees beside copies with more Pass statements,
/// with a byte raised, and damaged, and beside each other.
pub fn order_cases() -> Vec<OrderCase> {
    let mut rng = Rng::new(SEED + 4);
    let mut cases = orders::all();
    for number in 0..60 {
        let tree = small_tree(&mut rng, 200);
        let copy = orders::padded(&mut rng, &tree);
        cases.push(orders::order_case(&format!("padded-{number}"), tree, copy));
    }
    for number in 0..60 {
        let tree = small_tree(&mut rng, 200);
        let copy = orders::nudged(&mut rng, &tree);
        let copy = orders::padded(&mut rng, &copy);
        cases.push(orders::order_case(&format!("nudged-{number}"), tree, copy));
    }
    for number in 0..30 {
        let tree = small_tree(&mut rng, 150);
        let copy = damage::damaged(&mut rng, &tree);
        cases.push(orders::order_case(&format!("damaged-{number}"), tree, copy));
        let (tree, other) = (small_tree(&mut rng, 150), small_tree(&mut rng, 150));
        cases.push(orders::order_case(&format!("other-{number}"), tree, other));
    }
    cases
}

/// Of larger trees these alone, a kind each.
const LARGE_CUTS: [&str; 8] = [
    "cut-13-last",
    "cut-14-last",
    "cut-15-last",
    "cut-functions-spaced-console",
    "cut-functions-later-console",
    "cut-functions-single-console",
    "cut-classes-even-console",
    "cut-classes-last-console",
];

/// The short ones of those made by hand, random trees and damaged ones.
pub fn cut_cases() -> Vec<CutCase> {
    let mut rng = Rng::new(SEED + 5);
    let mut cases = cuts::all();
    cases.retain(|case| case.tree.len() <= 150 || LARGE_CUTS.contains(&case.name.as_str()));
    for number in 0..30 {
        let tree = small_tree(&mut rng, 100);
        let damaged = damage::damaged(&mut rng, &tree);
        let (one, other) = (format!("random-{number}"), format!("damaged-{number}"));
        cases.push(cuts::cut_case(&one, OFFICE, tree));
        cases.push(cuts::cut_case(&other, OFFICE, damaged));
    }
    cases
}
