//! The comparisons that the tests and the program by hand make.

pub mod cut;
pub mod order;
pub mod ours;
pub mod reach;
pub mod texts;

use generator::{random, Rng};
use model::OFFICE;
use std::collections::BTreeMap;

pub const AREA: usize = 16_384;
pub const ROOM: usize = 65_536;
/// More than any accepted tree's module can take.
pub const WIDE: usize = 4_000_000;

/// What a comparison of many trees came to.
#[derive(Debug, Default, Clone, PartialEq, Eq)]
pub struct Tally {
    pub accepted: usize,
    /// How many each question refused.
    pub refused: BTreeMap<u8, usize>,
    /// How many the console refuses and the office accepts.
    pub console_refused: usize,
    pub walks: usize,
    /// How the walks ended: returned, no answer left.
    pub endings: [usize; 2],
}

impl Tally {
    fn refuse(&mut self, number: u8) {
        *self.refused.entry(number).or_default() += 1;
    }

    /// How many trees this question refused.
    pub fn refused(&self, number: u8) -> usize {
        self.refused.get(&number).copied().unwrap_or(0)
    }

    /// Fails where a question of trees refused none; there is always room.
    pub fn every_tree_question(&self) {
        for number in (2..16).chain([33, 36]) {
            assert!(self.refused(number) > 0, "no tree is refused by {number}");
        }
    }
}

/// A tree in hexadecimal, for messages.
pub fn hex(bytes: &[u8]) -> String {
    generator::text::hex(bytes)
}

/// The model's module equals the Rust's after renumbering, the model's reader
/// takes it, and renumbering twice is renumbering once.
pub fn compare_lowering(tree: &[u8], tally: &mut Tally) -> Result<(), String> {
    let module = match model::lower(tree, OFFICE, AREA, AREA, WIDE) {
        Ok(module) => module,
        Err(number) => {
            tally.refuse(number);
            return Ok(());
        }
    };
    tally.accepted += 1;
    model::read(&module).map_err(|n| format!("reader says {n}: tree {}", hex(tree)))?;
    let ours = model::renumber(&module).map_err(|n| format!("renumber says {n}"))?;
    let theirs = match oracle::lower(tree) {
        Ok(theirs) => theirs,
        Err(oracle::Failure::Missing(_)) => return Ok(()),
        Err(failure) => return Err(format!("{failure:?}: tree {}", hex(tree))),
    };
    if ours == theirs {
        return Ok(());
    }
    Err(format!(
        "tree {}\nmodel {}\nrust  {}",
        hex(tree),
        hex(&ours),
        hex(&theirs)
    ))
}

/// Run equals walk for every function, with random answers (demand 3).
pub fn compare_walks(tree: &[u8], rng: &mut Rng, tally: &mut Tally) -> Result<(), String> {
    let Ok(plan) = model::plan(tree, OFFICE) else {
        return Ok(());
    };
    let module = model::lowering::write(&plan, WIDE).map_err(|n| format!("write says {n}"))?;
    let module = model::module::read(&module).map_err(|n| format!("reader says {n}"))?;
    if plan.functions.len() != module.functions.len() {
        return Err(format!("function count: tree {}", hex(tree)));
    }
    for (planned, function) in plan.functions.iter().zip(&module.functions) {
        for length in [0, 1, 3, 12] {
            let answers: Vec<u8> = (0..length).map(|_| rng.byte() & 1).collect();
            let walked = model::walk::walk(&planned.parts, &answers);
            let ran = model::run::run(&module, function, &answers, u64::MAX, WIDE);
            tally.walks += 1;
            tally.endings[usize::from(walked.ending) - 1] += 1;
            if !ran.as_ref().is_ok_and(|ran| same(ran, &walked)) {
                let (name, tree) = (function.name, hex(tree));
                return Err(format!(
                    "run {ran:?}\nwalk {walked:?}\nfunction named {name}, answers {answers:?}, tree {tree}"
                ));
            }
        }
    }
    Ok(())
}

fn same(ran: &model::Ran, walked: &model::Walked) -> bool {
    ran.ending == walked.ending && ran.used == walked.used && ran.events == walked.events
}

/// Both comparisons on random trees from one seed.
pub fn compare_random(seed: u64, count: usize, walks: bool) -> Result<Tally, String> {
    let mut rng = Rng::new(seed);
    let mut answers = Rng::new(!seed);
    let mut tally = Tally::default();
    for number in 0..count {
        let tree = random::tree(&mut rng);
        let at = |e| format!("seed {seed}, tree number {number}: {e}");
        compare_lowering(&tree, &mut tally).map_err(at)?;
        if walks {
            compare_walks(&tree, &mut answers, &mut tally).map_err(at)?;
        }
    }
    Ok(tally)
}
