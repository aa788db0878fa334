//! Our proved code, through the crate `rulketoos`, held to the model and the
//! Rust: answers, and every byte and number that a call is lent.

use crate::{hex, Tally, AREA, WIDE};
use generator::{damage, random, Rng};
use model::{CONSOLE, OFFICE};
use rulketoos::{Areas, Limits, Refusal};

/// What lies in areas and outputs before a call.
const DIRT: u8 = 0xa5;
const DIRT_WORD: u32 = 0xa5a5_a5a5;

/// A lowering, by a set of limits.
type Lowering = fn(&[u8], Limits, &mut Areas, &mut [u8]) -> Result<usize, Refusal>;

/// The two lowerings: they have to agree on every input.
const LOWERINGS: [Lowering; 2] = [rulketoos::lower, rulketoos::lower_measured];

/// The number of a refusal, as the model gives it.
pub fn number(refusal: Refusal) -> u8 {
    refusal.number() as u8
}

/// Our name for a set of limits of the model.
pub fn limits(set: model::Limits) -> Limits {
    if set == CONSOLE {
        Limits::Console
    } else {
        Limits::Office
    }
}

/// Buffers that are used for call after call.
pub struct Lent {
    areas: Areas,
    out: Vec<u8>,
    events: Vec<u8>,
}

impl Default for Lent {
    fn default() -> Self {
        Self {
            areas: Areas::new(),
            out: Vec::new(),
            events: Vec::new(),
        }
    }
}

/// The answer that a call with areas of these lengths and so much room has to
/// give, by the answer with room enough.
fn expected(whole: &Result<Vec<u8>, u8>, areas: [usize; 2], room: usize) -> Result<&[u8], u8> {
    if areas[0] < AREA || areas[1] < AREA {
        return Err(1);
    }
    match whole {
        Err(number) => Err(*number),
        Ok(module) if module.len() > room => Err(16),
        Ok(module) => Ok(module),
    }
}

fn all(words: &[u32], word: u32) -> bool {
    words.iter().all(|&w| w == word)
}

impl Lent {
    /// Areas of these lengths and an output of that room, all dirt.
    fn soil(&mut self, areas: [usize; 2], room: usize) {
        for (area, length) in [
            (&mut self.areas.first, areas[0]),
            (&mut self.areas.second, areas[1]),
        ] {
            area.clear();
            area.resize(length, DIRT_WORD);
        }
        self.out.clear();
        self.out.resize(room, DIRT);
    }

    /// One call on dirty buffers: the answer, and what every buffer holds after it.
    fn call(
        &mut self,
        lowering: Lowering,
        tree: &[u8],
        limits: Limits,
        areas: [usize; 2],
        room: usize,
        whole: &Result<Vec<u8>, u8>,
    ) -> Result<(), String> {
        self.soil(areas, room);
        let ours = lowering(tree, limits, &mut self.areas, &mut self.out).map_err(number);
        let expected = expected(whole, areas, room);
        let count = expected.map(<[u8]>::len);
        if ours != count {
            return Err(format!("ours {ours:?}, the model {count:?}"));
        }
        let module = expected.unwrap_or(&[]);
        let (written, rest) = self.out.split_at(module.len());
        if written != module {
            return Err(format!("ours {}\nmodel {}", hex(written), hex(module)));
        }
        if rest.iter().any(|&byte| byte != DIRT) {
            return Err("the rest of the output is changed".to_string());
        }
        let left = if expected == Err(1) { DIRT_WORD } else { 0 };
        if !all(&self.areas.first, left) || !all(&self.areas.second, left) {
            return Err(format!("an area is not all {left}"));
        }
        Ok(())
    }

    /// Calls with areas just long enough, longer and too short, and with an
    /// output that is longer than the module, just full, and one short; by each
    /// lowering.
    fn calls(
        &mut self,
        tree: &[u8],
        limits: Limits,
        whole: &Result<Vec<u8>, u8>,
    ) -> Result<(), String> {
        let length = whole.as_ref().map_or(80, Vec::len);
        let short = if tree.len().is_multiple_of(2) {
            [AREA - 1, AREA]
        } else {
            [AREA, AREA - 1]
        };
        for (areas, room) in [
            ([AREA, AREA], length + 7),
            ([AREA + 1, AREA + 999], length),
            ([AREA + 64, AREA], length - 1),
            (short, length),
        ] {
            for (place, lowering) in LOWERINGS.into_iter().enumerate() {
                self.call(lowering, tree, limits, areas, room, whole)
                    .map_err(|e| {
                        format!("lowering {place}, {limits:?}, areas {areas:?}, room {room}: {e}")
                    })?;
            }
        }
        Ok(())
    }

    /// The run of every function equals the walk, with a budget of answers
    /// and one times instructions, and in a buffer that the events just fill.
    fn runs(
        &mut self,
        tree: &[u8],
        module: &[u8],
        rng: &mut Rng,
        tally: &mut Tally,
    ) -> Result<(), String> {
        let plan = model::plan(tree, OFFICE).map_err(|n| format!("plan says {n}"))?;
        let read = model::module::read(module).map_err(|n| format!("reader says {n}"))?;
        // Each run reads the whole module, so many functions have one list each.
        let lengths: &[usize] = if plan.functions.len() > 24 {
            &[12]
        } else {
            &[0, 1, 3, 12]
        };
        for (place, function) in plan.functions.iter().enumerate() {
            let k = place as u64;
            let code = &module[read.functions[place].start..read.functions[place].end];
            if rulketoos::code(module, k) != Ok(code) {
                return Err(format!("the code of function {k}"));
            }
            for &length in lengths {
                let answers: Vec<u8> = (0..length).map(|_| rng.byte() & 1).collect();
                let walked = model::walk::walk(&function.parts, &answers);
                let budget = (answers.len() + 1) * read.functions[place].places.len();
                tally.walks += 1;
                tally.endings[usize::from(walked.ending) - 1] += 1;
                self.run(module, k, &answers, budget as u64, &walked)
                    .map_err(|e| format!("function {k}, answers {answers:?}: {e}"))?;
            }
        }
        Ok(())
    }

    fn run(
        &mut self,
        module: &[u8],
        function: u64,
        answers: &[u8],
        budget: u64,
        walked: &model::Walked,
    ) -> Result<(), String> {
        self.events.clear();
        self.events.resize(walked.events.len(), DIRT);
        let ran = rulketoos::run(module, function, answers, budget, &mut self.events);
        let ran = ran.map_err(|refusal| refusal.to_string())?;
        let same = ran.ending.number() == u32::from(walked.ending)
            && ran.used == walked.used
            && ran.events == walked.events;
        if !same || ran.steps > budget {
            return Err(format!("run {ran:?}\nwalk {walked:?}"));
        }
        Ok(())
    }
}

/// Our module equals the Rust's after renumbering.
fn same_as_the_rust(tree: &[u8], module: &[u8]) -> Result<(), String> {
    let theirs = match oracle::lower(tree) {
        Ok(theirs) => theirs,
        Err(oracle::Failure::Missing(_)) => return Ok(()),
        Err(failure) => return Err(format!("{failure:?}")),
    };
    let ours = model::renumber(module).map_err(|n| format!("renumber says {n}"))?;
    if ours != theirs {
        return Err(format!("ours {}\nrust {}", hex(&ours), hex(&theirs)));
    }
    Ok(())
}

fn compare(tree: &[u8], lent: &mut Lent, rng: &mut Rng, tally: &mut Tally) -> Result<(), String> {
    let whole = model::lower(tree, OFFICE, AREA, AREA, WIDE);
    lent.calls(tree, Limits::Office, &whole)?;
    let console = model::lower(tree, CONSOLE, AREA, AREA, WIDE);
    lent.calls(tree, Limits::Console, &console)?;
    tally.console_refused += usize::from(whole.is_ok() && console.is_err());
    let checked = rulketoos::check(tree).map_err(number);
    let asked = model::check(tree);
    if checked != asked {
        return Err(format!("check says {checked:?}, the model {asked:?}"));
    }
    let module = match whole {
        Ok(module) => module,
        Err(number) => {
            tally.refuse(number);
            return Ok(());
        }
    };
    tally.accepted += 1;
    rulketoos::read(&module).map_err(|refusal| refusal.to_string())?;
    same_as_the_rust(tree, &module)?;
    lent.runs(tree, &module, rng, tally)
}

/// Ours, the model and the Rust on one tree.
pub fn compare_ours(
    tree: &[u8],
    lent: &mut Lent,
    rng: &mut Rng,
    tally: &mut Tally,
) -> Result<(), String> {
    compare(tree, lent, rng, tally).map_err(|e| format!("{e}\ntree {}", hex(tree)))
}

/// Ours, the model and the Rust on random trees from one seed, and on a
/// damaged copy of each.
pub fn compare_ours_random(seed: u64, count: usize) -> Result<Tally, String> {
    let mut rng = Rng::new(seed);
    let mut answers = Rng::new(!seed);
    let mut lent = Lent::default();
    let mut tally = Tally::default();
    for number in 0..count {
        let tree = random::tree(&mut rng);
        let copy = damage::damaged(&mut rng, &tree);
        for tree in [tree, copy] {
            compare_ours(&tree, &mut lent, &mut answers, &mut tally)
                .map_err(|e| format!("seed {seed}, tree number {number}: {e}"))?;
        }
    }
    Ok(tally)
}
