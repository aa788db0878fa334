//! Runs: modules, function numbers, answers, budgets and rooms.

use crate::make::{self, Bytes};
use crate::modules::{self, function, long, Parts, RETURN};
use crate::rng::Rng;
use crate::{random, samples};

/// A named run.
#[derive(Clone)]
pub struct RunCase {
    pub name: String,
    pub module: Bytes,
    pub function: u64,
    pub answers: Bytes,
    pub budget: u64,
    pub room: usize,
}

const ROOM: usize = 65_536;

impl RunCase {
    pub fn new(name: &str, module: &[u8]) -> Self {
        Self {
            name: name.to_string(),
            module: module.to_vec(),
            function: 0,
            answers: Vec::new(),
            budget: 1_000,
            room: ROOM,
        }
    }

    pub fn function(mut self, function: u64) -> Self {
        self.function = function;
        self
    }

    pub fn answers(mut self, answers: &[u8]) -> Self {
        self.answers = answers.to_vec();
        self
    }

    pub fn budget(mut self, budget: u64) -> Self {
        self.budget = budget;
        self
    }

    pub fn room(mut self, room: usize) -> Self {
        self.room = room;
        self
    }

    pub fn run(&self) -> Result<model::Ran, u8> {
        model::run(
            &self.module,
            self.function,
            &self.answers,
            self.budget,
            self.room,
        )
    }
}

fn lowered(tree: &[u8]) -> Option<Bytes> {
    model::lower(tree, model::OFFICE, 16_384, 16_384, ROOM).ok()
}

/// All directed runs.
pub fn all() -> Vec<RunCase> {
    let mut cases = samples_run();
    cases.extend(hand_made());
    cases.extend(refused());
    cases.extend(edges());
    cases
}

/// Every small script that is accepted, with a few answer lists.
fn samples_run() -> Vec<RunCase> {
    let lists: [&[u8]; 4] = [&[], &[0, 0, 0, 0], &[1, 1, 1, 0, 1, 0, 0, 0], &[1, 0]];
    let scripts = samples::starred().into_iter().chain(control_scripts());
    let mut cases = Vec::new();
    for case in scripts {
        let Some(module) = lowered(&case.tree) else {
            continue;
        };
        for (place, answers) in lists.iter().enumerate() {
            let name = format!("run-{}-{place}", case.name);
            cases.push(RunCase::new(&name, &module).answers(answers));
        }
    }
    cases
}

fn control_scripts() -> impl Iterator<Item = samples::Case> {
    let words = ["if-", "leave-", "loop", "for-", "and-", "or", "while-"];
    let wanted = move |name: &str| words.iter().any(|word| name.starts_with(word));
    let small = samples::small().into_iter();
    small.filter(move |case| wanted(&case.name))
}

fn hand_made() -> Vec<RunCase> {
    let every = modules::every_instruction().bytes();
    let spin = Parts::of(&[long(28, -1)]).bytes();
    let ring = Parts::of(&[long(28, 1), long(28, -2), long(28, -2)]).bytes();
    let busy = Parts::of(&[vec![5], vec![7], long(28, -3)]).bytes();
    let asks = Parts::of(&[long(29, -1)]).bytes();
    let asks_true = Parts::of(&[long(30, -1)]).bytes();
    let falls = Parts::of(&[long(30, 1), vec![3], vec![4]]).bytes();
    let two = Parts::with(&[
        function(0, &[vec![RETURN]]),
        function(0, &[vec![5], vec![RETURN]]),
    ]);
    let two = two.bytes();
    vec![
        RunCase::new("run-every-instruction", &every).answers(&[0, 1]),
        RunCase::new("run-every-instruction-other", &every).answers(&[1, 0]),
        RunCase::new("run-spin", &spin),
        RunCase::new("run-spin-none", &spin).budget(0),
        RunCase::new("run-ring", &ring).budget(100),
        RunCase::new("run-busy", &busy).budget(50),
        RunCase::new("run-ask-again", &asks).answers(&[0, 0, 0]),
        RunCase::new("run-ask-until-yes", &asks).answers(&[0, 0, 1, 0]),
        RunCase::new("run-ask-until-no", &asks_true).answers(&[1, 1, 0]),
        RunCase::new("run-if-true-yes", &falls).answers(&[1]),
        RunCase::new("run-if-true-no", &falls).answers(&[0]),
        RunCase::new("run-second", &two).function(1),
        RunCase::new("run-most-budget", &two).budget(u64::MAX),
    ]
}

fn refused() -> Vec<RunCase> {
    let good = Parts::of(&[long(29, 0)]).bytes();
    let none = Parts::with(&[]).bytes();
    let mut bad_version = good.clone();
    bad_version[4] = 2;
    let mut over = good.clone();
    over.push(0);
    let bad_number = Parts::of(&[vec![32, 8, 0]]).bytes();
    let bad_end = Parts::with(&[function(0, &[])]).bytes();
    let all_wrong =
        |name: &str, module: &[u8]| RunCase::new(name, module).function(9).answers(&[2]).room(0);
    vec![
        all_wrong("refused-17", &good[1..]),
        all_wrong("refused-17-none", &[]),
        all_wrong("refused-18", &bad_version),
        all_wrong("refused-19", &make::mended(&over)),
        all_wrong("refused-20", &bad_number),
        all_wrong("refused-21", &bad_end),
        all_wrong("refused-22", &good),
        RunCase::new("refused-22-next", &good).function(1),
        RunCase::new("refused-22-no-functions", &none),
        RunCase::new("refused-22-far", &good).function(65_536),
        RunCase::new("refused-23", &good).answers(&[2]).room(0),
        RunCase::new("refused-23-unused", &good).answers(&[1, 1, 2]),
        RunCase::new("refused-23-first-step", &good)
            .answers(&[255])
            .budget(0),
        RunCase::new("refused-24", &good).answers(&[1]).room(2),
        RunCase::new("refused-24-none", &good).answers(&[1]).room(0),
        RunCase::new("not-refused-24", &good).answers(&[1]).room(3),
        RunCase::new("no-room-no-answer", &good).room(0),
        RunCase::new("no-room-no-budget", &good)
            .answers(&[1])
            .budget(0)
            .room(0),
    ]
}

/// Budgets and rooms exact, one short and one more, for one long run.
fn edges() -> Vec<RunCase> {
    let body = [make::if_(
        &[(make::var("a"), vec![make::continue_()])],
        Some(&[make::expr(make::binary(
            make::OR,
            make::var("b"),
            make::var("c"),
        ))]),
    )];
    let stmts = [make::for_("i", make::var("r"), &body)];
    let module = lowered(&make::tree(&stmts)).expect("an accepted tree");
    let answers = [1, 1, 1, 0, 1, 1, 0, 0, 0];
    let whole = RunCase::new("edge", &module).answers(&answers);
    let ran = whole.run().expect("a run");
    let mut cases = Vec::new();
    for budget in 0..=ran.steps + 1 {
        let mut case = whole.clone().budget(budget);
        case.name = format!("edge-budget-{budget}");
        cases.push(case);
    }
    for room in ran.events.len() - 3..=ran.events.len() + 1 {
        let mut case = whole.clone().room(room);
        case.name = format!("edge-room-{room}");
        cases.push(case);
    }
    for length in 0..=answers.len() {
        let mut case = whole.clone().answers(&answers[..length]);
        case.name = format!("edge-answers-{length}");
        cases.push(case);
    }
    cases
}

/// Runs of random lowered modules with random answers, budgets and rooms.
pub fn random_runs(rng: &mut Rng, count: usize, longest: usize) -> Vec<RunCase> {
    let mut cases: Vec<RunCase> = Vec::new();
    while cases.len() < count {
        let Some(module) = lowered(&random::tree(rng)) else {
            continue;
        };
        if module.len() > longest {
            continue;
        }
        let name = format!("random-{}", cases.len());
        cases.push(random_run(rng, RunCase::new(&name, &module)));
    }
    cases
}

/// Runs of random hand-made modules, whose jumps go anywhere.
pub fn made_runs(rng: &mut Rng, count: usize) -> Vec<RunCase> {
    let mut cases: Vec<RunCase> = Vec::new();
    while cases.len() < count {
        let module = modules::random(rng).bytes();
        if model::read(&module).is_err() {
            continue;
        }
        let budget = rng.number() % 60;
        let name = format!("made-{}", cases.len());
        let case = random_run(rng, RunCase::new(&name, &module));
        // No endless budget here: these may go round for ever.
        let endless = case.budget > 1_000;
        cases.push(if endless { case.budget(budget) } else { case });
    }
    cases
}

/// The functions of a module that was lowered.
fn function_count(module: &[u8]) -> u64 {
    let exists = |number: &u64| model::code(module, *number).is_ok();
    (0..).take_while(exists).count() as u64
}

fn random_run(rng: &mut Rng, case: RunCase) -> RunCase {
    let functions = function_count(&case.module);
    let function = rng.number() % (functions + u64::from(rng.once_in(10)));
    let length = rng.below(12);
    let mut answers: Vec<u8> = (0..length).map(|_| rng.byte() & 1).collect();
    if rng.once_in(12) && length > 0 {
        answers[length - 1] = 2;
    }
    let case = case.function(function).answers(&answers);
    let Ok(ran) = case.run() else {
        return case;
    };
    match rng.below(6) {
        0 => case.budget(ran.steps),
        1 => case.budget(ran.steps.saturating_sub(1)),
        2 => case.room(ran.events.len()),
        3 => case.room(ran.events.len().saturating_sub(1)),
        4 => case.budget(rng.number() % (ran.steps + 1)),
        _ => case.budget(u64::MAX),
    }
}
