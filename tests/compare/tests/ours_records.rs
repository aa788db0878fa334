//! Our check, reader, hand-back and run against the model, on records of every kind.

use compare::ours::number;
use generator::{damage, limits, modules, random, rng::Rng, runs};

fn same_check(tree: &[u8]) {
    let ours = rulketoos::check(tree).map_err(number);
    assert_eq!(ours, model::check(tree), "{tree:02x?}");
}

fn same_read(module: &[u8]) {
    let ours = rulketoos::read(module).map_err(number);
    assert_eq!(ours, model::read(module), "{module:02x?}");
    for function in [0, 1, 2, 65_535, 65_536, u64::MAX] {
        let ours = rulketoos::code(module, function).map_err(number);
        let model = model::code(module, function);
        assert_eq!(
            ours,
            model.map(|(start, length)| &module[start..start + length])
        );
    }
}

/// The run, in a buffer whose bytes past the events are looked at too.
fn same_run(module: &[u8], function: u64, answers: &[u8], budget: u64, room: usize) {
    let mut events = vec![0xa5; room];
    let ours = rulketoos::run(module, function, answers, budget, &mut events);
    let ours = ours.map_err(number).map(|ran| model::Ran {
        ending: ran.ending.number() as u8,
        steps: ran.steps,
        used: ran.used,
        events: ran.events.to_vec(),
    });
    let model = model::run(module, function, answers, budget, room);
    assert_eq!(ours, model);
    let written = model.map_or(0, |ran| ran.events.len());
    assert!(events[written..].iter().all(|&byte| byte == 0xa5));
}

#[test]
fn limits_of_trees() {
    for case in limits::all() {
        same_check(&case.tree);
    }
}

#[test]
fn every_truncation_and_every_byte_of_small_trees() {
    let mut rng = Rng::new(11);
    let mut small = 0;
    while small < 40 {
        let tree = random::tree(&mut rng);
        if tree.len() > 60 {
            continue;
        }
        small += 1;
        for end in 0..tree.len() {
            same_check(&tree[..end]);
        }
        for at in 0..tree.len() {
            let mut copy = tree.clone();
            for byte in 0..=255 {
                copy[at] = byte;
                same_check(&copy);
            }
        }
    }
}

#[test]
fn random_and_damaged_trees() {
    let mut rng = Rng::new(12);
    for _ in 0..20_000 {
        let tree = random::tree(&mut rng);
        same_check(&tree);
        same_check(&damage::damaged(&mut rng, &tree));
    }
}

#[test]
fn modules_of_every_kind() {
    let mut rng = Rng::new(13);
    for case in modules::all() {
        same_read(&case.module);
        for _ in 0..20 {
            same_read(&damage::damaged(&mut rng, &case.module));
        }
    }
    for length in [524_287, 524_288, 524_289] {
        same_read(&modules::of_length(length).module);
    }
}

#[test]
fn random_and_damaged_modules() {
    let mut rng = Rng::new(14);
    for _ in 0..5_000 {
        let module = modules::random(&mut rng).bytes();
        same_read(&module);
        same_read(&damage::damaged(&mut rng, &module));
        let tree = random::tree(&mut rng);
        if let Ok(lowered) = model::lower(&tree, model::OFFICE, model::AREA, model::AREA, 65_536) {
            same_read(&lowered);
            same_read(&damage::damaged(&mut rng, &lowered));
        }
    }
}

#[test]
fn every_byte_of_small_modules() {
    let mut rng = Rng::new(15);
    let mut small = 0;
    while small < 20 {
        let module = modules::random(&mut rng).bytes();
        if module.len() > 90 {
            continue;
        }
        small += 1;
        for end in 0..module.len() {
            same_read(&module[..end]);
        }
        for at in 0..module.len() {
            let mut copy = module.clone();
            for byte in 0..=255 {
                copy[at] = byte;
                same_read(&copy);
            }
        }
    }
}

#[test]
fn runs_of_every_kind() {
    let mut rng = Rng::new(16);
    let random = runs::random_runs(&mut rng, 4_000, 40);
    for case in runs::all().into_iter().chain(random) {
        let rooms = match case.run() {
            Ok(ran) => vec![
                case.room,
                ran.events.len(),
                ran.events.len().saturating_sub(1),
            ],
            Err(_) => vec![case.room, 0],
        };
        for room in rooms {
            same_run(
                &case.module,
                case.function,
                &case.answers,
                case.budget,
                room,
            );
            same_run(
                &case.module,
                case.function,
                &case.answers,
                case.budget.saturating_sub(1),
                room,
            );
        }
    }
}
