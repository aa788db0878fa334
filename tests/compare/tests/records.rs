//! Reader and run on good, bad and damaged module records.

use compare::{AREA, WIDE};
use generator::{damage, limits, modules, random, runs, Rng};

#[test]
fn longest_modules() {
    assert_eq!(model::read(&modules::of_length(524_288).module), Ok(()));
    assert_eq!(model::read(&modules::of_length(524_289).module), Err(17));
    let full = modules::full_of_code();
    assert_eq!(model::read(&full), Ok(()));
    let ran = model::run(&full, 6, &[], u64::MAX, 65_535).expect("a run");
    assert_eq!((ran.ending, ran.steps), (1, 65_535));
    assert_eq!(model::run(&full, 6, &[], u64::MAX, 65_534), Err(24));
}

/// Trees of the greatest length whose lowering would be very large.
#[test]
fn hostile_trees_are_quick() {
    let start = std::time::Instant::now();
    for case in limits::all() {
        if case.name.starts_with("hostile") {
            assert_eq!(
                model::lower(&case.tree, model::OFFICE, AREA, AREA, WIDE),
                Err(15)
            );
        }
    }
    assert!(start.elapsed().as_secs() < 20);
}

#[test]
fn endless_jumps_spend_any_budget() {
    let module = modules::Parts::of(&[modules::long(28, -1)]).bytes();
    let ran = model::run(&module, 0, &[], u64::MAX, 0).expect("a run");
    assert_eq!((ran.ending, ran.steps), (3, u64::MAX));
}

/// Damaged trees: no panic, and what is accepted agrees with the Rust.
#[test]
fn damaged_trees() {
    oracle::ready("damaged trees");
    let mut rng = Rng::new(7);
    let mut tally = compare::Tally::default();
    for _ in 0..20_000 {
        let tree = random::tree(&mut rng);
        let tree = damage::damaged(&mut rng, &tree);
        compare::compare_lowering(&tree, &mut tally).unwrap_or_else(|e| panic!("{e}"));
    }
    assert!(tally.accepted > 1_000, "{tally:?}");
    assert!(tally.refused(5) > 1_000, "{tally:?}");
}

/// Damaged modules: no panic, and every run keeps the rules on its answer.
#[test]
fn damaged_modules() {
    let mut rng = Rng::new(8);
    let mut seen = [0; 25];
    for _ in 0..20_000 {
        let tree = random::tree(&mut rng);
        let Ok(module) = model::lower(&tree, model::OFFICE, AREA, AREA, WIDE) else {
            continue;
        };
        let module = damage::damaged(&mut rng, &module);
        match model::read(&module) {
            Ok(()) => check_runs(&mut rng, &module),
            Err(number) => seen[usize::from(number)] += 1,
        }
    }
    assert!(seen[17..=21].iter().all(|&count| count > 0), "{seen:?}");
}

/// Hand-made modules whose jumps go anywhere.
#[test]
fn made_modules() {
    let mut rng = Rng::new(10);
    let mut seen = [0; 25];
    for _ in 0..20_000 {
        let module = modules::random(&mut rng).bytes();
        match model::read(&module) {
            Ok(()) => check_runs(&mut rng, &module),
            Err(number) => seen[usize::from(number)] += 1,
        }
    }
    assert!(seen[19..=21].iter().all(|&count| count > 100), "{seen:?}");
    assert_eq!(seen.iter().sum::<usize>(), seen[19..=21].iter().sum());
}

fn check_runs(rng: &mut Rng, module: &[u8]) {
    for function in 0..4 {
        let answers: Vec<u8> = (0..rng.below(9)).map(|_| rng.byte() & 1).collect();
        let budget = rng.number() % 200;
        let Ok(ran) = model::run(module, function, &answers, budget, WIDE) else {
            assert_eq!(model::code(module, function), Err(22));
            continue;
        };
        assert!(ran.steps <= budget && ran.used <= answers.len());
        match ran.ending {
            1 => assert_eq!(ran.events.last(), Some(&modules::RETURN)),
            2 => assert!(ran.used == answers.len() && ran.steps < budget),
            _ => assert_eq!((ran.ending, ran.steps), (3, budget)),
        }
        let fits = model::run(module, function, &answers, budget, ran.events.len());
        assert_eq!(fits, Ok(ran));
    }
}

/// A smaller budget gives a beginning of the same run.
#[test]
fn budgets_cut_runs() {
    for case in runs::random_runs(&mut Rng::new(9), 2_000, 2_000) {
        let whole = case.clone().budget(500).room(WIDE).run();
        let Ok(whole) = whole else {
            continue;
        };
        let budget = whole.steps / 2;
        let part = case.budget(budget).room(WIDE).run().expect("a run");
        assert!(whole.events.starts_with(&part.events));
        assert!(part.used <= whole.used && part.steps == budget);
        let ending = if whole.steps > budget {
            3
        } else {
            whole.ending
        };
        assert!(part.ending == ending || whole.steps == 0);
    }
}

/// The code handed back is the part of the module that the run reads.
#[test]
fn code_is_part_of_the_module() {
    let module = modules::every_instruction().bytes();
    let (start, length) = model::code(&module, 0).expect("a function");
    let read = model::module::read(&module).expect("accepted");
    assert_eq!(read.functions[0].places[0], start);
    assert_eq!(read.functions[0].places.len(), 46);
    assert_eq!(module[start + length - 1], modules::RETURN);
    assert_eq!(model::code(&module, 1), Err(22));
    assert_eq!(model::code(&module, u64::MAX), Err(22));
    assert_eq!(model::code(&module[1..], 0), Err(17));
}
