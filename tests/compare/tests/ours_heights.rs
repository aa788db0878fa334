//! Our check of heights, against the model: the answer, and every number that
//! the call is lent.

use compare::hex;
use compare::ours::number;
use generator::{damage, heights, limits, modules, random, reaches, samples, Rng};
use model::reach::AREA;
use model::OFFICE;
use rulketoos::HEIGHTS_AREA;

/// What lies in the area before a call.
const DIRT: u32 = 0xa5a5_a5a5;

/// One call on a dirty area of this length: the answer, and what is left.
fn agrees(module: &[u8], length: usize) -> Result<(), u8> {
    let mut area = vec![DIRT; length];
    let ours = rulketoos::heights(module, &mut area).map_err(number);
    let shown = || hex(&module[..module.len().min(2_000)]);
    assert_eq!(ours, model::heights(module, length), "{}", shown());
    let left = if ours == Err(1) { DIRT } else { 0 };
    assert!(area.iter().all(|&word| word == left), "{}", shown());
    ours
}

/// The numbers in the records, where the module is read.
fn numbers(module: &[u8]) {
    let Ok(read) = model::module::read(module) else {
        return;
    };
    for (function, record) in read.functions.iter().enumerate() {
        let ours = rulketoos::height(module, function as u64);
        assert_eq!(ours, Ok(record.height));
    }
}

#[test]
fn areas() {
    assert_eq!(HEIGHTS_AREA, AREA);
    for case in modules::all().into_iter().take(20) {
        for length in [0, AREA - 1, AREA, AREA + 999] {
            let _ = agrees(&case.module, length);
        }
    }
}

#[test]
fn directed_modules() {
    let mut rng = Rng::new(101);
    let mut seen = [0; 2];
    let cases = heights::all().into_iter().chain(modules::all());
    for case in cases.chain(reaches::small()) {
        let answer = agrees(&case.module, AREA);
        numbers(&case.module);
        seen[usize::from(answer == Err(37))] += 1;
        for _ in 0..5 {
            let copy = damage::damaged(&mut rng, &case.module);
            let _ = agrees(&copy, AREA);
        }
    }
    assert!(seen.iter().all(|&cases| cases > 100), "{seen:?}");
}

#[test]
fn the_most_instructions() {
    for case in reaches::large()
        .into_iter()
        .chain(heights::long_functions())
    {
        let _ = agrees(&case.module, AREA);
    }
}

#[test]
fn random_modules() {
    let mut rng = Rng::new(102);
    let mut seen = [0; 2];
    for _ in 0..3_000 {
        let module = heights::random_module(&mut rng);
        seen[usize::from(agrees(&module, AREA).is_err())] += 1;
        numbers(&module);
        let copy = damage::damaged(&mut rng, &module);
        let _ = agrees(&copy, AREA);
    }
    assert!(seen.iter().all(|&modules| modules > 100), "{seen:?}");
}

/// Every lowered module passes, whatever its tree.
#[test]
fn lowered_modules() {
    let mut rng = Rng::new(103);
    let mut passed = 0;
    let made = (0..500).map(|_| random::tree(&mut rng));
    let trees = samples::small().into_iter().chain(limits::all());
    for tree in trees.map(|case| case.tree).chain(made) {
        let Ok(module) = model::lower(&tree, OFFICE, model::AREA, model::AREA, 524_288) else {
            continue;
        };
        assert_eq!(agrees(&module, AREA), Ok(()));
        numbers(&module);
        passed += 1;
    }
    assert!(passed > 300, "{passed}");
}
