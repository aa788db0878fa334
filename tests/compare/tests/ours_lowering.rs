//! Our lowering against the model's and the Rust's.

use compare::ours::{compare_ours, compare_ours_random, number, Lent};
use compare::{Tally, AREA, ROOM};
use generator::{limits, samples, slow, Rng};
use model::{CONSOLE, OFFICE};
use rulketoos::{Areas, Limits};

#[test]
fn directed_trees() {
    oracle::ready("directed trees, ours");
    let mut cases = samples::starred();
    cases.extend(samples::small());
    cases.extend(limits::all());
    cases.extend(slow::all());
    let (mut lent, mut rng, mut tally) = (Lent::default(), Rng::new(21), Tally::default());
    for case in cases {
        let at = |e| panic!("{}: {e}", case.name);
        compare_ours(&case.tree, &mut lent, &mut rng, &mut tally).unwrap_or_else(at);
    }
    tally.every_tree_question();
    assert!(tally.console_refused > 50, "{tally:?}");
}

/// Random trees and a damaged copy of each.
fn random(seed: u64) {
    oracle::ready("random trees, ours");
    let tally = compare_ours_random(seed, 10_000).unwrap_or_else(|e| panic!("{e}"));
    println!("{tally:?}");
    assert!(tally.accepted > 9_000 && tally.refused(5) > 1_000 && tally.refused(33) > 100);
    assert!(tally.endings.iter().all(|&count| count > 1_000));
}

// Two tests, since tests run beside each other.
#[test]
fn random_trees_first() {
    random(20_261_116);
}

#[test]
fn random_trees_second() {
    random(20_261_117);
}

/// Every length of the output and lengths of the areas around the limit.
#[test]
fn rooms_and_areas() {
    let lengths = [0, AREA - 1, AREA, AREA + 1, 3 * AREA];
    for case in samples::starred() {
        let whole = model::lower(&case.tree, OFFICE, AREA, AREA, ROOM);
        let most = whole.map_or(9, |module| module.len() + 3).min(200);
        for room in 0..most {
            let first = lengths[room % 5];
            let second = lengths[(room / 5) % 5];
            let mut areas = Areas {
                first: vec![1; first],
                second: vec![2; second],
            };
            let before = areas.clone();
            let mut out = vec![7; room];
            let ours =
                rulketoos::lower(&case.tree, Limits::Office, &mut areas, &mut out).map_err(number);
            let model = model::lower(&case.tree, OFFICE, first, second, room);
            let mut after = model.clone().unwrap_or_default();
            after.resize(room, 7);
            assert_eq!(ours, model.as_ref().map(Vec::len).map_err(|&number| number));
            assert_eq!(out, after);
            if ours == Err(1) {
                assert!(areas == before);
            } else {
                assert!(areas
                    .first
                    .iter()
                    .chain(&areas.second)
                    .all(|&word| word == 0));
                assert_eq!([areas.first.len(), areas.second.len()], [first, second]);
            }
        }
    }
}

/// With an output that is too short for the module the office says 16, and the
/// console 15 where the module is over its limits.
#[test]
fn fifteen_before_sixteen() {
    let (mut areas, mut out) = (Areas::new(), vec![7; 100]);
    let mut count = 0;
    for case in limits::at_console() {
        let (office, console) = [OFFICE, CONSOLE]
            .map(|limits| model::lower(&case.tree, limits, AREA, AREA, out.len()))
            .into();
        for (limits, wanted) in [(Limits::Office, &office), (Limits::Console, &console)] {
            let ours = rulketoos::lower(&case.tree, limits, &mut areas, &mut out);
            let wanted = wanted.as_ref().map(Vec::len).map_err(|&number| number);
            assert_eq!(ours.map_err(number), wanted, "{}", case.name);
            assert!(out.iter().all(|&byte| byte == 7));
        }
        count += usize::from((office, console) == (Err(16), Err(15)));
    }
    assert!(count > 5);
}

#[test]
fn sample_scripts() {
    let folder = std::path::Path::new(env!("CARGO_MANIFEST_DIR")).join("../../samples");
    for entry in std::fs::read_dir(folder).expect("samples") {
        let path = entry.expect("a file").path();
        if path.extension().is_some_and(|end| end == "tree") {
            let tree = std::fs::read(&path).expect("a tree");
            let module = std::fs::read(path.with_extension("module")).expect("its module");
            for limits in [Limits::Office, Limits::Console] {
                assert_eq!(
                    rulketoos::lower_to_vec(&tree, limits).as_ref(),
                    Ok(&module),
                    "{}",
                    path.display()
                );
            }
        }
    }
}
