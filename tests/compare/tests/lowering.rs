//! The model's lowering against the Rust's.

use compare::{compare_lowering, compare_random, compare_walks, Tally, AREA, ROOM, WIDE};
use generator::{limits, samples, Rng};
use model::{CONSOLE, OFFICE};

fn directed() -> Vec<samples::Case> {
    let mut cases = samples::starred();
    cases.extend(samples::small());
    cases.extend(limits::all());
    cases
}

#[test]
fn directed_trees_agree() {
    oracle::ready("directed trees");
    let mut tally = Tally::default();
    let mut rng = Rng::new(3);
    for case in directed() {
        let at = |e| panic!("{}: {e}", case.name);
        compare_lowering(&case.tree, &mut tally).unwrap_or_else(at);
        compare_walks(&case.tree, &mut rng, &mut tally).unwrap_or_else(at);
    }
    println!("{tally:?}");
    tally.every_tree_question();
}

#[test]
fn random_trees_agree() {
    oracle::ready("random trees");
    let tally = compare_random(20_251_125, 20_000, true).unwrap_or_else(|e| panic!("{e}"));
    println!("{tally:?}");
    assert!(tally.accepted > 15_000 && tally.refused(33) > 100 && tally.refused(8) > 100);
    assert!(tally.endings.iter().all(|&count| count > 1_000));
}

#[test]
fn directed_names_differ() {
    let mut names: Vec<_> = directed().into_iter().map(|case| case.name).collect();
    let count = names.len();
    names.sort();
    names.dedup();
    assert_eq!(names.len(), count);
}

#[test]
fn rooms_and_areas() {
    for case in samples::small() {
        let lower = |area1, area2, room| model::lower(&case.tree, OFFICE, area1, area2, room);
        let Ok(module) = lower(AREA, AREA, WIDE) else {
            continue;
        };
        let length = module.len();
        assert_eq!(lower(AREA, AREA, length), Ok(module));
        assert_eq!(lower(AREA, AREA, length - 1), Err(16));
        assert_eq!(lower(AREA - 1, AREA, length), Err(1));
        assert_eq!(lower(AREA, AREA - 1, 0), Err(1));
        assert_eq!(lower(AREA, AREA, 0), Err(16));
    }
    assert_eq!(model::lower(&[], OFFICE, 0, 0, 0), Err(1));
    assert_eq!(model::lower(&[], OFFICE, AREA, AREA, ROOM), Err(3));
}

/// What the console takes the office takes, with the same bytes; the console's
/// refusal is the office's, or 15 where the office accepts or says 16.
#[test]
fn console_and_office() {
    let mut over = 0;
    for case in directed() {
        for room in [100, WIDE] {
            let office = model::lower(&case.tree, OFFICE, AREA, AREA, room);
            let console = model::lower(&case.tree, CONSOLE, AREA, AREA, room);
            if console != office {
                assert!(console == Err(15), "{}", case.name);
                assert!(office.is_ok() || office == Err(16), "{}", case.name);
                over += 1;
            }
        }
    }
    assert!(over >= 36, "{over}");
}

/// Each limit of the console, on both sides.
#[test]
fn limits_of_the_console() {
    for case in limits::at_console() {
        let answer = model::lower(&case.tree, CONSOLE, AREA, AREA, WIDE);
        let words: Vec<&str> = case.name.split('-').collect();
        let wanted = match words[..] {
            ["functions", "64", ..] | ["symbols", "256"] | ["instructions", "2048", ..] => None,
            ["strings", "512"] | ["classes", "64"] => None,
            ["console", "faults", number, _] => number.parse().ok(),
            _ => Some(15),
        };
        assert_eq!(answer.err(), wanted, "{}", case.name);
    }
}
