//! Our order of trees, against the model.

use compare::order::compare;
use compare::{hex, AREA};
use generator::{damage, limits, orders, random, samples, Rng};
use model::{CONSOLE, OFFICE};
use std::cmp::Ordering;

/// Both ways, by both sets, in areas that are long enough and too short.
fn agreed(rng: &mut Rng, first: &[u8], second: &[u8]) {
    for (one, other) in [(first, second), (second, first)] {
        for set in [OFFICE, CONSOLE] {
            let area = *rng.pick(&[AREA, AREA, AREA, AREA + 7, AREA - 1, 0]);
            let areas = if rng.once_in(2) {
                [AREA, area]
            } else {
                [area, AREA]
            };
            if let Err(message) = compare(one, other, set, areas[0], areas[1]) {
                panic!("{message}\nfirst {}\nsecond {}", hex(one), hex(other));
            }
        }
    }
}

#[test]
fn directed_pairs() {
    let mut rng = Rng::new(51);
    for case in orders::all() {
        agreed(&mut rng, &case.first, &case.second);
    }
}

/// Each small tree beside each other one.
#[test]
fn every_pair_of_samples() {
    let mut rng = Rng::new(52);
    let cases = samples::starred().into_iter().chain(samples::small());
    let trees: Vec<Vec<u8>> = cases
        .map(|case| case.tree)
        .filter(|tree| tree.len() < 400)
        .collect();
    for first in &trees {
        for second in &trees {
            agreed(&mut rng, first, second);
        }
    }
}

/// Random trees beside copies that differ in Pass statements, in a byte that
/// leaves them accepted, and in more.
#[test]
fn random_pairs() {
    let mut rng = Rng::new(53);
    let mut seen = [0; 4];
    for _ in 0..3_000 {
        let tree = random::tree(&mut rng);
        let padded = orders::padded(&mut rng, &tree);
        let nudged = orders::nudged(&mut rng, &padded);
        let damaged = damage::damaged(&mut rng, &padded);
        for copy in [&padded, &nudged, &damaged] {
            agreed(&mut rng, &tree, copy);
            seen[match model::order(&tree, copy, OFFICE, AREA, AREA) {
                Ok(Ordering::Less) => 0,
                Ok(Ordering::Equal) => 1,
                Ok(Ordering::Greater) => 2,
                Err(_) => 3,
            }] += 1;
        }
    }
    assert!(seen.iter().all(|&count| count > 100), "{seen:?}");
}

/// Every limit beside a small tree: the refusals of each question, of the first
/// tree and of the second.
#[test]
fn limits_of_both_trees() {
    let mut rng = Rng::new(54);
    let small = samples::starred().swap_remove(1).tree;
    for case in limits::all() {
        agreed(&mut rng, &case.tree, &small);
    }
}

/// Every damage of one byte of a pair that is equal.
#[test]
fn every_byte() {
    let mut rng = Rng::new(55);
    let case = orders::all().swap_remove(4);
    for place in 0..case.second.len() {
        for change in [1, 2, 128, 255] {
            let mut copy = case.second.clone();
            copy[place] = copy[place].wrapping_add(change);
            agreed(&mut rng, &case.first, &copy);
        }
    }
}
