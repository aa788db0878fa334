//! The order of two trees, beside the model's: plain Rust that reads and plans
//! both trees, writes their rests and compares these.

use crate::lowering::repeated;
use crate::{best, line, long_tree, script};
use generator::{orders, Rng};
use model::{AREA, OFFICE};
use rulketoos::{Areas, Limits};
use std::hint::black_box;

/// More than this is too long for two trees of any length.
const LIMIT: std::time::Duration = std::time::Duration::from_millis(40);

/// A tree beside itself, and beside a copy with more Pass statements: equal, so
/// that each byte of both is compared.
fn cases() -> Vec<(&'static str, Vec<u8>, Vec<u8>)> {
    let mut rng = Rng::new(5);
    let padded = orders::padded(&mut rng, &script());
    let long = repeated(&script(), 40);
    vec![
        ("a script of 30 lines, beside itself", script(), script()),
        ("a script of 30 lines, with `pass` put in", script(), padded),
        (
            "40 such scripts in one tree, beside themselves",
            long.clone(),
            long,
        ),
        ("random statements, refused by 15", long_tree(), long_tree()),
    ]
}

pub fn pairs() {
    println!("the order of two trees (1 to 15), beside plain Rust");
    let mut areas = Areas::new();
    for (what, first, second) in cases() {
        let model = || model::order(black_box(&first), black_box(&second), OFFICE, AREA, AREA);
        let mut ours = || {
            let (first, second) = (black_box(&first), black_box(&second));
            rulketoos::order(first, second, Limits::Office, &mut areas)
        };
        assert_eq!(
            ours().map_err(|refusal| refusal.number() as u8),
            model(),
            "{what}"
        );
        let took = best(ours);
        assert!(took < LIMIT, "{what} takes {took:?}");
        line(what, took, best(model));
    }
    library();
}

/// 300 scripts put in order: as `rulketoos sort` does, once each is a tree.
fn library() {
    let mut rng = Rng::new(6);
    let trees: Vec<Vec<u8>> = (0..300)
        .map(|_| orders::padded(&mut rng, &script()))
        .collect();
    let mut areas = Areas::new();
    let ours = best(|| {
        let mut order: Vec<&Vec<u8>> = trees.iter().collect();
        order.sort_by(|first, second| {
            rulketoos::order(first, second, Limits::Office, &mut areas).expect("accepted")
        });
        order.len()
    });
    let plain = best(|| {
        let mut rests: Vec<Vec<u8>> = trees
            .iter()
            .map(|tree| model::rest(tree, OFFICE).expect("accepted"))
            .collect();
        rests.sort();
        rests.len()
    });
    line("300 scripts of 30 lines put in order", ours, plain);
}
