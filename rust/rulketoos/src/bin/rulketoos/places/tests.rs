//! The walk against the proved check: it finds a place for the question that refuses a tree, and none for those before it.

use super::noes;
use crate::vectors;
use rulketoos::Refusal;

/// The questions that speak of a part, in the order in which they are asked.
const ORDER: [Refusal; 9] = [
    Refusal::BadName,
    Refusal::IteratorName,
    Refusal::BadString,
    Refusal::LooseBreak,
    Refusal::BadTarget,
    Refusal::EmptyTarget,
    Refusal::RepeatedParameter,
    Refusal::BareInit,
    Refusal::ListTooLong,
];

/// Which of the questions refuses the tree, as its place in their order; none where another one does.
fn agrees(tree: &[u8]) -> Option<usize> {
    let refused = match rulketoos::check(tree) {
        Ok(()) => ORDER.len(),
        Err(refusal) => ORDER.iter().position(|&question| question == refusal)?,
    };
    for &question in &ORDER[..refused] {
        assert_eq!(noes(tree, question), [], "{question} of {tree:?}");
    }
    if let Some(&question) = ORDER.get(refused) {
        let places = noes(tree, question);
        assert!(!places.is_empty(), "{question} of {tree:?}");
        assert!(places.iter().all(|&place| place < tree.len()));
    }
    Some(refused)
}

#[test]
fn vectors_and_damaged_copies() {
    let mut seen = [0; ORDER.len() + 1];
    let mut count = |tree: &[u8]| {
        if let Some(refused) = agrees(tree) {
            seen[refused] += 1;
        }
    };
    for mut tree in vectors::records("trees.txt") {
        count(&tree);
        for at in 5..tree.len().min(150) {
            let before = tree[at];
            for value in [0, 1, 5, 6, 13, b'_', 200] {
                tree[at] = value;
                count(&tree);
            }
            tree[at] = before;
        }
    }
    assert!(seen.iter().all(|&trees| trees > 20), "{seen:?}");
}
