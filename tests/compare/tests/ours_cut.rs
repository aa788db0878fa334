//! Our cut of a refused tree, against the model.

use compare::cut::{compare, Answer};
use compare::{hex, AREA};
use generator::{cuts, damage, limits, make, random, samples, Bytes, Rng};
use model::{CONSOLE, OFFICE};
use rulketoos::{Areas, Limits};
use std::collections::BTreeMap;

/// How many trees had which answer: refused so, cut down so, or not refused.
type Seen = BTreeMap<String, usize>;

/// The number that a tree is refused with.
fn number(tree: &[u8], set: model::Limits) -> Option<u8> {
    model::plan(tree, set).err()
}

fn agreed(tree: &[u8], set: model::Limits) -> Answer {
    compare(tree, set).unwrap_or_else(|message| panic!("{message}\ntree {}", hex(tree)))
}

/// By both sets.
fn counted(tree: &[u8], seen: &mut Seen) {
    for set in [OFFICE, CONSOLE] {
        let word = match agreed(tree, set) {
            Err(question) => format!("refused {question}"),
            Ok(None) => "not refused".to_string(),
            Ok(Some(cut)) => {
                let question = number(tree, set).expect("a refused tree");
                assert_eq!(number(&cut, set), Some(question));
                assert!(cut.len() <= tree.len());
                format!("cut {question}")
            }
        };
        *seen.entry(word).or_default() += 1;
    }
}

fn many(seen: &Seen, words: &[&str], least: usize) {
    for &word in words {
        let count = seen.get(word).copied().unwrap_or(0);
        assert!(count >= least, "{word}: {seen:?}");
    }
}

#[test]
fn directed_trees() {
    let mut seen = Seen::new();
    for case in cuts::all() {
        counted(&case.tree, &mut seen);
        let model = model::cut(&case.tree, case.limits, AREA, AREA, case.room);
        let mut out = vec![7; case.room];
        let set = compare::ours::limits(case.limits);
        let ours = rulketoos::cut(&case.tree, set, &mut Areas::new(), &mut out);
        let ours = ours.map_err(compare::ours::number);
        let wanted = model.as_ref().map(|cut| cut.as_ref().map(Vec::len));
        assert_eq!(ours, wanted.map_err(|number| *number), "{}", case.name);
    }
    let cut = (7..16)
        .chain([33, 36])
        .map(|number| format!("cut {number}"));
    let cut: Vec<String> = cut.collect();
    let cut: Vec<&str> = cut.iter().map(String::as_str).collect();
    many(&seen, &cut, 10);
    many(
        &seen,
        &[
            "not refused",
            "refused 3",
            "refused 4",
            "refused 5",
            "refused 6",
        ],
        2,
    );
}

/// The trees at every limit, and small ones.
#[test]
fn limits_and_samples() {
    let mut seen = Seen::new();
    let cases = limits::all().into_iter().chain(samples::small());
    for case in cases.filter(|case| few(&case.tree)) {
        counted(&case.tree, &mut seen);
    }
    many(&seen, &["cut 15", "not refused", "refused 2"], 2);
}

/// So few top statements that the model tries all runs in little time.
fn few(tree: &[u8]) -> bool {
    let count = tree.get(5..7).map_or(0, |count| {
        usize::from(u16::from_be_bytes([count[0], count[1]]))
    });
    count <= 100 || model::plan(tree, CONSOLE).is_ok()
}

/// Random trees and a damaged copy of each.
#[test]
fn random_trees() {
    let (mut rng, mut seen) = (Rng::new(61), Seen::new());
    for _ in 0..4_000 {
        let tree = random::tree(&mut rng);
        let damaged = damage::damaged(&mut rng, &tree);
        for tree in [tree, damaged] {
            if few(&tree) {
                counted(&tree, &mut seen);
            }
        }
    }
    let cut = ["cut 7", "cut 8", "cut 9", "cut 11", "cut 33", "cut 36"];
    many(&seen, &cut, 20);
    many(&seen, &["not refused", "refused 3", "refused 5"], 200);
}

/// Random trees that are too large, mostly.
#[test]
fn random_large_trees() {
    let (mut rng, mut seen) = (Rng::new(62), Seen::new());
    for round in 0..800 {
        let set = if round % 4 == 0 { OFFICE } else { CONSOLE };
        counted(&cuts::random(&mut rng, set), &mut seen);
    }
    many(&seen, &["cut 15", "not refused"], 200);
}

/// The refusal of a tree that is too long comes after 38, and no output is short
/// of it.
#[test]
fn trees_that_are_too_long() {
    for case in limits::all() {
        if case.tree.len() > limits::MAX_TREE {
            assert_eq!(agreed(&case.tree, OFFICE), Err(2));
        }
    }
}

/// 600 top statements: what remains is known by the way the tree is made.
#[test]
fn hundreds_of_statements() {
    let plain = || make::expr(make::var("x"));
    let cut = |statements: &[Bytes], set| {
        let tree = make::tree(statements);
        let mut out = vec![7; tree.len()];
        let count = rulketoos::cut(&tree, set, &mut Areas::new(), &mut out);
        let count = count.expect("a tree").expect("refused");
        out.truncate(count);
        out
    };
    // the last one is refused
    let mut statements = make::times(600, &plain());
    statements[599] = make::break_();
    let last = cut(&statements, Limits::Office);
    assert_eq!(last, make::tree(&[make::break_()]));
    // 20 instructions each; main's Return is one more: 410 are 8,201, at the
    // console 103 are 2,061
    let twenty = |text: &str| {
        let value = make::string(text.as_bytes());
        let items = [make::times(17, &make::none()), vec![value]].concat();
        make::expr(make::list(&items))
    };
    let names = limits::many_names(500);
    let statements: Vec<Bytes> = names.iter().map(|name| twenty(name)).collect();
    for (set, count) in [(Limits::Office, 410), (Limits::Console, 103)] {
        assert_eq!(cut(&statements, set), make::tree(&statements[..count]));
    }
    // behind 50 smaller ones, and before a larger one that is too late
    let smaller = [make::times(50, &plain()), statements.clone()].concat();
    let first = make::tree(&statements[..103]);
    assert_eq!(cut(&smaller, Limits::Console), first);
    // a def makes its calls shorter
    let call = make::expr(make::list(&make::times(5, &make::call_name("f", &[]))));
    let calls = [vec![make::def("f", &[], &[])], make::times(599, &call)].concat();
    // each has 5 × 2 + 2 instructions, and 5 + 2 behind the def
    let run = cut(&calls, Limits::Console);
    assert_eq!(run, make::tree(&make::times(171, &call)));
}
