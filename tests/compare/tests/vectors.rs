//! The committed vectors: made again, answered again, and held against the
//! Rust.

use generator::cuts::{self, CutCase};
use generator::runs::RunCase;
use generator::text::unhex;
use generator::vectors;
use model::{CONSOLE, OFFICE};
use std::path::PathBuf;

fn folder() -> PathBuf {
    PathBuf::from(env!("CARGO_MANIFEST_DIR")).join("../vectors")
}

fn committed(name: &str) -> String {
    std::fs::read_to_string(folder().join(name)).expect(name)
}

/// The fields of every line.
fn lines(text: &str) -> impl Iterator<Item = Vec<&str>> {
    text.lines().map(|line| line.split('\t').collect())
}

#[test]
fn vectors_are_as_generated() {
    let mut bytes = 0;
    for (name, text) in vectors::files() {
        assert!(
            committed(name) == text,
            "{name} differs: run the program vectors"
        );
        bytes += text.len();
    }
    assert!(bytes < 3_000_000);
}

#[test]
fn tree_vectors_replay() {
    for (file, limits) in [("trees.txt", OFFICE), ("console.txt", CONSOLE)] {
        trees_replay(file, limits);
    }
}

fn trees_replay(file: &str, limits: model::Limits) {
    let with_rust = oracle::ready("tree vectors");
    for fields in lines(&committed(file)) {
        let [name, tree, answer] = fields[..] else {
            panic!("three fields: {}", fields[0]);
        };
        let tree = unhex(tree).expect(name);
        assert_eq!(vectors::tree_answer(&tree, limits), answer, "{name}");
        if with_rust && !answer.starts_with("refused") {
            let module = unhex(answer).expect(name);
            let theirs = oracle::lower(&tree).expect(name);
            assert_eq!(model::renumber(&module), Ok(theirs), "{name}");
        }
    }
}

#[test]
fn module_vectors_replay() {
    for fields in lines(&committed("modules.txt")) {
        let [name, module, answer] = fields[..] else {
            panic!("three fields: {}", fields[0]);
        };
        let module = unhex(module).expect(name);
        assert_eq!(vectors::module_answer(&module), answer, "{name}");
    }
}

#[test]
fn height_vectors_replay() {
    for fields in lines(&committed("heights.txt")) {
        let [name, module, answer] = fields[..] else {
            panic!("three fields: {}", fields[0]);
        };
        let module = unhex(module).expect(name);
        assert_eq!(vectors::height_answer(&module), answer, "{name}");
    }
}

#[test]
fn order_vectors_replay() {
    for fields in lines(&committed("orders.txt")) {
        let [name, first, second, answer] = fields[..] else {
            panic!("four fields: {}", fields[0]);
        };
        let (first, second) = (unhex(first).expect(name), unhex(second).expect(name));
        assert_eq!(vectors::order_answer(&first, &second), answer, "{name}");
    }
}

#[test]
fn cut_vectors_replay() {
    for fields in lines(&committed("cuts.txt")) {
        let [name, set, tree, room, answer] = fields[..] else {
            panic!("five fields: {}", fields[0]);
        };
        let limits = [OFFICE, CONSOLE]
            .into_iter()
            .find(|&limits| cuts::set(limits) == set);
        let case = CutCase {
            name: name.to_string(),
            limits: limits.expect(name),
            tree: unhex(tree).expect(name),
            room: room.parse().expect(name),
        };
        assert_eq!(vectors::cut_answer(&case), answer, "{name}");
    }
}

#[test]
fn run_vectors_replay() {
    for fields in lines(&committed("runs.txt")) {
        let [name, module, function, answers, budget, room, answer] = fields[..] else {
            panic!("seven fields: {}", fields[0]);
        };
        let case = RunCase {
            name: name.to_string(),
            module: unhex(module).expect(name),
            function: function.parse().expect(name),
            answers: unhex(answers).expect(name),
            budget: budget.parse().expect(name),
            room: room.parse().expect(name),
        };
        assert_eq!(vectors::run_answer(&case), answer, "{name}");
    }
}

/// What the program of that name reads, `stdin`, or has to write, `stdout`: a line a case.
fn stored(program: &str, stream: &str) -> String {
    let path = folder().join("../../crates").join(program).join(stream);
    std::fs::read_to_string(path).expect(program)
}

#[test]
fn stored_outputs_are_the_answers() {
    for (program, file) in [
        ("lower_vectors", "trees.txt"),
        ("module_vectors", "modules.txt"),
        ("run_vectors", "runs.txt"),
    ] {
        let text = committed(file);
        assert!(stored(program, "stdin") == text, "{program}/stdin");
        let mut expected = String::new();
        for fields in lines(&text) {
            expected += fields[fields.len() - 1];
            expected += "\n";
        }
        assert!(stored(program, "stdout") == expected, "{program}/stdout");
    }
}

#[test]
fn every_refusal_is_among_the_vectors() {
    let text = [
        "trees.txt",
        "modules.txt",
        "runs.txt",
        "heights.txt",
        "cuts.txt",
    ]
    .map(committed)
    .concat();
    // 1 cannot be put in a line: the areas are always long enough there.
    for number in (2..=24).chain([33, 36, 37, 38]) {
        let answer = format!("\trefused {number}\n");
        assert!(text.contains(&answer), "{number}");
    }
}
