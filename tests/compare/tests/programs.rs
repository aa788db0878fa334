//! The stored input and output of the programs `lower`, `read_module` and
//! `run_module`, held against the samples and the model.

use generator::text::hex_or_dash;
use std::path::PathBuf;

fn bytes(path: &str) -> Vec<u8> {
    let root = PathBuf::from(env!("CARGO_MANIFEST_DIR")).join("../..");
    std::fs::read(root.join(path)).expect(path)
}

fn text(path: &str) -> String {
    String::from_utf8(bytes(path)).expect(path)
}

/// The answers of a word of 0 and 1; `-` stands for none.
fn answers_of(word: &str) -> Vec<u8> {
    match word {
        "-" => Vec::new(),
        _ => word.bytes().map(|digit| digit - b'0').collect(),
    }
}

fn run_lines(ran: &model::Ran) -> String {
    let name = match ran.ending {
        1 => "returned",
        2 => "no answer left",
        _ => "budget spent",
    };
    format!(
        "ending: {} ({name})\nsteps: {}\nanswers used: {}\nevents: {}\n",
        ran.ending,
        ran.steps,
        ran.used,
        hex_or_dash(&ran.events)
    )
}

#[test]
fn inputs_are_samples() {
    for (program, sample) in [
        ("lower", "spine.tree"),
        ("read_module", "spine.module"),
        ("run_module", "loops.module"),
    ] {
        assert!(
            bytes(&format!("crates/{program}/stdin")) == bytes(&format!("samples/{sample}")),
            "{program}"
        );
    }
}

#[test]
fn lower_lowers_its_input() {
    let tree = bytes("crates/lower/stdin");
    let module = model::lower(&tree, model::OFFICE, 16_384, 16_384, 65_536);
    assert!(module == Ok(bytes("crates/lower/stdout")));
}

#[test]
fn read_module_reads_its_input() {
    let module = bytes("crates/read_module/stdin");
    let arguments = text("crates/read_module/args");
    let function = arguments.trim_end().parse().expect("a number");
    let (start, size) = model::code(&module, function).expect("no refusal");
    // the sample has one class, whose constant is its last record
    assert!(module.ends_with(&[0, 1, 0, 0]));
    let code = hex_or_dash(&module[start..start + size]);
    assert_eq!(
        text("crates/read_module/stdout"),
        format!("accepted\nconstant 0: class 0, type 100\ncode: {code}\n")
    );
}

#[test]
fn run_module_runs_its_input() {
    let arguments = text("crates/run_module/args");
    let [function, word, budget] = arguments.lines().collect::<Vec<_>>()[..] else {
        panic!("three arguments: {arguments}");
    };
    let ran = model::run(
        &bytes("crates/run_module/stdin"),
        function.parse().expect("a number"),
        &answers_of(word),
        budget.parse().expect("a number"),
        1 << 20,
    );
    let ran = ran.expect("no refusal");
    assert_eq!(text("crates/run_module/stdout"), run_lines(&ran));
}
