//! The paper's own samples, with the answers spelled out here.

use compare::{AREA, ROOM};
use generator::{make, samples};
use model::instruction as op;

fn lower(tree: &[u8]) -> Result<Vec<u8>, u8> {
    model::lower(tree, model::OFFICE, AREA, AREA, ROOM)
}

fn starred(name: &str) -> Vec<u8> {
    let cases = samples::starred();
    let found = cases.into_iter().find(|case| case.name == name);
    found.expect("a sample").tree
}

/// The code of a function in the module of a tree.
fn code(tree: &[u8], function: u64) -> Vec<u8> {
    let module = lower(tree).expect("accepted");
    let (start, length) = model::code(&module, function).expect("a function");
    module[start..start + length].to_vec()
}

fn global(opcode: u8, symbol: u8) -> Vec<u8> {
    vec![opcode, 0, symbol]
}

fn load(symbol: u8) -> Vec<u8> {
    global(op::LOAD_GLOBAL, symbol)
}

fn store(symbol: u8) -> Vec<u8> {
    global(op::STORE_GLOBAL, symbol)
}

fn jump(opcode: u8, distance: i32) -> Vec<u8> {
    [&[opcode], distance.to_be_bytes().as_slice()].concat()
}

fn number(value: i64) -> Vec<u8> {
    [&[op::CONST_I64], value.to_be_bytes().as_slice()].concat()
}

#[test]
fn empty_tree() {
    let module = lower(&starred("sample-empty"));
    let expected = "0000001e020001085f5f6d61696e5f5f000000010000000000000000012100000000";
    assert_eq!(module.map(|m| compare::hex(&m)), Ok(expected.to_string()));
}

#[test]
fn jumps_of_the_samples() {
    let end = vec![op::RETURN];
    let loop_code = [
        vec![op::TRUE],
        jump(op::JUMP_IF_FALSE, 2),
        jump(op::JUMP, 1),
        jump(op::JUMP, -4),
        end.clone(),
    ];
    assert_eq!(code(&starred("sample-while"), 0), loop_code.concat());
    let and_code = [
        load(1),
        jump(op::JUMP_IF_FALSE, 2),
        load(2),
        jump(op::JUMP, 1),
        vec![op::FALSE, op::POP],
        end.clone(),
    ];
    assert_eq!(code(&starred("sample-and"), 0), and_code.concat());
    let elif_code = [
        load(1),
        jump(op::JUMP_IF_FALSE, 1),
        jump(op::JUMP, 2),
        load(2),
        jump(op::JUMP_IF_FALSE, 1),
        jump(op::JUMP, 0),
        end,
    ];
    assert_eq!(code(&starred("sample-elif"), 0), elif_code.concat());
}

#[test]
fn targets_of_the_samples() {
    let pair = [
        load(1),
        vec![op::DUP],
        number(1),
        vec![op::LOAD_INDEX],
        store(2),
        number(0),
        vec![op::LOAD_INDEX],
        store(3),
        vec![op::RETURN],
    ];
    assert_eq!(code(&starred("sample-pair"), 0), pair.concat());
    assert_eq!(lower(&starred("sample-no-target")), Err(36));
}

/// 36 is asked just after 10, of targets alone.
#[test]
fn empty_tuples() {
    use make::{assign, def, none, tree, tuple, var};
    let empty = || assign(tuple(&[var("a"), tuple(&[])]), var("t"));
    let twice = || def("f", &["x", "x"], &[]);
    assert_eq!(lower(&tree(&[empty()])), Err(36));
    assert_eq!(lower(&tree(&[empty(), assign(none(), none())])), Err(10));
    assert_eq!(lower(&tree(&[twice(), empty()])), Err(36));
    assert!(lower(&tree(&[assign(var("v"), tuple(&[]))])).is_ok());
}

/// The height in the record of each function of a tree's module.
fn heights(tree: &[u8]) -> Vec<u16> {
    let module = lower(tree).expect("accepted");
    assert_eq!(model::heights(&module, model::reach::AREA), Ok(()));
    let module = model::module::read(&module).expect("accepted");
    module.functions.iter().map(|f| f.height).collect()
}

/// Each statement starts at 0, also behind a Return; so does the LoadLocal that
/// closes an `__init__`.
#[test]
fn heights_of_functions() {
    use make::{class, expr, list, method, none, ret, tree};
    assert_eq!(heights(&starred("sample-empty")), [0]);
    assert_eq!(heights(&starred("sample-while")), [1]);
    assert_eq!(heights(&starred("sample-and")), [1]);
    assert_eq!(heights(&starred("sample-pair")), [3]);
    assert_eq!(heights(&starred("sample-args-255")), [256]);
    let behind = method("m", &[], &[ret(none()), expr(list(&[none(), none()]))]);
    let init = method("__init__", &["self"], &[]);
    let both = class("A", &[init, behind], &[]);
    assert_eq!(heights(&tree(&[both])), [1, 1, 2]);
}

#[test]
fn loop_of_the_samples() {
    let method = |symbol| vec![op::CALL_METHOD, 0, symbol, 0];
    let expected = [
        load(1),
        method(2),
        store(3),
        load(3),
        method(4),
        jump(op::JUMP_IF_FALSE, 4),
        load(3),
        method(5),
        store(6),
        jump(op::JUMP, -7),
        vec![op::RETURN],
    ];
    let tree = starred("sample-for");
    assert_eq!(code(&tree, 0), expected.concat());
    let module = lower(&tree).expect("accepted");
    let module = model::module::read(&module).expect("accepted");
    assert_eq!(module.symbols[3], b"__for_iter_2__");
}

#[test]
fn refusals_of_the_samples() {
    assert!(lower(&starred("sample-args-255")).is_ok());
    assert_eq!(lower(&starred("sample-args-256")), Err(13));
    assert!(lower(&starred("sample-depth-32")).is_ok());
    assert_eq!(lower(&starred("sample-depth-33")), Err(6));
    assert_eq!(lower(&starred("sample-break-in-def")), Err(9));
}

/// 33 is asked just after 7; a digit at the least stands between the ends.
#[test]
fn iterator_names() {
    use make::{attr, expr, none, string, tree, var};
    let named = |name: &str| lower(&tree(&[expr(var(name))])).map(|_| ());
    let zeros = |count| format!("__for_iter_{}__", "0".repeat(count));
    for name in ["__for_iter___", "__for_iter_x__", "__for_iter_2___"] {
        assert_eq!(named(name), Ok(()), "{name}");
    }
    assert_eq!(named("__for_iter_2__"), Err(33));
    assert_eq!(named(&zeros(51)), Err(33));
    assert_eq!(named(&zeros(52)), Err(7));
    let own = || expr(attr(none(), "__for_iter_2__"));
    let bad_string = || expr(string(&[255]));
    assert_eq!(lower(&tree(&[bad_string(), own()])), Err(33));
    assert_eq!(lower(&tree(&[own(), expr(var("9"))])), Err(7));
}

/// In a def with `x`, `lambda: [x, lambda x: x]` captures `x` in either order,
/// and the inner lambda alone captures nothing.
#[test]
fn captures_by_scope() {
    use make::{def, lambda, list, ret, tree, var};
    let captured = |items: &[Vec<u8>]| {
        let stmts = [def("d", &["x"], &[ret(lambda(&[], list(items)))])];
        let module = lower(&tree(&stmts)).expect("accepted");
        let locals = model::module::read(&module).expect("accepted").functions[2].locals;
        locals
    };
    let inner = lambda(&["x"], var("x"));
    assert_eq!(captured(&[var("x"), inner.clone()]), 1);
    assert_eq!(captured(&[inner.clone(), var("x")]), 1);
    assert_eq!(captured(&[lambda(&[], var("x")), inner.clone()]), 1);
    assert_eq!(captured(&[inner]), 0);
}

/// The slots that the function's code loads, in order.
fn loaded_slots(name: &str, function: usize) -> Vec<u8> {
    let cases = samples::small();
    let case = cases.iter().find(|case| case.name == name);
    let module = lower(&case.expect("a sample").tree).expect("accepted");
    let read = model::module::read(&module).expect("accepted");
    let places = read.functions[function].places.iter();
    let loads = places.filter(|&&place| module[place] == op::LOAD_LOCAL);
    loads.map(|&place| module[place + 2]).collect()
}

/// The Rust's own order of slots is random, so the paper's is spelled out:
/// parameters, then all names in one pass by first appearance.
#[test]
fn slots_by_first_appearance() {
    let slots = loaded_slots("slots-all-kinds", 1);
    let listed = &slots[slots.len() - 9..];
    assert_eq!(listed, [3, 2, 1, 9, 8, 7, 6, 5, 4]);
    // r is 2, since the loop variable i and the body's a come first; 3, after
    // the names, is the loop's iterator.
    assert_eq!(loaded_slots("slots-loop-before-body", 1), [2, 3, 3, 0]);
    // a and b are slots of the tuple target, whose value is b.
    assert_eq!(loaded_slots("slots-from-tuple", 1), [1]);
}

/// Names of tuple targets stand among the others by first appearance, elements
/// left to right, and a parameter keeps its slot.
#[test]
fn slots_of_tuple_targets() {
    let slots = loaded_slots("unpack-everywhere", 1);
    let listed = &slots[slots.len() - 13..];
    assert_eq!(listed, [1, 2, 3, 6, 7, 8, 9, 4, 5, 10, 11, 12, 0]);
    assert_eq!(loaded_slots("unpack-parameter", 1), [1, 0]);
    assert_eq!(loaded_slots("unpack-parameter-first", 1), [0, 1]);
    // A helper's pair is its own: it loads what it stored, and main its globals.
    assert_eq!(loaded_slots("unpack-helper", 1), [2]);
    assert_eq!(loaded_slots("unpack-in-main", 0), []);
}

/// The folder of sample scripts with their trees and modules.
fn sample_folder() -> std::path::PathBuf {
    std::path::Path::new(env!("CARGO_MANIFEST_DIR")).join("../../samples")
}

#[test]
fn sample_scripts() {
    let mut seen = 0;
    for entry in std::fs::read_dir(sample_folder()).expect("samples") {
        let path = entry.expect("a file").path();
        if path.extension().is_some_and(|end| end == "tree") {
            let tree = std::fs::read(&path).expect("a tree");
            let module = std::fs::read(path.with_extension("module")).expect("its module");
            assert_eq!(lower(&tree), Ok(module), "{}", path.display());
            seen += 1;
        }
    }
    assert!(seen >= 4, "only {seen} sample scripts");
}
