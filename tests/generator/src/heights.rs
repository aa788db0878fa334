//! Modules on both sides of question 37: heights of the stack.

use crate::modules::{function, long, module_case, wide, Function, ModuleCase, Parts, RETURN};
use crate::rng::Rng;
use crate::{random, Bytes};
use model::limits::OFFICE;

const NONE: u8 = 5;
const POP: u8 = 7;
const DUP: u8 = 8;
const JUMP: u8 = 28;
const IF_FALSE: u8 = 29;
const IF_TRUE: u8 = 30;

fn none() -> Bytes {
    vec![NONE]
}

fn pop() -> Bytes {
    vec![POP]
}

/// A function of this code and a `Return`, with a number.
fn tall(height: u16, code: &[Bytes]) -> Function {
    let code = [code, &[vec![RETURN]]].concat();
    Function {
        height,
        ..function(1, &code)
    }
}

fn case(name: &str, height: u16, code: &[Bytes]) -> ModuleCase {
    module_case(name, Parts::with(&[tall(height, code)]).bytes())
}

/// Each instruction by the paper's list: its bytes, what it pops and pushes.
fn effects() -> Vec<(&'static str, Bytes, usize, usize)> {
    let mut list = vec![
        ("const-i64", [&[0][..], &[9; 8]].concat(), 0, 1),
        ("const-f64", [&[1][..], &[9; 8]].concat(), 0, 1),
        ("const-str", long(2, 0), 0, 1),
        ("true", vec![3], 0, 1),
        ("false", vec![4], 0, 1),
        ("none", none(), 0, 1),
        ("load-const", long(6, 0), 0, 1),
        ("pop", pop(), 1, 0),
        ("dup", vec![DUP], 1, 2),
        ("load-local", wide(9, 0, &[]), 0, 1),
        ("store-local", wide(10, 0, &[]), 1, 0),
        ("load-global", wide(11, 0, &[]), 0, 1),
        ("store-global", wide(12, 0, &[]), 1, 0),
        ("neg", vec![19], 1, 1),
        ("pos", vec![20], 1, 1),
        ("not", vec![27], 1, 1),
        ("jump", long(JUMP, 0), 0, 0),
        ("jump-if-false", long(IF_FALSE, 0), 1, 0),
        ("jump-if-true", long(IF_TRUE, 0), 1, 0),
        ("return", vec![RETURN], 0, 0),
        ("load-attr", wide(36, 0, &[]), 1, 1),
        ("store-attr", wide(37, 0, &[]), 2, 0),
        ("load-index", vec![43], 2, 1),
        ("store-index", vec![44], 3, 0),
    ];
    for (place, opcode) in (13..19).chain(21..27).enumerate() {
        let word = [
            "add", "sub", "mul", "div", "true-div", "mod", "eq", "ne", "lt", "le", "gt", "ge",
        ][place];
        list.push((word, vec![opcode], 2, 1));
    }
    for count in [0u8, 1, 3] {
        let n = usize::from(count);
        let built = u16::from(count);
        list.extend([
            ("call", wide(31, 0, &[count]), n, 1),
            ("call-builtin", vec![32, 7, count], n, 1),
            ("call-value", vec![34, count], n + 1, 1),
            ("call-method", wide(35, 0, &[count]), n + 1, 1),
            ("build-list", wide(38, built, &[]), n, 1),
            ("build-tuple", wide(39, built, &[]), n, 1),
            ("build-dict", wide(40, built, &[]), 2 * n, 1),
            ("build-set", wide(41, built, &[]), n, 1),
            ("build-tree-set", wide(42, built, &[]), n, 1),
            ("make-closure", wide(45, 0, &[count]), n, 1),
        ]);
    }
    list
}

/// Each instruction with just enough values and one too few, and with the
/// number that it needs and one less.
fn instructions() -> Vec<ModuleCase> {
    let mut cases = Vec::new();
    for (place, (word, bytes, pops, pushes)) in effects().into_iter().enumerate() {
        let largest = u16::try_from(pops.max(pushes)).expect("small");
        let code = |values: usize| [vec![none(); values], vec![bytes.clone()]].concat();
        let mut put = |side: &str, height: u16, values: usize| {
            let name = format!("heights-{place}-{word}-{side}");
            cases.push(case(&name, height, &code(values)));
        };
        put("enough", largest, pops);
        if pops > 0 {
            put("too-few", 9, pops - 1);
        }
        if largest > 0 {
            put("above", largest - 1, pops);
        }
    }
    cases
}

/// Ways that meet: at one height, or at two.
fn ways() -> Vec<ModuleCase> {
    let asked = |jump: Bytes, rest: &[Bytes]| [&[none(), jump], rest].concat();
    let jump_false = |by: i32| long(IF_FALSE, by);
    let jump_true = |by: i32| long(IF_TRUE, by);
    vec![
        case(
            "heights-if-level",
            1,
            &asked(jump_false(2), &[none(), pop()]),
        ),
        case("heights-if-higher", 9, &asked(jump_false(1), &[none()])),
        case("heights-if-true-higher", 9, &asked(jump_true(1), &[none()])),
        case(
            "heights-if-lower",
            9,
            &[none(), none(), jump_false(1), pop()],
        ),
        // Both ways push a value, and a Pop takes it.
        case(
            "heights-and",
            1,
            &asked(jump_false(2), &[none(), long(JUMP, 1), none(), pop()]),
        ),
        case(
            "heights-and-twice",
            2,
            &asked(jump_false(1), &[none(), none(), pop(), pop()]),
        ),
        case(
            "heights-loop-level",
            1,
            &asked(jump_false(1), &[long(JUMP, -3)]),
        ),
        case(
            "heights-loop-higher",
            65_535,
            &asked(jump_false(2), &[none(), long(JUMP, -4)]),
        ),
        case("heights-loop-for-ever", 9, &[none(), long(JUMP, -2)]),
        case("heights-loop-still", 0, &[long(JUMP, -1)]),
        case("heights-loop-to-itself", 1, &asked(jump_false(-1), &[])),
        // Two returns at two heights are two places; one return at two is one.
        case(
            "heights-two-returns",
            1,
            &asked(jump_false(2), &[none(), vec![RETURN]]),
        ),
        case(
            "heights-one-return",
            9,
            &asked(jump_false(2), &[none(), long(JUMP, 0)]),
        ),
        // Too few values, or too many, on one way alone.
        case(
            "heights-few-on-no",
            9,
            &asked(jump_false(1), &[vec![RETURN], pop()]),
        ),
        case(
            "heights-few-on-yes",
            9,
            &asked(jump_true(1), &[vec![RETURN], pop()]),
        ),
        case(
            "heights-above-on-no",
            1,
            &asked(jump_false(1), &[vec![RETURN], none(), none()]),
        ),
    ]
}

/// What no run reaches isn't looked at; what a function's number is for is.
fn reached() -> Vec<ModuleCase> {
    let behind = |code: &[Bytes]| [&[vec![RETURN]], code].concat();
    let two = |first: Function, second: Function| Parts::with(&[first, second]).bytes();
    let mut none_at_all = Parts::with(&[]);
    none_at_all.functions.clear();
    vec![
        case("heights-behind-few", 0, &behind(&[pop()])),
        case("heights-behind-above", 0, &behind(&[none(), none()])),
        case("heights-behind-two", 0, &behind(&[none(), long(JUMP, -2)])),
        case("heights-jumped-over", 0, &[long(JUMP, 1), pop()]),
        case("heights-nothing", 0, &[]),
        case("heights-number-wider", 65_535, &[none()]),
        case("heights-dup-of-none", 9, &[vec![DUP]]),
        module_case("heights-second-bad", two(tall(0, &[]), tall(0, &[none()]))),
        module_case("heights-first-bad", two(tall(0, &[pop()]), tall(0, &[]))),
        module_case("heights-own-numbers", two(tall(1, &[none()]), tall(0, &[]))),
        module_case("heights-no-functions", none_at_all.bytes()),
        // The questions before 37 come first.
        module_case(
            "heights-20-first",
            two(tall(0, &[pop()]), tall(0, &[wide(9, 7, &[])])),
        ),
        module_case(
            "heights-21-first",
            two(tall(0, &[pop()]), tall(0, &[long(JUMP, 7)])),
        ),
    ]
}

/// All hand-made modules of the check of heights.
pub fn all() -> Vec<ModuleCase> {
    let mut cases = instructions();
    cases.extend(ways());
    cases.extend(reached());
    cases
}

/// Functions of 65,535 instructions: as tall as they can be and one more than
/// the number, every place a question, and a chain of jumps.
pub fn long_functions() -> Vec<ModuleCase> {
    let questions: Vec<Bytes> = (0..32_767)
        .flat_map(|_| [none(), long(IF_TRUE, 0)])
        .collect();
    // Each jump but the last goes on by two, past a place that none reaches.
    let jumps: Vec<Bytes> = (0..32_767).flat_map(|_| [long(JUMP, 1), pop()]).collect();
    vec![
        case("heights-tallest", 65_534, &vec![none(); 65_534]),
        case("heights-tallest-above", 65_533, &vec![none(); 65_534]),
        case("heights-questions", 1, &questions),
        case("heights-jumps", 0, &jumps),
    ]
}

/// A random module: hand-made code with small operands and a number near what
/// it needs, or a lowered one whose numbers were changed now and then.
pub fn random_module(rng: &mut Rng) -> Bytes {
    if rng.once_in(2) {
        return lowered(rng);
    }
    let mut parts = Parts::with(&[]);
    for _ in 0..1 + rng.below(3) {
        let length = 1 + rng.below(10);
        let code: Vec<Bytes> = (0..length).map(|at| step(rng, at, length)).collect();
        parts.functions.push(tall(rng.below(5) as u16, &code));
    }
    parts.bytes()
}

fn step(rng: &mut Rng, at: usize, length: usize) -> Bytes {
    if rng.once_in(4) {
        let opcode = JUMP + rng.below(3) as u8;
        let target = rng.below(length + 1) as i32;
        return long(opcode, target - (at as i32 + 1));
    }
    if rng.once_in(2) {
        return none();
    }
    let effects = effects();
    rng.pick(&effects).1.clone()
}

/// The two bytes of a height stand four before a function's code.
fn lowered(rng: &mut Rng) -> Bytes {
    let module = loop {
        if let Ok(module) = model::lower(&random::tree(rng), OFFICE, 16_384, 16_384, 65_536) {
            break module;
        }
    };
    let functions = model::module::read(&module)
        .expect("a lowered module")
        .functions;
    let mut changed = module.clone();
    for function in &functions {
        if rng.once_in(8) {
            let height = function.height.saturating_add_signed([-1, 1][rng.below(2)]);
            changed[function.start - 4..function.start - 2].copy_from_slice(&height.to_be_bytes());
        }
    }
    changed
}
