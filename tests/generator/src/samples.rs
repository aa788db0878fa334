//! The paper's sample scripts, and small scripts for each of its rules.

use crate::make::*;
use std::slice::from_ref;

/// A named tree.
pub struct Case {
    pub name: String,
    pub tree: Bytes,
}

pub fn case(name: &str, tree: Bytes) -> Case {
    Case {
        name: name.to_string(),
        tree,
    }
}

/// A named tree of these statements.
pub fn script(name: &str, stmts: &[Bytes]) -> Case {
    case(name, tree(stmts))
}

/// The starred samples of the paper.
pub fn starred() -> Vec<Case> {
    let break_in_def = while_(true_(), &[def("f", &[], &[break_()])]);
    let elif = [(var("a"), vec![pass()]), (var("b"), vec![pass()])];
    vec![
        case("sample-empty", vec![0, 0, 0, 3, 1, 0, 0]),
        script("sample-while", &[while_(true_(), &[break_()])]),
        script("sample-and", &[expr(binary(AND, var("a"), var("b")))]),
        script("sample-elif", &[if_(&elif, None)]),
        script(
            "sample-pair",
            &[assign(tuple(&[var("a"), var("b")]), var("t"))],
        ),
        script("sample-no-target", &[assign(tuple(&[]), var("t"))]),
        script("sample-for", &[for_("i", var("r"), &[pass()])]),
        script(
            "sample-args-255",
            &[expr(call_name("f", &times(255, &none())))],
        ),
        script(
            "sample-args-256",
            &[expr(call_name("f", &times(256, &none())))],
        ),
        script("sample-depth-32", &[expr(nested_not(30))]),
        script("sample-depth-33", &[expr(nested_not(31))]),
        script("sample-break-in-def", &[break_in_def]),
    ]
}

/// `not not ... None` with so many operators.
pub fn nested_not(operators: usize) -> Bytes {
    (0..operators).fold(none(), |operand, _| unary(0, operand))
}

/// Small scripts, grouped by the rule they try.
pub fn small() -> Vec<Case> {
    let groups = [
        literals,
        operators,
        name_order,
        iterators,
        own_iterators,
        built_ins,
        calls_by_name,
        calls_of_values,
        methods,
        classes,
        slots,
        tuple_slots,
        capture_orders,
        captures,
        ifs,
        loops,
        targets,
    ];
    groups.into_iter().flat_map(|group| group()).collect()
}

fn literals() -> Vec<Case> {
    let ints = [0, 1, -1, 255, i64::MAX, i64::MIN].map(|i| expr(int(i)));
    let bits = [
        0,
        1 << 63,
        0x7FF0_0000_0000_0000,
        0x7FF0_0000_0000_0001,
        0xFFF8_0000_DEAD_BEEF,
        1,
    ];
    let texts: [&[u8]; 6] = [b"", b"a", b"", b"b", b"a", b"\x00\x7f"];
    let accents = ["é", "e\u{301}", "é", "e", "É"].map(|t| expr(string(t.as_bytes())));
    vec![
        script("literal-words", &[none(), false_(), true_()].map(expr)),
        script("literal-ints", &ints),
        script("literal-floats", &bits.map(|b| expr(float(b)))),
        script("literal-strings", &texts.map(|t| expr(string(t)))),
        script("literal-accents", &accents),
        script(
            "string-like-name",
            &[expr(string(b"__main__")), expr(var("a"))],
        ),
        script("pass-twice", &[pass(), pass()]),
        script("return-in-main", &[ret(none()), expr(true_())]),
    ]
}

fn operators() -> Vec<Case> {
    let all_binary: Vec<_> = (0..14)
        .map(|o| expr(binary(o, var("a"), var("b"))))
        .collect();
    let all_unary: Vec<_> = (0..3).map(|o| expr(unary(o, var("a")))).collect();
    let or_and = binary(OR, binary(AND, var("a"), var("b")), var("c"));
    let groups = [
        list(&[]),
        list(&[var("a"), none()]),
        tuple(&[var("a")]),
        set(&[int(1), int(2)]),
        tree_set(&[int(1)]),
        dict(&[(var("k"), var("v")), (none(), none())]),
        index(var("a"), var("b")),
        attr(var("a"), "b"),
    ];
    vec![
        script("operators-binary", &all_binary),
        script("operators-unary", &all_unary),
        script("or", &[expr(binary(OR, var("a"), var("b")))]),
        script("and-then-or", from_ref(&expr(or_and.clone()))),
        script("or-in-condition", &[while_(or_and.clone(), &[pass()])]),
        script("or-in-argument", &[expr(call_name("f", &[or_and]))]),
        script("groups", &groups.map(expr)),
    ]
}

fn name_order() -> Vec<Case> {
    let stored = assign(attr(var("o"), "p"), var("v"));
    let called = call(attr(var("o"), "m"), &[var("a"), var("b")]);
    let indexed = assign(index(var("c"), var("b")), var("a"));
    vec![
        script("name-order", &[stored, expr(attr(var("q"), "w"))]),
        script("name-order-call", &[expr(called)]),
        script("name-order-index", &[indexed]),
    ]
}

fn iterators() -> Vec<Case> {
    let loop_in = |name: &str| def(name, &[], &[for_("i", var("r"), &[pass()])]);
    let loop_ = || for_("i", var("r"), &[pass()]);
    let spelled = |name: &str| assign(var(name), int(1));
    let after = [loop_(), expr(var("__for_iter_2___")), expr(var("__next__"))];
    let inner = for_("i", var("i"), &[loop_()]);
    let over_call = for_("x", call_name("range", &[int(3)]), &[expr(var("x"))]);
    let far = [times(50, &expr(none())), vec![loop_()]].concat();
    let slot = for_("i", var("r"), &[expr(var("i"))]);
    vec![
        script("iter-spelled-first", &[spelled("__iter__"), loop_()]),
        script(
            "iterator-nearly-spelled-first",
            &[spelled("__for_iter_4___"), loop_()],
        ),
        script("iterator-nearly-spelled-last", &after),
        script(
            "iterators-at-one-place",
            &[loop_in("f"), loop_in("g"), loop_()],
        ),
        script("loop-in-loop", &[for_("i", var("r"), &[inner])]),
        script(
            "loop-variable-made",
            &[for_("__iter__", var("__has_next__"), &[])],
        ),
        script("loop-over-call", &[over_call]),
        script("loop-far", &far),
        script("def-loop-variable", &[def("f", &["r"], &[slot])]),
    ]
}

/// Loops of defs and methods, each with a slot of its own for its iterator.
fn own_iterators() -> Vec<Case> {
    let over = |name: &str, body: &[Bytes]| for_(name, var("r"), body);
    let bare = |name: &str| over(name, &[]);
    let f = |body: &[Bytes]| [def("f", &["r"], body)];
    let arm = |name: &str| (var("r"), vec![bare(name)]);
    let branches = || if_(&[arm("i"), arm("j"), arm("i")], Some(&[bare("k")]));
    let last = if_(&[(var("r"), vec![])], Some(&[bare("i"), bare("i")]));
    let deep = over("i", &[over("j", &[bare("i")]), bare("k")]);
    let leave = if_(&[(var("i"), vec![break_()])], Some(&[continue_()]));
    let left = over("i", &[over("j", &[leave]), bare("i"), break_()]);
    let inner = def("g", &["r"], &[bare("i"), over("j", &[bare("i")])]);
    let init = method("__init__", &["r"], &[bare("i")]);
    let named = method("m", &["r", "i"], &[branches(), bare("i")]);
    let inside = class("A", &[method("m", &["r"], &[bare("j")])], &[]);
    let held = lambda(&["x"], list(&[var("j"), var("i"), var("x")]));
    vec![
        script("own-in-branches", &f(&[branches(), bare("i")])),
        script("own-in-else", &f(&[last, bare("j")])),
        script("own-in-loops", &f(&[deep, bare("i")])),
        script("own-left", &f(&[left, bare("i")])),
        script(
            "own-in-while",
            &f(&[while_(var("r"), &[bare("i"), bare("j")]), bare("i")]),
        ),
        script("own-in-methods", &[class("A", &[init, named], &[])]),
        script("own-in-def-in-loop", &f(&[over("i", &[inner, bare("j")])])),
        script(
            "own-in-method-in-loop",
            &f(&[over("i", &[inside, bare("i")])]),
        ),
        script("own-and-lambda", &f(&[bare("j"), over("i", &[ret(held)])])),
        script(
            "own-and-main",
            &[bare("i"), f(&[bare("i")])[0].clone(), bare("i")],
        ),
    ]
}

fn built_ins() -> Vec<Case> {
    let known = [
        "print", "input", "int", "bool", "str", "len", "range", "float", "list", "dict", "assert",
        "map", "filter", "set", "treeset", "tuple",
    ];
    let call_of = |name: &str| expr(call_name(name, &[]));
    let with_argument = known.map(|n| expr(call_name(n, &[int(1)])));
    vec![
        script("call-built-ins", &with_argument),
        script("built-ins-as-values", &known.map(|n| expr(var(n)))),
        script(
            "built-in-parameter",
            &[def("f", &["print"], &[call_of("print")])],
        ),
        script(
            "built-in-redefined",
            &[def("len", &[], &[]), call_of("len")],
        ),
        script(
            "class-named-print",
            &[class("print", &[], &[]), call_of("print")],
        ),
    ]
}

/// Which of several things with one name a call takes.
fn calls_by_name() -> Vec<Case> {
    let f = || expr(call_name("f", &[]));
    let main = || expr(call_name("__main__", &[]));
    let def_f = || def("f", &[], &[]);
    let class_f = || class("f", &[], &[]);
    let method_f = || class("C", &[method("f", &["self"], &[])], &[]);
    let shadow = def("g", &["f"], &[f(), expr(var("f"))]);
    vec![
        script("call-before-def", &[f(), def_f(), f()]),
        script("call-own", &[def("f", &[], &[f()])]),
        script("def-twice", &[def_f(), def("f", &["x"], &[]), f()]),
        script("def-class-call", &[def_f(), class_f(), f()]),
        script("class-def-call", &[class_f(), def_f(), f()]),
        script("method-called-by-name", &[method_f(), f()]),
        script("method-before-def", &[method_f(), def_f(), f()]),
        script("call-main", &[expr(call_name("__main__", &[none()]))]),
        script("def-main", &[def("__main__", &[], &[]), main()]),
        script("class-named-main", &[class("__main__", &[], &[]), main()]),
        script("slot-no-shadow", &[def_f(), shadow]),
        script("def-in-def-called", &[def("g", &[], &[def_f(), f()]), f()]),
    ]
}

fn calls_of_values() -> Vec<Case> {
    let f = || call_name("f", &[]);
    let own = method("m", &["s"], &[ret(call_name("C", &[]))]);
    let identity = lambda(&["x"], var("x"));
    let of_call = call(attr(f(), "m"), &[none()]);
    vec![
        script("call-lambda", &[expr(call(identity, &[int(1)]))]),
        script("call-call", &[expr(call(f(), &[none()]))]),
        script("call-index", &[expr(call(index(var("a"), int(0)), &[]))]),
        script("call-method-of-call", &[expr(of_call)]),
        script(
            "call-in-argument",
            &[expr(call_name("f", &[lambda(&[], f())]))],
        ),
        script("class-in-own-method", &[class("C", &[own], &[])]),
    ]
}

fn methods() -> Vec<Case> {
    let m = |n: &str| method(n, &["self"], &[]);
    let sorted = ["b", "aa", "_", "Z", "a", "a1", "a_", "aaa"].map(m);
    let again = [m("m"), method("m", &["self", "x"], &[ret(var("x"))])];
    let init = |body: &[Bytes]| class("A", &[method("__init__", &["self"], body)], &[]);
    let defs = [def("__init__", &[], &[]), def("__init__", &["a"], &[])];
    let no_self = method("m", &[], &[ret(none())]);
    vec![
        script("methods-sorted", &[class("A", &sorted, &[])]),
        script(
            "methods-one-name",
            &[class("A", &again, &[]), expr(call_name("m", &[]))],
        ),
        script("init-empty", &[init(&[])]),
        script("init-returns", &[init(&[ret(none())])]),
        script("init-def", &defs),
        script("method-no-self", &[class("A", &[no_self], &[])]),
    ]
}

fn classes() -> Vec<Case> {
    let m = || method("m", &["self"], &[]);
    let empty = || class("A", &[], &[]);
    let a = || call_name("A", &[]);
    let inner = class("B", &[method("n", &["self"], &[])], &[]);
    let outer = class("A", &[method("m", &["self"], &[inner])], &[]);
    let attributes = [
        ("x", string(b"kept out")),
        ("y", lambda(&["q"], var("unseen"))),
    ];
    let in_def = |last: Bytes| [def("f", &[], &[empty(), ret(last)])];
    let in_loop = while_(var("a"), &[class("A", &[m()], &[]), break_()]);
    vec![
        script("class-empty", &[empty()]),
        script("class-in-method", &[outer]),
        script(
            "class-attributes",
            &[class("A", &[], &attributes), expr(string(b"x"))],
        ),
        script("class-in-def", &in_def(var("A"))),
        script("class-in-def-called", &in_def(a())),
        script(
            "class-twice",
            &[class("A", &[m()], &[]), empty(), expr(a())],
        ),
        script("class-in-loop", &[in_loop]),
    ]
}

/// A def with slots from every kind of statement. Their order is p, c, b, a,
/// z, y, w, v, u, t; the list at the end names them in byte order.
fn slots_of_all_kinds() -> Bytes {
    let store = |name: &str| assign(var(name), int(1));
    let arms = [(none(), vec![store("v")]), (none(), vec![store("u")])];
    let listed = ["a", "b", "c", "t", "u", "v", "w", "y", "z", "hidden"].map(var);
    let body = [
        store("c"),
        def("b", &[], &[store("hidden")]),
        class("a", &[], &[]),
        for_("z", var("p"), &[assign(var("y"), var("z"))]),
        while_(none(), &[store("w")]),
        if_(&arms, Some(&[store("t")])),
        assign(var("p"), var("c")),
        expr(list(&listed)),
    ];
    def("f", &["p"], &body)
}

fn slots() -> Vec<Case> {
    let store = |name: &str| assign(var(name), int(1));
    let f = |body: &[Bytes]| [def("f", &[], body)];
    let pair = assign(tuple(&[var("a"), var("b")]), var("b"));
    let attribute = assign(attr(var("o"), "x"), var("x"));
    let looped = for_("i", var("r"), &[store("a")]);
    let itself = [def("f", &[], &[]), ret(var("f"))];
    vec![
        script("slots-all-kinds", &[slots_of_all_kinds()]),
        script("slots-from-tuple", &f(&[pair, store("b")])),
        script("slots-not-from-attribute", &f(&[attribute, ret(var("o"))])),
        script(
            "slots-def-never-stored",
            &f(&[def("g", &[], &[]), ret(var("g"))]),
        ),
        script(
            "slots-loop-before-body",
            &f(&[looped, assign(var("r"), var("i"))]),
        ),
        script(
            "slots-main-none",
            &[store("x"), expr(lambda(&[], var("x")))],
        ),
        script("slots-dead-code", &f(&[ret(var("x")), store("x")])),
        script("slots-name-of-itself", &[def("f", &["f"], &itself)]),
    ]
}

/// A def with tuple targets in every kind of block, and other names between
/// them. The order of slots is p, a, b, c, i, j, d, e, g, h, k, l, m; the list at
/// the end names them in byte order.
fn unpacked_everywhere() -> Bytes {
    let unpack = |names: &[&str]| {
        let items: Vec<_> = names.iter().map(|n| var(n)).collect();
        assign(tuple(&items), var("t"))
    };
    let nested = tuple(&[tuple(&[var("a"), tuple(&[var("b")])]), var("c")]);
    let arms = [
        (none(), vec![unpack(&["g", "a"])]),
        (none(), vec![unpack(&["h", "p"])]),
    ];
    let listed = [
        "a", "b", "c", "d", "e", "g", "h", "i", "j", "k", "l", "m", "p",
    ]
    .map(var);
    let body = [
        assign(nested, var("t")),
        for_("i", var("p"), &[unpack(&["j", "i", "d"])]),
        while_(none(), &[unpack(&["e", "b", "e"])]),
        if_(&arms, Some(&[unpack(&["k", "c"])])),
        assign(var("l"), none()),
        unpack(&["l", "m"]),
        expr(list(&listed)),
    ];
    def("f", &["p"], &body)
}

fn tuple_slots() -> Vec<Case> {
    let pair = |a: &str, b: &str| assign(tuple(&[var(a), var(b)]), var("t"));
    let empty = assign(tuple(&[var("a"), tuple(&[])]), var("t"));
    let both = || list(&[var("a"), var("b")]);
    let f = |params: &[&str], body: &[Bytes]| def("f", params, body);
    let inner = def("g", &[], &[pair("a", "c"), ret(both())]);
    let held = class(
        "A",
        &[method("m", &["s"], &[pair("b", "s"), ret(both())])],
        &[],
    );
    let init = class("A", &[method("__init__", &["a"], &[pair("a", "b")])], &[]);
    let called = [pair("a", "b"), expr(call_name("a", &[var("b")]))];
    let captured = lambda(&["b"], both());
    let round = for_("a", var("t"), &[pair("b", "a")]);
    let own = def(
        "helper",
        &["stock"],
        &[pair("counts", "full"), ret(var("full"))],
    );
    let caller = [
        pair("counts", "full"),
        own,
        expr(call_name("helper", &[var("full")])),
    ];
    vec![
        script("unpack-everywhere", &[unpacked_everywhere()]),
        script(
            "unpack-parameter",
            &[f(&["b"], &[pair("a", "b"), ret(both())])],
        ),
        script(
            "unpack-parameter-first",
            &[f(&["a"], &[pair("a", "b"), ret(both())])],
        ),
        script(
            "unpack-same-twice",
            &[f(&[], &[pair("a", "a"), ret(both())])],
        ),
        script(
            "unpack-empty",
            &[f(&[], &[empty, assign(tuple(&[]), var("a"))])],
        ),
        script(
            "unpack-in-inner-def",
            &[f(&[], &[pair("a", "b"), inner, ret(both())])],
        ),
        script(
            "unpack-in-held-class",
            &[f(&[], &[pair("a", "d"), held, ret(both())])],
        ),
        script("unpack-in-init", &[init]),
        script("unpack-called", &[f(&[], &called)]),
        script(
            "unpack-captured",
            &[f(&[], &[pair("a", "b"), ret(captured)])],
        ),
        script("unpack-loop-variable", &[f(&[], &[round])]),
        script(
            "unpack-dead-code",
            &[f(&[], &[ret(both()), pair("b", "a")])],
        ),
        script(
            "unpack-own-name",
            &[f(&[], &[pair("f", "a"), ret(var("f"))])],
        ),
        script(
            "unpack-def-name",
            &[f(&[], &[pair("g", "a"), def("g", &[], &[]), ret(var("g"))])],
        ),
        script("unpack-in-main", &[pair("a", "b"), expr(both())]),
        script("unpack-helper", &caller),
    ]
}

type Pair = fn(Bytes, Bytes) -> Bytes;

/// Expressions that hold two, the first before the second.
const PAIRS: [(&str, Pair); 16] = [
    ("list", |a, b| list(&[a, b])),
    ("tuple", |a, b| tuple(&[a, b])),
    ("set", |a, b| set(&[a, b])),
    ("tree-set", |a, b| tree_set(&[a, b])),
    ("dict", |a, b| dict(&[(a, b)])),
    ("dict-keys", |a, b| dict(&[(a, none()), (b, none())])),
    ("dict-values", |a, b| dict(&[(none(), a), (none(), b)])),
    ("index", index),
    ("sum", |a, b| binary(0, a, b)),
    ("and", |a, b| binary(AND, a, b)),
    ("or", |a, b| binary(OR, a, b)),
    ("call", |a, b| call(a, &[b])),
    ("arguments", |a, b| call_name("y", &[a, b])),
    ("method", |a, b| call(attr(a, "x"), &[b])),
    ("unary", |a, b| list(&[unary(0, a), unary(1, b)])),
    ("attribute", |a, b| list(&[attr(a, "x"), attr(b, "y")])),
];

/// In a def with `x` and `y`: a lambda whose body refers to `x` and holds
/// lambdas that have it as a parameter, in both orders of every kind.
fn capture_orders() -> Vec<Case> {
    let x = || var("x");
    let shapes = [
        ("hidden", x(), lambda(&["x"], x())),
        ("unused", x(), lambda(&["x"], int(0))),
        ("inner", lambda(&[], x()), lambda(&["x"], x())),
        ("other", lambda(&["y"], x()), lambda(&["x"], var("y"))),
        (
            "deep",
            lambda(&["y"], lambda(&[], x())),
            lambda(&["x"], lambda(&["x"], x())),
        ),
        (
            "outer",
            lambda(&["x"], lambda(&[], x())),
            lambda(&["y"], var("y")),
        ),
        (
            "both",
            lambda(&["x"], lambda(&["y"], list(&[x(), var("y")]))),
            list(&[x(), var("y")]),
        ),
    ];
    let inside = |name: &str, params: &[&str], body: Bytes| {
        script(name, &[def("d", &["x", "y"], &[ret(lambda(params, body))])])
    };
    let mut cases = Vec::new();
    for (kind, pair) in PAIRS {
        for (shape, first, second) in &shapes {
            let name = format!("capture-{kind}-{shape}");
            let (on, back) = (
                pair(first.clone(), second.clone()),
                pair(second.clone(), first.clone()),
            );
            if kind == "list" {
                cases.push(inside(&format!("{name}-own"), &["y"], on.clone()));
                cases.push(inside(&format!("{name}-back-own"), &["y"], back.clone()));
            }
            cases.push(inside(&name, &[], on));
            cases.push(inside(&format!("{name}-back"), &[], back));
        }
    }
    cases
}

fn captures() -> Vec<Case> {
    let x = || var("x");
    let outer = |body: Bytes| lambda(&[], body);
    let inside = |name: &str, body: Bytes| script(name, &[def("d", &["x", "y"], &[ret(body)])]);
    let everywhere = [
        unary(0, x()),
        attr(var("y"), "x"),
        tuple(&[]),
        tree_set(&[x()]),
    ];
    let hidden = list(&[var("y"), lambda(&["y"], x())]);
    let own = def("o", &["x"], &[def("i", &[], &[ret(outer(x()))])]);
    let sorted = outer(list(&["b", "a", "ab", "B", "_", "c"].map(var)));
    let params = ["c", "_", "B", "ab", "a", "b"];
    let maker = assign(attr(outer(x()), "m"), outer(var("y")));
    let two = lambda(&["b"], list(&["a", "b", "c"].map(var)));
    let g = [def("g", &[], &[]), ret(outer(call_name("g", &[])))];
    let in_method = method("m", &["self"], &[ret(outer(var("self")))]);
    let named = ret(outer(call_name("len", &[])));
    let around = |params: &[&str]| lambda(params, outer(lambda(&["y"], list(&[x(), var("y")]))));
    vec![
        inside("capture-method-name", outer(call(attr(x(), "y"), &[]))),
        inside("capture-bound-above", around(&["x"])),
        inside("capture-bound-above-other", around(&["y"])),
        inside("capture-bound-above-both", around(&["y", "x"])),
        inside("capture-bound-nowhere", around(&[])),
        inside("capture-in-all", outer(set(&everywhere))),
        inside(
            "capture-own-parameter",
            lambda(&["x"], list(&[x(), var("y")])),
        ),
        inside("capture-deep", outer(outer(outer(x())))),
        inside("capture-deep-hidden", outer(outer(hidden))),
        script("capture-def-name", &[def("o", &[], &g)]),
        script("capture-parent-only", &[own]),
        script("capture-sorted", &[def("f", &params, &[ret(sorted)])]),
        script("capture-in-target", &[def("f", &["x", "y"], &[maker])]),
        script("capture-in-method", &[class("A", &[in_method], &[])]),
        script("capture-built-in-name", &[def("f", &["len"], &[named])]),
        script(
            "lambda-numbers",
            &times(12, &expr(lambda(&["a"], var("a")))),
        ),
        script("lambda-in-lambda-main", &[expr(lambda(&["a"], two))]),
    ]
}

fn ifs() -> Vec<Case> {
    let a = || var("a");
    let arm = |stmts: &[Bytes]| (a(), stmts.to_vec());
    let chain = [
        arm(&[expr(a())]),
        arm(&[]),
        arm(&[pass()]),
        arm(&[expr(none())]),
    ];
    let inner = if_(&[arm(&[]), arm(&[])], None);
    let last = if_(&[arm(&[])], None);
    let both = (binary(AND, a(), var("b")), vec![]);
    vec![
        script("if-only", &[if_(&[arm(&[])], None)]),
        script("if-empty-else", &[if_(&[arm(&[])], Some(&[]))]),
        script(
            "if-else",
            &[if_(&[arm(&[expr(a())])], Some(&[expr(none())]))],
        ),
        script("if-chain", &[if_(&chain, Some(&[expr(true_())]))]),
        script("if-in-if", &[if_(&[arm(&[inner])], Some(&[last]))]),
        script("and-in-elif", &[if_(&[arm(&[]), both], None)]),
    ]
}

fn loops() -> Vec<Case> {
    let a = || var("a");
    let arm = |stmts: &[Bytes]| (a(), stmts.to_vec());
    let leave = if_(&[arm(&[break_()]), arm(&[continue_()])], Some(&[ret(a())]));
    let inner = while_(a(), &[continue_(), break_()]);
    let nested = while_(a(), &[inner, break_(), continue_()]);
    let own_loop = def("f", &[], &[while_(a(), &[break_()])]);
    let body = [while_(var("i"), &[continue_()]), break_()];
    vec![
        script("leave-in-while", &[while_(a(), from_ref(&leave))]),
        script("leave-in-for", &[for_("i", a(), &[leave])]),
        script("loops-nested", &[nested]),
        script("loop-in-def-in-loop", &[while_(a(), &[own_loop, break_()])]),
        script("while-while", &[while_(a(), &[]), while_(a(), &[])]),
        script("for-and-while", &[for_("i", binary(OR, a(), a()), &body)]),
    ]
}

fn targets() -> Vec<Case> {
    let [a, b, c] = ["a", "b", "c"].map(var);
    let nested = tuple(&[
        a.clone(),
        tuple(&[b.clone(), c.clone()]),
        tuple(from_ref(&b)),
    ]);
    let t = || var("t");
    vec![
        script("target-one", &[assign(tuple(from_ref(&a)), t())]),
        script("target-nested", &[assign(nested.clone(), t())]),
        script(
            "target-nested-in-def",
            &[def(
                "f",
                &["b"],
                &[assign(var("c"), t()), assign(nested, t())],
            )],
        ),
        script(
            "target-then-empty",
            &[assign(tuple(&[a.clone(), tuple(&[])]), t())],
        ),
        script(
            "target-empty-first",
            &[assign(tuple(&[tuple(&[]), a.clone()]), t())],
        ),
        script(
            "target-same-twice",
            &[assign(tuple(&[a.clone(), a.clone()]), t())],
        ),
        script("target-wide", &[assign(tuple(&times(300, &a)), t())]),
        script(
            "target-attribute",
            &[assign(attr(call_name("f", &[]), "p"), b.clone())],
        ),
        script("target-index", &[assign(index(a.clone(), b), c)]),
        script("target-value-empty", &[assign(a, tuple(&[]))]),
    ]
}
