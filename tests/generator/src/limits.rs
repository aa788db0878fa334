//! Trees on both sides of every limit of questions 2 to 16, 33 and 36.

use crate::make::*;
use crate::samples::{case, nested_not, script, Case};
use crate::texts;
use model::{CONSOLE, OFFICE};
use std::slice::from_ref;

pub const MAX_TREE: usize = 32_768;

/// All of them; the longest trees come last.
pub fn all() -> Vec<Case> {
    let mut cases = headers();
    cases.extend(malformed());
    cases.extend(depths());
    cases.extend(bad_names());
    cases.extend(iterator_names());
    cases.extend(strings());
    cases.extend(loops());
    cases.extend(targets());
    cases.extend(params());
    cases.extend(argument_counts());
    cases.extend(slot_counts());
    cases.extend(table_counts());
    cases.extend(pairs_of_faults());
    cases.extend(console_counts());
    cases.extend(console_faults());
    cases.extend(instruction_counts(OFFICE.instructions));
    cases.extend(long());
    cases
}

/// Trees on both sides of every limit of the console.
pub fn at_console() -> Vec<Case> {
    let mut cases = console_counts();
    cases.extend(shared_counts());
    cases.extend(console_faults());
    cases
}

/// Distinct names of two or three bytes.
pub fn many_names(count: usize) -> Vec<String> {
    let digit = |n: usize| char::from(b"abcdefghijklmnopqrstuvwxyzABCDEF"[n % 32]);
    (0..count)
        .map(|n| {
            let tail = if n < 1024 {
                String::new()
            } else {
                format!("{}", n / 1024)
            };
            format!("{}{}{tail}", digit(n / 32), digit(n))
        })
        .collect()
}

pub(crate) fn borrowed(names: &[String]) -> Vec<&str> {
    names.iter().map(String::as_str).collect()
}

fn headers() -> Vec<Case> {
    vec![
        case("header-none", vec![]),
        case("header-three", vec![0, 0, 0]),
        case("header-only", vec![0, 0, 0, 0]),
        case("header-one-more", vec![0, 0, 0, 4, 1, 0, 0]),
        case("header-one-less", vec![0, 0, 0, 2, 1, 0, 0]),
        case("header-high-byte", vec![1, 0, 0, 3, 1, 0, 0]),
        case("version-zero", with_header(&[0, 0, 0])),
        case("version-two", with_header(&[2, 0, 0])),
        case("version-alone", with_header(&[1])),
        case("count-cut", with_header(&[1, 0])),
    ]
}

/// A tree whose only statement is these bytes.
fn raw(name: &str, stmt: &[u8]) -> Case {
    script(name, &[stmt.to_vec()])
}

fn malformed() -> Vec<Case> {
    let mut over = tree(&[pass()]);
    over.push(0);
    let cut = |stmt: Bytes| tree(&[stmt[..stmt.len() - 1].to_vec()]);
    let elif = if_(&[(none(), vec![]), (none(), vec![])], Some(&[]));
    vec![
        raw("kind-statement-11", &[11]),
        raw("kind-statement-255", &[255]),
        raw("kind-expression-18", &[3, 18]),
        raw("kind-expression-99", &[3, 99]),
        raw("unary-operator-3", &[3, 7, 3, 0]),
        raw("binary-operator-14", &[3, 8, 14, 0, 0]),
        raw("else-byte-2", &[6, 0, 0, 0, 0, 0, 2, 0, 0]),
        case("byte-over", mended(&over)),
        case("statement-missing", with_header(&[1, 0, 1])),
        case("statement-over", with_header(&[1, 0, 0, 2])),
        case("cut-int", cut(expr(int(1)))),
        case("cut-float", cut(expr(float(1)))),
        case("cut-string", cut(expr(string(b"ab")))),
        case("cut-name", cut(expr(var("ab")))),
        case("cut-name-length", tree(&[vec![3, 6]])),
        case("cut-else", cut(elif)),
        case("cut-call", cut(expr(call_name("f", &[none()])))),
        case("cut-params", cut(def("f", &["a"], &[]))),
        case("cut-class", cut(class("A", &[], &[]))),
        case("cut-dict", cut(expr(dict(&[(none(), none())])))),
        case("cut-lambda", cut(expr(lambda(&["a"], none())))),
        raw("bad-name-then-bad-kind", &[3, 11, 0, 2, 6, 0, 99]),
    ]
}

pub(crate) type Wrap = fn(Bytes) -> Bytes;

/// Statements that hold a statement one deeper.
const STMT_WRAPS: [(&str, Wrap); 8] = [
    ("if", |s| if_(&[(none(), vec![s])], None)),
    ("elif", |s| {
        if_(&[(none(), vec![]), (none(), vec![s])], None)
    }),
    ("else", |s| if_(&[(none(), vec![])], Some(&[s]))),
    ("while", |s| while_(none(), &[s])),
    ("for", |s| for_("i", none(), &[s])),
    ("def", |s| def("f", &[], &[s])),
    ("method", |s| class("A", &[method("m", &["a"], &[s])], &[])),
    ("two", |s| while_(none(), &[pass(), s])),
];

/// Expressions that hold an expression one deeper.
const EXPR_WRAPS: [(&str, Wrap); 17] = [
    ("unary", |e| unary(0, e)),
    ("binary-left", |e| binary(0, e, none())),
    ("binary-right", |e| binary(0, none(), e)),
    ("and", |e| binary(AND, none(), e)),
    ("callee", |e| call(e, &[])),
    ("argument", |e| call(none(), &[e])),
    ("attribute", |e| attr(e, "a")),
    ("list", |e| list(&[e])),
    ("tuple", |e| tuple(&[e])),
    ("set", |e| set(&[e])),
    ("tree-set", |e| tree_set(&[e])),
    ("dict-key", |e| dict(&[(e, none())])),
    ("dict-value", |e| dict(&[(none(), e)])),
    ("index-object", |e| index(e, none())),
    ("index-index", |e| index(none(), e)),
    ("lambda", |e| lambda(&[], e)),
    ("lambda-one", |e| lambda(&["a"], e)),
];

/// Places in statements that hold an expression.
const HOLDERS: [(&str, Wrap); 9] = [
    ("return", ret),
    ("assign-value", |e| assign(var("v"), e)),
    ("assign-object", |e| assign(attr(e, "a"), none())),
    ("if-condition", |e| if_(&[(e, vec![])], None)),
    ("elif-condition", |e| {
        if_(&[(none(), vec![]), (e, vec![])], None)
    }),
    ("while-condition", |e| while_(e, &[])),
    ("for-iterable", |e| for_("i", e, &[])),
    ("class-attribute", |e| class("A", &[], &[("a", e)])),
    ("in-method", |e| {
        class("A", &[method("m", &["s"], &[expr(e)])], &[])
    }),
];

pub(crate) fn nest(wrap: Wrap, times: usize, inner: Bytes) -> Bytes {
    (0..times).fold(inner, |bytes, _| wrap(bytes))
}

fn depths() -> Vec<Case> {
    let mut cases = Vec::new();
    for deepest in [32, 33] {
        for (word, wrap) in STMT_WRAPS {
            let name = format!("depth-{deepest}-{word}");
            cases.push(script(&name, &[nest(wrap, deepest - 1, pass())]));
        }
        for (word, wrap) in EXPR_WRAPS {
            let name = format!("depth-{deepest}-{word}");
            cases.push(script(&name, &[expr(nest(wrap, deepest - 2, none()))]));
        }
        for (word, hold) in HOLDERS {
            let name = format!("depth-{deepest}-{word}");
            let levels = match word {
                "assign-object" | "in-method" => 3,
                _ => 2,
            };
            cases.push(script(&name, &[hold(nested_not(deepest - levels))]));
        }
        let target = nest(|e| tuple(&[e]), deepest - 2, var("a"));
        let name = format!("depth-{deepest}-target");
        cases.push(script(&name, &[assign(target, none())]));
    }
    cases.extend(depth_edges());
    cases
}

/// What decides between 5 and 6 around the kind byte at depth 33.
fn depth_edges() -> Vec<Case> {
    let deep = tree(&[expr(nested_not(31))]);
    let with_last = |byte: u8| {
        let mut bytes = deep.clone();
        *bytes.last_mut().expect("not empty") = byte;
        bytes
    };
    let mut over = deep.clone();
    over.push(7);
    let mut operator = deep.clone();
    let place = operator.len() - 2;
    operator[place] = 3;
    let bad_name_first = tree(&[expr(var("1")), expr(nested_not(31))]);
    let bad_kind_after = tree(&[expr(nested_not(31)), vec![99]]);
    let bad_kind_before = tree(&[vec![99], expr(nested_not(31))]);
    vec![
        case("depth-33-no-kind", with_last(99)),
        case("depth-33-kind-255", with_last(255)),
        case("depth-33-cut", mended(&deep[..deep.len() - 1])),
        case("depth-33-byte-over", mended(&over)),
        case("depth-32-bad-operator", operator),
        case("depth-33-bad-name-first", bad_name_first),
        case("depth-33-bad-kind-after", bad_kind_after),
        case("depth-33-bad-kind-before", bad_kind_before),
    ]
}

fn bad_names() -> Vec<Case> {
    let mut cases = Vec::new();
    for length in [0, 1, 2, 63, 64, 65, 66, 128, 254, 255] {
        let name = "n".repeat(length);
        let word = format!("name-length-{length}");
        cases.push(script(&word, &[expr(var(&name))]));
    }
    // The bytes around the ranges of letters and digits, first and later.
    for byte in *b"/09:@AZ[`az{_\x7f\x80\xe1\xff -<#\0" {
        let first = format!("name-first-{byte:02x}");
        let later = format!("name-later-{byte:02x}");
        cases.push(script(&first, &[expr(raw_var(&[byte]))]));
        cases.push(script(&later, &[expr(raw_var(&[b'a', byte]))]));
    }
    for (word, stmt) in name_places("9") {
        cases.push(script(&format!("name-bad-{word}"), &[stmt]));
    }
    cases
}

/// A statement for every place where a name can stand.
fn name_places(bad: &str) -> Vec<(&'static str, Bytes)> {
    vec![
        ("for", for_(bad, none(), &[])),
        ("def", def(bad, &[], &[])),
        ("param", def("f", &["a", bad], &[])),
        ("class", class(bad, &[], &[])),
        ("method", class("A", &[method(bad, &["a"], &[])], &[])),
        ("method-param", class("A", &[method("m", &[bad], &[])], &[])),
        ("class-attribute", class("A", &[], &[(bad, none())])),
        ("in-class-attribute", class("A", &[], &[("a", var(bad))])),
        ("attribute", expr(attr(none(), bad))),
        ("lambda-param", expr(lambda(&[bad], none()))),
        ("target", assign(var(bad), none())),
        (
            "lambda-in-class-attribute",
            class("A", &[], &[("a", lambda(&[bad], none()))]),
        ),
        (
            "attribute-in-class-attribute",
            class("A", &[], &[("a", attr(none(), bad))]),
        ),
        ("attribute-target", assign(attr(none(), bad), none())),
        (
            "tuple-target",
            assign(tuple(&[var("a"), tuple(&[var(bad)])]), none()),
        ),
        ("call", expr(call_name(bad, &[]))),
        ("method-call", expr(call(attr(none(), bad), &[]))),
        ("in-lambda", expr(lambda(&[], var(bad)))),
    ]
}

/// Names of loops' iterators everywhere, and names that are nearly ones.
fn iterator_names() -> Vec<Case> {
    let mut cases = Vec::new();
    for (word, stmt) in name_places("__for_iter_2__") {
        cases.push(script(&format!("iterator-{word}"), &[stmt]));
    }
    let middles = [
        "2",
        "0",
        "00",
        "12",
        "65535",
        "1234567890",
        "",
        "x",
        "2_",
        "_2",
        "2a",
        "a2",
        "2_2",
        "-",
        "/",
        ":",
    ];
    let mut names: Vec<String> = middles.map(|m| format!("__for_iter_{m}__")).to_vec();
    for digits in [50, 51, 52, 242] {
        names.push(format!("__for_iter_{}__", "0".repeat(digits)));
    }
    let near = [
        "__for_iter_2",
        "__for_iter_2_",
        "__for_iter_2___",
        "__for_iter_2__a",
        "__for_iter_2__2",
        "_for_iter_2__",
        "___for_iter_2__",
        "a__for_iter_2__",
        "__For_iter_2__",
        "__for_iter2__",
        "__for_iter__2__",
        "__for_iter_",
        "__for_iter__",
        "__for_iter___",
        "__iter_2__",
        "__for_item_2__",
    ];
    names.extend(near.map(str::to_string));
    for (place, name) in names.iter().enumerate() {
        let stmts = [expr(var(name)), expr(attr(none(), name))];
        cases.push(script(&format!("iterator-form-{place}"), &stmts));
    }
    let own = || expr(var("__for_iter_2__"));
    let loop_ = || for_("i", var("r"), &[pass()]);
    let text = string(b"__for_iter_2__");
    cases.push(script("iterator-of-loop-first", &[own(), loop_()]));
    cases.push(script("iterator-of-loop-last", &[loop_(), own()]));
    cases.push(script("iterator-as-string", &[expr(text), loop_()]));
    cases
}

/// Characters at both ends of every range, and what is none, in every place
/// where a string can stand.
fn strings() -> Vec<Case> {
    let mut cases = Vec::new();
    let all: String = texts::EDGES.iter().collect();
    let back: String = texts::EDGES.iter().rev().collect();
    let one = |c: char| expr(string(c.to_string().as_bytes()));
    cases.push(script("string-edges", &texts::EDGES.map(one)));
    let whole = [all.as_str(), &back].map(|t| expr(string(t.as_bytes())));
    cases.push(script("string-edges-in-one", &whole));
    let papers = texts::PAPERS.map(|t| expr(string(t.as_bytes())));
    cases.push(script("string-papers", &[papers.clone(), papers].concat()));
    let long = "é".repeat(8_000) + &"和".repeat(5_000);
    cases.push(script("string-long", &[expr(string(long.as_bytes()))]));
    for (word, forms) in texts::DAMAGED {
        for (place, form) in forms.iter().enumerate() {
            let name = format!("string-{word}-{place}");
            cases.push(script(&name, &[expr(string(form))]));
            let between = ["é".as_bytes(), form, b"a"].concat();
            let stmts = [
                expr(string(b"a")),
                class("A", &[], &[("a", string(&between))]),
            ];
            cases.push(script(&format!("{name}-in-class-attribute"), &stmts));
        }
    }
    cases.extend(string_places());
    cases
}

/// A bad byte wherever a string can stand; a cut character that the next bytes
/// of the record would make whole.
fn string_places() -> Vec<Case> {
    let high = || string(&[b'a', 128]);
    let cut = list(&[string(&[0xC3]), string(&[0xA9])]);
    let long = [vec![b'a'; 32_000], vec![0xC3]].concat();
    vec![
        script("string-127", &[expr(string(&[127, 0]))]),
        script("string-128", &[expr(string(&[128]))]),
        script("string-255-last", &[expr(string(&[0, 1, 255]))]),
        script("string-in-target", &[assign(index(high(), none()), none())]),
        script("string-in-lambda", &[expr(lambda(&[], high()))]),
        script("string-in-def", &[def("f", &[], &[ret(high())])]),
        script(
            "string-in-method",
            &[class("A", &[method("m", &[], &[ret(high())])], &[])],
        ),
        script("string-then-bad-name", &[expr(high()), expr(var("9"))]),
        script("string-cut-in-two", &[expr(cut)]),
        script("string-cut-at-the-end", &[expr(string(&long))]),
        script("name-not-ascii", &[expr(raw_var("é".as_bytes()))]),
    ]
}

fn loops() -> Vec<Case> {
    let mut cases = Vec::new();
    for (word, leave) in [("break", break_()), ("continue", continue_())] {
        let one = || vec![leave.clone()];
        let in_if = if_(&[(none(), one())], None);
        let in_else = if_(&[(none(), vec![])], Some(&one()));
        let in_elif = if_(&[(none(), vec![]), (none(), one())], None);
        let in_def = def("f", &[], &one());
        let in_method = class("A", &[method("m", &["a"], &one())], &[]);
        let stmts = [
            ("in-main", leave.clone()),
            ("in-if", in_if.clone()),
            ("in-while-if", while_(none(), &[in_if])),
            ("in-while-elif", while_(none(), &[in_elif])),
            ("in-for-else", for_("i", none(), &[in_else])),
            ("in-def", in_def.clone()),
            ("in-while-def", while_(none(), from_ref(&in_def))),
            ("in-for-method", for_("i", none(), &[in_method])),
            ("in-def-while", def("f", &[], &[while_(none(), &one())])),
            (
                "in-while-def-for",
                while_(none(), &[def("f", &[], &[for_("i", none(), &one())])]),
            ),
        ];
        for (place, stmt) in stmts {
            cases.push(script(&format!("{word}-{place}"), &[stmt]));
        }
        let after = [while_(none(), &[pass()]), leave.clone()];
        cases.push(script(&format!("{word}-after-loop"), &after));
    }
    cases
}

fn targets() -> Vec<Case> {
    let a = || var("a");
    let exprs = [
        ("none", none()),
        ("true", true_()),
        ("int", int(1)),
        ("float", float(1)),
        ("string", string(b"a")),
        ("unary", unary(0, a())),
        ("binary", binary(0, a(), a())),
        ("call", call_name("f", &[])),
        ("list", list(&[a()])),
        ("dict", dict(&[])),
        ("set", set(&[a()])),
        ("tree-set", tree_set(&[a()])),
        ("lambda", lambda(&[], a())),
        ("tuple-of-int", tuple(&[a(), int(1)])),
        ("tuple-of-attribute", tuple(&[attr(a(), "b")])),
        ("tuple-of-index", tuple(&[index(a(), a())])),
        ("tuple-of-list", tuple(&[list(&[a()])])),
        ("empty-tuple", tuple(&[])),
        ("tuple-of-empty-tuple", tuple(&[a(), tuple(&[])])),
        (
            "deep-empty-tuple",
            tuple(&[a(), tuple(&[tuple(&[a(), tuple(&[])]), a()])]),
        ),
        ("empty-tuple-and-int", tuple(&[tuple(&[]), int(1)])),
        ("list-of-empty-tuple", list(&[tuple(&[])])),
        ("attribute-of-empty-tuple", attr(tuple(&[]), "b")),
        ("index-of-empty-tuples", index(tuple(&[]), tuple(&[]))),
        (
            "tuple-of-tuple-of-call",
            tuple(&[tuple(&[call_name("f", &[])])]),
        ),
        ("attribute-of-int", attr(int(1), "b")),
        ("index-of-call", index(call_name("f", &[]), a())),
    ];
    let case_of = |(word, target)| script(&format!("target-is-{word}"), &[assign(target, none())]);
    exprs.into_iter().map(case_of).collect()
}

fn params() -> Vec<Case> {
    let twice = ["a", "b", "a"];
    let twice_lambda = || lambda(&twice, none());
    vec![
        script("params-twice-def", &[def("f", &twice, &[])]),
        script(
            "params-twice-method",
            &[class("A", &[method("m", &twice, &[])], &[])],
        ),
        script("params-twice-lambda", &[expr(twice_lambda())]),
        script(
            "params-twice-class-attribute",
            &[class("A", &[], &[("a", twice_lambda())])],
        ),
        script("params-like-function", &[def("f", &["f", "F"], &[])]),
        script(
            "init-no-params",
            &[class("A", &[method("__init__", &[], &[])], &[])],
        ),
        script(
            "init-other-param",
            &[class("A", &[method("__init__", &["x"], &[])], &[])],
        ),
        script(
            "init-no-params-nested",
            &[def(
                "f",
                &[],
                &[class("A", &[method("__init__", &[], &[])], &[])],
            )],
        ),
    ]
}

fn argument_counts() -> Vec<Case> {
    let mut cases = Vec::new();
    for count in [254, 255, 256] {
        let args = times(count, &none());
        let names = many_names(count);
        let params = borrowed(&names);
        let stmts = [
            ("method-args", expr(call(attr(none(), "m"), &args))),
            ("built-in-args", expr(call_name("print", &args))),
            ("value-args", expr(call(none(), &args))),
            ("def-params", def("f", &params, &[])),
            (
                "method-params",
                class("A", &[method("m", &params, &[])], &[]),
            ),
            ("lambda-params", expr(lambda(&params, none()))),
            (
                "attribute-args",
                class("A", &[], &[("a", call(none(), &args))]),
            ),
            (
                "attribute-params",
                class("A", &[], &[("a", lambda(&params, none()))]),
            ),
            ("list", expr(list(&args))),
            ("dict", expr(dict(&vec![(none(), none()); count]))),
        ];
        for (word, stmt) in stmts {
            cases.push(script(&format!("count-{count}-{word}"), &[stmt]));
        }
    }
    cases
}

/// Functions of exactly so many slots, made in different ways.
fn slot_counts() -> Vec<Case> {
    let mut cases = Vec::new();
    for count in [255, 256] {
        let names = many_names(count);
        let all = borrowed(&names);
        let (params, rest) = all.split_at(200);
        let store = |stmt: fn(&str) -> Bytes| rest.iter().map(|n| stmt(n)).collect::<Vec<_>>();
        let assigned = store(|n| assign(var(n), none()));
        let named = store(|n| def(n, &[], &[]));
        // A loop variable and its loop's iterator have a slot each.
        let looped: Vec<Bytes> = rest.chunks(2).map(loop_or_name).collect();
        let classes = store(|n| class(n, &[], &[]));
        // A lambda with one parameter and one capture less than the count.
        let captured = list(&all[1..].iter().map(|n| var(n)).collect::<Vec<_>>());
        let capturing = ret(lambda(&["q"], captured));
        let stmts = [
            ("assigned", def("f", params, &assigned)),
            ("defs", def("f", params, &named)),
            ("loops", def("f", params, &looped)),
            ("classes", def("f", params, &classes)),
            ("method", class("A", &[method("m", params, &assigned)], &[])),
            ("captures", def("f", &all[1..], &[capturing])),
            ("main", if_(&[(none(), assigned.clone())], None)),
            ("in-def", def("g", &[], &[def("f", params, &assigned)])),
        ];
        for (word, stmt) in stmts {
            cases.push(script(&format!("slots-{count}-{word}"), &[stmt]));
        }
        cases.extend(unpacked_slots(count));
        cases.extend(looped_slots(count));
    }
    cases.extend(slots_not_counted());
    cases
}

/// A statement that gives as many slots as there are names: a loop two, an
/// assignment one.
fn loop_or_name(names: &[&str]) -> Bytes {
    match names {
        [name] => assign(var(name), none()),
        _ => for_(names[0], none(), &[]),
    }
}

/// Functions of exactly so many slots: a parameter, a variable, and the
/// iterators of loops.
fn looped_slots(count: usize) -> Vec<Case> {
    let one = || for_("i", var("r"), &[]);
    let row = |loops: usize| times(loops, &one());
    let loops = count - 2;
    let deep = (1..28).fold(one(), |inner, _| for_("i", var("r"), &[inner]));
    let nested = [vec![deep], row(loops - 28)].concat();
    let arms: Vec<_> = (1..loops).map(|_| (var("r"), row(1))).collect();
    let branches = if_(&arms, Some(&row(1)));
    let f = |body: &[Bytes]| def("f", &["r"], body);
    let inside = for_("i", var("r"), &[def("g", &["r"], &row(loops))]);
    let stmts = [
        ("loops-in-row", f(&row(loops))),
        ("loops-nested", f(&nested)),
        ("loops-in-branches", f(&[branches])),
        ("loops-in-while", f(&[while_(var("r"), &row(loops))])),
        (
            "loops-in-method",
            class("A", &[method("m", &["r"], &row(loops))], &[]),
        ),
        ("loops-in-def-in-loop", f(&[inside])),
    ];
    let case_of = |(word, stmt)| script(&format!("slots-{count}-{word}"), &[stmt]);
    stmts.into_iter().map(case_of).collect()
}

/// Functions of exactly so many slots, most or all of them from tuple targets.
fn unpacked_slots(count: usize) -> Vec<Case> {
    let names = many_names(count);
    let all = borrowed(&names);
    let (params, rest) = all.split_at(200);
    let wide = |names: &[&str]| tuple(&names.iter().map(|n| var(n)).collect::<Vec<_>>());
    let store = |target: Bytes| assign(target, none());
    // Tuples of eight in one tuple; each in the next, 29 deep, the last the widest.
    let eights = tuple(&all.chunks(8).map(wide).collect::<Vec<_>>());
    let chunks: Vec<&[&str]> = all.chunks(9).collect();
    let (last, outer) = chunks.split_last().expect("a chunk");
    let deep = outer.iter().rev().fold(wide(last), |inner, names| {
        let mut items: Vec<Bytes> = names.iter().map(|n| var(n)).collect();
        items.insert(names.len() / 2, inner);
        tuple(&items)
    });
    let pairs: Vec<Bytes> = all.chunks(2).map(|names| store(wide(names))).collect();
    let mixed = [
        store(wide(&rest[..20])),
        for_(
            rest[20],
            none(),
            // A name less, for the loop's iterator.
            &[store(tuple(&[var(rest[0]), wide(&rest[22..])]))],
        ),
    ];
    let again = store(tuple(&[wide(params), wide(rest)]));
    let held = ret(lambda(
        &["q"],
        list(&all[1..].iter().map(|n| var(n)).collect::<Vec<_>>()),
    ));
    let stmts = [
        ("tuple", def("f", &[], &[store(wide(&all))])),
        ("tuple-and-parameters", def("f", params, &[again])),
        ("tuples-of-eight", def("f", &[], &[store(eights)])),
        ("tuples-deep", def("f", &[], &[store(deep)])),
        ("pairs", def("f", &[], &pairs)),
        ("tuple-mixed", def("f", params, &mixed)),
        (
            "tuple-method",
            class("A", &[method("m", params, &[store(wide(rest))])], &[]),
        ),
        (
            "tuple-captures",
            def("f", &[], &[store(wide(&all[1..])), held]),
        ),
        (
            "tuple-in-while",
            def("f", params, &[while_(none(), &[store(wide(rest))])]),
        ),
    ];
    let case_of = |(word, stmt)| script(&format!("slots-{count}-{word}"), &[stmt]);
    stmts.into_iter().map(case_of).collect()
}

fn slots_not_counted() -> Vec<Case> {
    let names = many_names(300);
    let all = borrowed(&names);
    let wide = tuple(&all.iter().map(|n| var(n)).collect::<Vec<_>>());
    let own = tuple(&all[..255].iter().rev().map(|n| var(n)).collect::<Vec<_>>());
    let parameters = def("f", &all[..255], &[assign(own, none())]);
    let main: Vec<_> = all.iter().map(|n| assign(var(n), none())).collect();
    // 255 parameters and a capture, but the lambda is never lowered.
    let unlowered = lambda(&all[..255], var("zz"));
    let in_attribute = class("A", &[], &[("a", unlowered.clone())]);
    // Main's loops have no slots, and an inner function's are its own.
    let loops = |count: usize| times(count, &for_("i", none(), &[]));
    let inner = def("g", &[], &loops(200));
    vec![
        script("slots-main-loops", &loops(300)),
        script(
            "slots-loops-apart",
            &[def("f", &[], &[loops(200), vec![inner]].concat())],
        ),
        script("slots-main-tuple", &[assign(wide.clone(), none())]),
        script("slots-tuple-300", &[def("f", &[], &[assign(wide, none())])]),
        script("slots-tuple-of-parameters", &[parameters]),
        script("slots-main-300", &main),
        script(
            "slots-attribute-lambda",
            &[def("f", &["zz"], &[in_attribute])],
        ),
        script(
            "slots-lambda-one-over",
            &[def("f", &["zz"], &[ret(unlowered)])],
        ),
    ]
}

/// A word, and what makes statements with so many of something.
type Way<'a> = (&'a str, &'a dyn Fn(usize) -> Vec<Bytes>);

/// Trees with so many of something as a limit allows, and with one more.
fn at_limit(what: &str, limit: usize, ways: &[Way]) -> Vec<Case> {
    let mut cases = Vec::new();
    for (word, stmts) in ways {
        for count in [limit, limit + 1] {
            cases.push(script(&format!("{what}-{count}{word}"), &stmts(count)));
        }
    }
    cases
}

/// A statement for each of so many names.
fn each_name(count: usize, one: impl Fn(&str) -> Bytes) -> Vec<Bytes> {
    many_names(count).iter().map(|name| one(name)).collect()
}

/// So many functions, main among them: defs, lambdas, methods.
fn function_counts(limit: usize) -> Vec<Case> {
    let closure = expr(lambda(&[], none()));
    let methods = |count: usize| {
        let methods = each_name(count - 1, |name| method(name, &["s"], &[]));
        vec![class("A", &methods, &[])]
    };
    let defs = |count: usize| times(count - 1, &def("f", &[], &[]));
    let closures = |count: usize| times(count - 1, &closure);
    let ways: [Way; 3] = [("", &defs), ("-lambdas", &closures), ("-methods", &methods)];
    at_limit("functions", limit, &ways)
}

/// So many symbols, `__main__` among them.
fn symbol_counts(limit: usize) -> Vec<Case> {
    let variables = |count: usize| each_name(count - 1, |name| expr(var(name)));
    at_limit("symbols", limit, &[("", &variables)])
}

/// So many strings and classes, of which office and console take as many.
fn shared_counts() -> Vec<Case> {
    let texts = |count: usize| each_name(count, |name| expr(string(name.as_bytes())));
    let classes = |count: usize| times(count, &class("A", &[], &[]));
    let mut cases = at_limit("strings", OFFICE.strings, &[("", &texts)]);
    cases.extend(at_limit("classes", OFFICE.classes, &[("", &classes)]));
    cases
}

fn table_counts() -> Vec<Case> {
    let mut cases = function_counts(OFFICE.functions);
    cases.extend(shared_counts());
    cases.extend(symbol_counts(OFFICE.symbols));
    cases
}

/// So many of what the console takes fewer of.
fn console_counts() -> Vec<Case> {
    let mut cases = function_counts(CONSOLE.functions);
    cases.extend(symbol_counts(CONSOLE.symbols));
    cases.extend(instruction_counts(CONSOLE.instructions));
    cases
}

/// One statement for each question that can be broken by a statement alone, in
/// the order in which they are asked.
pub(crate) fn faults() -> Vec<(u8, Bytes)> {
    let names = many_names(256);
    let all = borrowed(&names);
    let wide = def("f", &all[..255], &[assign(var(all[255]), none())]);
    let classes = times(65, &class("A", &[], &[]));
    vec![
        (7, expr(var("9"))),
        (33, expr(var("__for_iter_2__"))),
        (8, expr(string(&[128]))),
        (9, break_()),
        (10, assign(none(), none())),
        (36, assign(tuple(&[var("a"), tuple(&[])]), none())),
        (11, def("f", &["a", "a"], &[])),
        (12, class("A", &[method("__init__", &[], &[])], &[])),
        (13, expr(call_name("f", &times(256, &none())))),
        (14, wide),
        (15, if_(&[(none(), classes)], None)),
    ]
}

/// Two faults in both orders: the question asked first answers.
fn pairs_of_faults() -> Vec<Case> {
    let faults = faults();
    let mut cases = Vec::new();
    for (place, (early, first)) in faults.iter().enumerate() {
        for (late, second) in &faults[place + 1..] {
            let name = format!("faults-{early}-{late}");
            cases.push(script(&name, &[first.clone(), second.clone()]));
            let name = format!("faults-{late}-{early}");
            cases.push(script(&name, &[second.clone(), first.clone()]));
        }
        let name = format!("faults-{early}-and-bad-kind");
        cases.push(script(&name, &[first.clone(), vec![99]]));
        let name = format!("faults-{early}-and-depth-33");
        cases.push(script(&name, &[first.clone(), expr(nested_not(31))]));
    }
    cases
}

/// So many instructions: `None` as a statement has two, an empty loop three.
fn instruction_counts(limit: usize) -> Vec<Case> {
    let two = expr(none());
    let three = while_(none(), &[]);
    // the last is the return
    let twos = |count: usize| {
        let odd = (count - 1) % 2;
        [times((count - 1 - 3 * odd) / 2, &two), times(odd, &three)].concat()
    };
    let threes = |count: usize| {
        let rest = [0, 4, 2][(count - 1) % 3];
        [times((count - 1 - rest) / 3, &three), times(rest / 2, &two)].concat()
    };
    let in_def = |count: usize| vec![def("f", &[], &twos(count - 1))];
    let ways: [Way; 3] = [("", &twos), ("-loops", &threes), ("-in-def", &in_def)];
    at_limit("instructions", limit, &ways)
}

/// Each fault that the office has too, and 65 functions, which the console alone
/// refuses, in both orders.
fn console_faults() -> Vec<Case> {
    let defs = times(CONSOLE.functions, &def("g", &[], &[]));
    let mut cases = Vec::new();
    for (number, fault) in faults() {
        let last = [defs.clone(), vec![fault.clone()]].concat();
        cases.push(script(&format!("console-faults-{number}-last"), &last));
        let first = [vec![fault], defs.clone()].concat();
        cases.push(script(&format!("console-faults-{number}-first"), &first));
    }
    cases
}

/// A module of so many bytes: loops, then a string that fills it.
fn filled(module_length: usize) -> Case {
    let empty = model_length(&filled_stmts(0));
    let text = module_length - empty;
    script(&format!("module-{module_length}"), &filled_stmts(text))
}

fn filled_stmts(text: usize) -> Vec<Bytes> {
    let mut stmts = times(800, &for_("i", none(), &[]));
    stmts.push(expr(string(&vec![b's'; text])));
    stmts
}

fn model_length(stmts: &[Bytes]) -> usize {
    let module = model::lower(&tree(stmts), model::OFFICE, 16_384, 16_384, usize::MAX);
    module.expect("an accepted tree").len()
}

/// A tree of exactly so many bytes.
fn of_length(length: usize) -> Case {
    let empty = tree(&[expr(string(b""))]).len();
    let stmts = [expr(string(&vec![b't'; length - empty]))];
    script(&format!("tree-{length}"), &stmts)
}

/// Lambdas in lambdas that each capture 220 names: far too many instructions.
fn capturing() -> Case {
    let names = many_names(220);
    let all = borrowed(&names);
    let referenced = list(&all.iter().map(|n| var(n)).collect::<Vec<_>>());
    let chain = expr(nest(|e| lambda(&[], e), 28, referenced));
    script("hostile-captures", &[def("f", &all, &times(31, &chain))])
}

fn long() -> Vec<Case> {
    let chain = expr(nest(|e| lambda(&[], e), 30, none()));
    let mut wrong_header = of_length(MAX_TREE + 1).tree;
    wrong_header[3] ^= 1;
    vec![
        script("hostile-functions", &times(350, &chain)),
        capturing(),
        filled(65_536),
        filled(65_537),
        of_length(MAX_TREE),
        of_length(MAX_TREE + 1),
        case("tree-32769-bad-header", wrong_header),
    ]
}
