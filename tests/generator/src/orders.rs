//! Pairs of trees for the order: alike but for `pass` and class attributes, and
//! apart in one part.

use crate::make::{self, Bytes};
use crate::samples;
use crate::Rng;
use model::write::Writer;

/// Two trees to be put in order.
pub struct OrderCase {
    pub name: String,
    pub first: Bytes,
    pub second: Bytes,
}

pub fn order_case(name: &str, first: Bytes, second: Bytes) -> OrderCase {
    OrderCase {
        name: format!("order-{name}"),
        first,
        second,
    }
}

fn pair(name: &str, first: Vec<Bytes>, second: Vec<Bytes>) -> OrderCase {
    order_case(name, make::tree(&first), make::tree(&second))
}

/// One of each kind of statement that holds blocks, with these blocks.
fn nested(body: Vec<Bytes>) -> Vec<Bytes> {
    let condition = make::var("c");
    let arms = [
        (condition.clone(), body.clone()),
        (make::none(), body.clone()),
    ];
    vec![
        make::if_(&arms, Some(&body)),
        make::while_(condition.clone(), &body),
        make::for_("i", condition, &body),
        make::def("f", &["a"], &body),
        make::class("C", &[make::method("m", &["s"], &body)], &[]),
    ]
}

/// A statement that is a string.
fn string(text: &str) -> Bytes {
    make::expr(make::string(text.as_bytes()))
}

/// `if None: ..` without statements, with this else block or none.
fn bare_if(otherwise: Option<&[Bytes]>) -> Vec<Bytes> {
    vec![make::if_(&[(make::none(), vec![])], otherwise)]
}

/// A class with a method of one statement, and these attributes.
fn class_of(statement: &Bytes, attributes: &[(&str, Bytes)]) -> Vec<Bytes> {
    let method = make::method("m", &[], std::slice::from_ref(statement));
    vec![make::class("C", &[method], attributes)]
}

/// Pairs that are equal.
fn equal() -> Vec<OrderCase> {
    let (none, pass) = (make::expr(make::none()), make::pass());
    let padded = vec![pass.clone(), none.clone(), pass.clone()];
    let attributes = [("a", make::int(1)), ("b", make::none())];
    vec![
        pair("empty", vec![], vec![]),
        pair("pass-alone", vec![], vec![pass.clone(), pass.clone()]),
        pair(
            "pass-before",
            vec![none.clone()],
            vec![pass.clone(), none.clone()],
        ),
        pair(
            "pass-behind",
            vec![none.clone()],
            vec![none.clone(), pass.clone()],
        ),
        pair("nested-pass", nested(vec![none.clone()]), nested(padded)),
        pair("nested-pass-alone", nested(vec![]), nested(vec![pass])),
        pair(
            "attributes",
            class_of(&none, &[]),
            class_of(&none, &attributes),
        ),
    ]
}

/// Pairs that differ in one part.
fn apart() -> Vec<OrderCase> {
    let (none, x, pass) = (
        make::expr(make::none()),
        make::expr(make::var("x")),
        make::pass(),
    );
    let int = |value: i64| vec![make::expr(make::int(value))];
    let def = |name: &str, param: &str| vec![make::def(name, &[param], &[])];
    vec![
        // a longer rest that begins lower
        pair("shorter-first", vec![x.clone()], make::times(3, &none)),
        pair(
            "proper-beginning",
            vec![none.clone()],
            make::times(2, &none),
        ),
        pair(
            "unsigned",
            vec![string("z"), none.clone()],
            vec![string("é"), none.clone()],
        ),
        pair(
            "unsigned-same-length",
            vec![string("zz")],
            vec![string("é")],
        ),
        pair("last-byte", int(1), int(2)),
        pair("else-of-pass", bare_if(None), bare_if(Some(&[pass]))),
        pair("names", def("a", "x"), def("b", "x")),
        pair("params", def("a", "x"), def("a", "y")),
        pair(
            "methods",
            class_of(&none, &[]),
            class_of(&x, &[("a", make::none())]),
        ),
    ]
}

/// Pairs of which one tree is refused, or both are.
fn refused() -> Vec<OrderCase> {
    let x = make::tree(&[make::expr(make::var("x"))]);
    let broken = make::tree(&[make::break_()]);
    let version = vec![0, 0, 0, 3, 2, 0, 0];
    vec![
        order_case("first-refused", broken.clone(), x.clone()),
        order_case("second-refused", x, broken.clone()),
        order_case("both-refused", broken.clone(), version.clone()),
        order_case("both-refused-turned", version, broken),
    ]
}

/// Pairs made by hand, and each starred sample beside itself.
pub fn all() -> Vec<OrderCase> {
    let mut cases = equal();
    cases.extend(apart());
    cases.extend(refused());
    for (number, case) in samples::starred().into_iter().enumerate() {
        let name = format!("sample-{number}");
        cases.push(order_case(&name, case.tree.clone(), case.tree));
    }
    cases
}

/// The tree with Pass statements put in at random; the tree itself where it
/// doesn't read.
pub fn padded(rng: &mut Rng, tree: &[u8]) -> Bytes {
    let Ok(program) = model::tree::read(tree) else {
        return tree.to_vec();
    };
    let passes = &mut || rng.below(3);
    let rest = false;
    Writer { rest, passes }.tree(&program)
}

/// The tree with one byte raised so that it is accepted still: another name,
/// number, operator or kind; the tree itself where no such byte is found.
pub fn nudged(rng: &mut Rng, tree: &[u8]) -> Bytes {
    let after_counts = tree.len().saturating_sub(7);
    if after_counts == 0 {
        return tree.to_vec();
    }
    for _ in 0..300 {
        let mut copy = tree.to_vec();
        let place = 7 + rng.below(after_counts);
        copy[place] = copy[place].wrapping_add(1);
        if model::plan(&copy, model::OFFICE).is_ok() {
            return copy;
        }
    }
    tree.to_vec()
}
