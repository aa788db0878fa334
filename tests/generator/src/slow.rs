//! Trees of the greatest length that take long to lower: many names to look
//! up, lambdas and tuples in each other, parts that are read again and again.

use crate::limits::{borrowed, many_names, nest, Wrap, MAX_TREE};
use crate::make::*;
use crate::samples::{script, Case};

/// All of them. None is longer than a tree may be; some are refused by 13 to 15.
pub fn all() -> Vec<Case> {
    let mut cases = names();
    cases.extend(texts());
    cases.extend(lambdas());
    cases.extend(nested());
    cases.extend(stores());
    cases.extend(targets());
    cases.extend(methods());
    cases.extend(parameters());
    cases.extend(tried());
    cases
}

/// So many names of that length, alike but at their ends.
pub fn alike(count: usize, length: usize) -> Vec<String> {
    const DIGITS: &[u8] = b"abcdefghijklmnopqrstuvwxyzABCDEFGHIJKLMNOPQRSTUVWXYZ0123456789_";
    let digit = |n: usize| char::from(DIGITS[n % DIGITS.len()]);
    let ends = |n: usize| format!("{}{}", digit(n / DIGITS.len()), digit(n));
    (0..count)
        .map(|n| format!("{}{}", "a".repeat(length - 2), ends(n)))
        .collect()
}

/// How many items of that size still fit a tree that has this statement.
fn room(stmt: &[u8], item: usize) -> usize {
    (MAX_TREE - 7 - stmt.len()) / item
}

/// A statement with a list that fills the tree: first these items, then the
/// last again and again, at most so many in all.
fn filled(items: &[Bytes], most: usize, hold: impl Fn(&[Bytes]) -> Bytes) -> Bytes {
    let last = items.last().expect("an item");
    let again = room(&hold(items), last.len()).min(most - items.len());
    let mut all = items.to_vec();
    all.extend(times(again, last));
    hold(&all)
}

fn variables(names: &[String]) -> Vec<Bytes> {
    names.iter().map(|n| var(n)).collect()
}

/// A list as a statement: one instruction an item, and three.
fn listed(items: &[Bytes]) -> Bytes {
    expr(list(items))
}

/// The same names with their ends in front.
fn turned(names: Vec<String>) -> Vec<String> {
    let turn = |name: String| {
        let (head, end) = name.split_at(name.len() - 2);
        format!("b{end}{head}")
    };
    names.into_iter().map(turn).collect()
}

/// So many names of the same twelve letters, each in another order.
fn anagrams(count: usize) -> Vec<String> {
    let order = |n: usize| {
        let bit = |k: usize| if n >> k & 1 == 1 { "ab" } else { "ba" };
        (0..10).map(bit).collect()
    };
    (0..count).map(order).collect()
}

/// Most symbols there may be, and as many look-ups of the last as fit.
fn names() -> Vec<Case> {
    let mut lists = vec![
        ("2", many_names(1_023)),
        ("64", alike(480, 64)),
        ("front", turned(alike(1_023, 10))),
        ("anagrams", anagrams(1_023)),
    ];
    for (word, length) in [("3", 3), ("5", 5), ("10", 10), ("29", 29)] {
        lists.push((word, alike(1_023, length)));
    }
    let mut cases = Vec::new();
    for (word, names) in lists {
        let fitting = (MAX_TREE - 20) / (names[0].len() + 2);
        let names = &names[..names.len().min(fitting)];
        let stmt = filled(&variables(names), 8_189, listed);
        cases.push(script(&format!("slow-names-{word}"), &[stmt]));
    }
    // Calls look their names up twice.
    let calls: Vec<Bytes> = alike(1_023, 3).iter().map(|n| call_name(n, &[])).collect();
    let stmt = filled(&calls, 4_094, listed);
    cases.push(script("slow-names-calls", &[stmt]));
    // Where a name has no slot among 255, symbols are looked at too.
    let slots = many_names(255);
    let names = variables(&alike(1_021, 3));
    let stmt = filled(&names, 8_189, |items| {
        def("f", &borrowed(&slots), &[listed(items)])
    });
    cases.push(script("slow-names-in-def", &[stmt]));
    // Each loop looks four made names up.
    let mut stmts = vec![listed(&variables(&many_names(300)))];
    stmts.extend(times(650, &for_("i", none(), &[])));
    cases.push(script("slow-names-loops", &stmts));
    cases
}

/// Most strings there may be, alike but at their ends.
fn texts() -> Vec<Case> {
    let mut cases = Vec::new();
    for length in [3, 10, 30, 60] {
        let strings: Vec<Bytes> = alike(512, length)
            .iter()
            .map(|n| string(n.as_bytes()))
            .collect();
        let stmt = filled(&strings, 8_189, listed);
        cases.push(script(&format!("slow-strings-{length}"), &[stmt]));
    }
    for (word, character) in [("2", "é"), ("3", "和"), ("4", "🗞")] {
        let strings: Vec<Bytes> = alike(512, 3)
            .iter()
            .map(|n| string(n.replace('a', &character.repeat(10)).as_bytes()))
            .collect();
        let stmt = filled(&strings, 8_189, listed);
        cases.push(script(&format!("slow-strings-of-{word}-bytes"), &[stmt]));
    }
    cases
}

/// Lambdas 29 deep around many names of the parent's slots.
fn lambdas() -> Vec<Case> {
    let mut cases = Vec::new();
    // (captures, names looked up): within 8,192 instructions, and past them
    for (slots, most) in [(136, 4_000), (250, 500), (250, 8_000)] {
        for length in [2, 5] {
            let names = if length == 2 {
                many_names(slots)
            } else {
                alike(slots, length)
            };
            let hold = |items: &[Bytes]| {
                let chain = nest(|e| lambda(&[], e), 28, list(items));
                def("f", &borrowed(&names), &[ret(chain)])
            };
            let stmt = filled(&variables(&names), most.min(8_000), hold);
            cases.push(script(
                &format!("slow-lambdas-{slots}-{most}-{length}"),
                &[stmt],
            ));
        }
    }
    for (params, length) in [(55, 16), (120, 3)] {
        cases.push(lambdas_with_parameters(params, length));
    }
    cases.push(lambdas_in_wide_def());
    for (slots, most) in [(136, 4_000), (250, 8_000)] {
        for hidden in [1, 8] {
            cases.push(lambdas_that_hide(slots, most, hidden));
        }
    }
    cases.push(lambdas_that_bind("same", 250, 0));
    cases.push(lambdas_that_bind("others", 36, 36));
    cases.push(lambdas_in_lambdas());
    cases.push(lambdas_that_sort());
    cases
}

/// Lambdas 28 deep around many names, each with some of the names as its own
/// parameters.
fn lambdas_that_hide(slots: usize, most: usize, hidden: usize) -> Case {
    let names = many_names(slots);
    let stmt = filled(&variables(&names), most, |items| {
        let hide = |e: Bytes, n: usize| lambda(&borrowed(&names[n * hidden..][..hidden]), e);
        let chain = (0..28).fold(list(items), |e, n| hide(e, n % (slots / hidden)));
        def("f", &borrowed(&names), &[ret(chain)])
    });
    script(&format!("slow-lambdas-hiding-{slots}-{hidden}"), &[stmt])
}

/// Lambdas 28 deep with so many parameters each, those of the next so many
/// names on, around as many names as fit, which the outermost binds.
fn lambdas_that_bind(word: &str, count: usize, on: usize) -> Case {
    let names = many_names(1_024);
    let bound = |n: usize| &names[n * on..][..count];
    let stmt = filled(&variables(bound(27)), 8_000, |items| {
        let chain = (0..28).fold(list(items), |e, n| lambda(&borrowed(bound(n)), e));
        def("f", &["q"], &[ret(chain)])
    });
    script(&format!("slow-lambdas-binding-{word}"), &[stmt])
}

/// Lambdas 27 deep around many names and then small lambdas, each with a
/// parameter of its own.
fn lambdas_in_lambdas() -> Case {
    let names = many_names(250);
    let mut items = variables(&names);
    items.push(lambda(&["q"], none()));
    let stmt = filled(&items, 8_000, |items| {
        let chain = nest(|e| lambda(&[], e), 27, list(items));
        def("f", &borrowed(&names), &[ret(chain)])
    });
    script("slow-lambdas-inner", &[stmt])
}

/// Lambdas that capture 250 names, which stand in falling order.
fn lambdas_that_sort() -> Case {
    let mut names = alike(250, 3);
    names.reverse();
    let one = lambda(&[], list(&variables(&names)));
    let stmt = filled(&[one], 200, |items| {
        def("f", &borrowed(&names), &[listed(items)])
    });
    script("slow-lambdas-sorting", &[stmt])
}

/// Lambdas 28 deep, each with parameters of its own that no name is.
fn lambdas_with_parameters(count: usize, length: usize) -> Case {
    let names = many_names(255 - count);
    let params = alike(count, length);
    let wrap = |e: Bytes| lambda(&borrowed(&params), e);
    let chain = (0..28).fold(list(&variables(&names)), |e, _| wrap(e));
    script(
        &format!("slow-lambdas-parameters-{count}"),
        &[def("f", &borrowed(&names), &[ret(chain)])],
    )
}

/// As many lambdas as fit, each with a name that is the last of 255 slots.
fn lambdas_in_wide_def() -> Case {
    let names = alike(255, 3);
    let one = lambda(&[], var(&names[254]));
    let stmt = filled(&[one], 8_000, |items| {
        def("f", &borrowed(&names), &[listed(items)])
    });
    script("slow-lambdas-many", &[stmt])
}

/// Two lambdas of as many parameters of 64 bytes as fit.
fn wide_lambdas() -> Vec<Bytes> {
    times(2, &lambda(&borrowed(&alike(239, 64)), none()))
}

/// Things that take a while to read again, as items of a list.
fn long_items() -> Vec<(&'static str, Vec<Bytes>)> {
    let names = alike(32, 64);
    vec![
        ("parameters", wide_lambdas()),
        ("parameters-32", vec![lambda(&borrowed(&names), none())]),
        ("lambdas", vec![lambda(&[], var("ab"))]),
        ("names", variables(&alike(900, 3))),
        ("string", vec![string(&vec![b's'; 32_000])]),
        ("accents", vec![string("é".repeat(16_000).as_bytes())]),
    ]
}

/// Defs and classes in each other around something long, in the innermost
/// function or in an attribute of the innermost class.
fn nested() -> Vec<Case> {
    let wraps: [(&str, Wrap, Wrap); 3] = [
        ("defs", |s| def("f", &[], &[s]), expr),
        ("classes", in_class, expr),
        ("attributes", in_class, |e| class("A", &[], &[("a", e)])),
    ];
    let mut cases = Vec::new();
    for (around, wrap, hold) in wraps {
        for (word, items) in long_items() {
            let stmt = filled(&items, 7_900, |items| nest(wrap, 28, hold(list(items))));
            cases.push(script(&format!("slow-{around}-{word}"), &[stmt]));
        }
    }
    cases
}

fn in_class(stmt: Bytes) -> Bytes {
    class("A", &[method("m", &["s"], &[stmt])], &[])
}

/// A def with the most slots, and as many assignments to the last as 15
/// allows, or as fit.
fn stores() -> Vec<Case> {
    let stores = |most: usize| {
        let one = |n: &String| assign(var(n), none());
        let stmts: Vec<Bytes> = alike(255, 3).iter().map(one).collect();
        filled(&stmts, most, |items| def("f", &[], items))
    };
    // The same names by tuple targets of two.
    let pairs = |most: usize| {
        let names = alike(254, 3);
        let one = |two: &[String]| assign(tuple(&variables(two)), none());
        let stmts: Vec<Bytes> = names.chunks(2).map(one).collect();
        filled(&stmts, most, |items| def("f", &[], items))
    };
    vec![
        script("slow-pairs-1023", &[pairs(1_023)]),
        script("slow-pairs-most", &[pairs(8_000)]),
        script("slow-assignments-4095", &[stores(4_095)]),
        script("slow-assignments-most", &[stores(8_000)]),
    ]
}

/// Tuple targets in each other, the inner one first.
fn targets() -> Vec<Case> {
    let inner = |count: usize| tuple(&variables(&alike(count, 62)));
    let with = |many: usize| {
        move |e: Bytes| {
            let mut items = vec![e];
            items.extend(times(many, &var("v")));
            tuple(&items)
        }
    };
    let nest = |many: usize, count: usize| (0..28).fold(inner(count), |e, _| with(many)(e));
    let held = |target: Bytes| def("f", &[], &[assign(target, none())]);
    vec![
        script("slow-targets-31", &[assign(nest(31, 430), none())]),
        script("slow-targets-31-in-def", &[held(nest(31, 250))]),
        script("slow-targets-63-in-def", &[held(nest(63, 250))]),
        script("slow-targets-63", &[assign(nest(63, 250), none())]),
        script(
            "slow-targets-wide",
            &[assign(tuple(&times(2_047, &var("v"))), none())],
        ),
    ]
}

/// Classes with as many methods as there may be, alike but at their ends.
fn methods() -> Vec<Case> {
    let methods = |count: usize, length: usize| {
        let one = |n: &String| method(n, &[], &[]);
        alike(count, length).iter().map(one).collect::<Vec<_>>()
    };
    let few: Vec<Bytes> = alike(63, 60)
        .iter()
        .map(|n| class(n, &methods(4, 60), &[]))
        .collect();
    vec![
        script("slow-methods-255", &[class("A", &methods(255, 64), &[])]),
        script("slow-methods-473", &[class("A", &methods(473, 64), &[])]),
        script("slow-classes-63", &few),
    ]
}

/// Lists of parameters alike but at their ends: 13 refuses the longest.
fn parameters() -> Vec<Case> {
    let list = |count, length| expr(lambda(&borrowed(&alike(count, length)), none()));
    vec![
        script("slow-parameters-255", &times(1, &list(255, 64))),
        script("slow-parameters-500", &[list(500, 64)]),
        script("slow-parameters-990", &[list(990, 32)]),
    ]
}

/// Calls in calls and lists in lists, all of known names, with a lambda or a
/// new name in the innermost: what is tried as plain code comes to it last.
fn tried() -> Vec<Case> {
    let classes = alike(60, 3);
    let mut calls: Vec<Bytes> = classes.iter().map(|n| class(n, &[], &[])).collect();
    calls.push(def("f", &[], &[]));
    let in_calls = |inner: Bytes| (0..29).fold(inner, |e, _| call_name("f", &[e]));
    let mut new_names = calls.clone();
    calls.extend(times(150, &expr(in_calls(lambda(&[], none())))));
    new_names.extend(alike(150, 3).iter().map(|n| expr(in_calls(var(&n[1..])))));
    let in_lists = |inner: Bytes| {
        let mut items = times(270, &var("a"));
        let level = |e: Bytes, _| {
            items.push(e);
            let held = list(&items);
            items.pop();
            held
        };
        (0..29).fold(inner, level)
    };
    vec![
        script("slow-tried-calls", &calls),
        script("slow-tried-names", &new_names),
        script(
            "slow-tried-lists",
            &[expr(var("a")), expr(in_lists(lambda(&[], none())))],
        ),
        script("slow-tried-bucket", &one_bucket(1_800, 2_000)),
    ]
}

/// The bucket of a symbol's name: of two names with one bucket the later is
/// sought from the earlier on.
fn bucket(name: &str) -> u32 {
    let hash = |h: u32, b: u8| (h * 30_011 + u32::from(b)) % 65_536;
    name.bytes().fold(0, hash) % 8_192
}

/// Nearly as many symbols as there may be, the last in the bucket of the first,
/// and so many calls and loads of the last before a lambda in a list in a list.
pub fn one_bucket(calls: usize, loads: usize) -> Vec<Bytes> {
    let named = |c: char| {
        alike(1_000, 3)
            .into_iter()
            .map(move |n| n.replacen('a', &c.to_string(), 1))
    };
    let mut names: Vec<String> = ('a'..='z').flat_map(named).collect();
    let with_same = |first: &String| {
        names
            .iter()
            .position(|n| n != first && bucket(n) == bucket(first))
    };
    let (first, last) = (0..names.len())
        .find_map(|n| Some((n, with_same(&names[n])?)))
        .expect("two names with one bucket");
    let (first, last) = (names[first].clone(), names[last].clone());
    names.retain(|n| *n != first && *n != last);
    names.truncate(1_000);
    names.insert(0, first);
    names.push(last.clone());
    let mut items = times(calls, &call_name(&last, &[]));
    items.extend(times(loads, &var(&last)));
    items.push(lambda(&[], none()));
    vec![listed(&variables(&names)), expr(list(&[list(&items)]))]
}
