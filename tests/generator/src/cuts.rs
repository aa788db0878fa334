//! Trees to be cut down: refused by one statement, by a run of several, or not
//! at all.

use crate::limits::{faults, many_names};
use crate::make::{self, Bytes};
use crate::samples;
use crate::Rng;
use model::{Limits, CONSOLE, OFFICE};
use std::slice::from_ref;

/// A tree, the limits that question 15 is asked by, and the room of the output.
pub struct CutCase {
    pub name: String,
    pub limits: Limits,
    pub tree: Bytes,
    pub room: usize,
}

/// A case whose output has just the room that 38 asks for.
pub fn cut_case(name: &str, limits: Limits, tree: Bytes) -> CutCase {
    CutCase {
        name: format!("cut-{name}"),
        limits,
        room: tree.len(),
        tree,
    }
}

/// The name of a set of limits.
pub fn set(limits: Limits) -> &'static str {
    if limits == OFFICE {
        "office"
    } else {
        "console"
    }
}

fn case(name: &str, limits: Limits, statements: &[Bytes]) -> CutCase {
    cut_case(name, limits, make::tree(statements))
}

/// Cases made by hand.
pub fn all() -> Vec<CutCase> {
    let mut cases = taken();
    cases.extend(singles());
    cases.extend(pairs());
    cases.extend(layouts());
    cases.extend(rooms());
    cases.extend(starts());
    for limits in [CONSOLE, OFFICE] {
        for table in TABLES {
            cases.extend(runs(table, limits));
        }
    }
    cases
}

fn plain() -> Bytes {
    make::expr(make::var("x"))
}

/// A statement of these statements; it gives 9 the same answer that they give.
fn held(statements: &[Bytes]) -> Bytes {
    make::if_(&[(make::none(), statements.to_vec())], None)
}

fn def(body: &[Bytes]) -> Bytes {
    make::def("f", &[], body)
}

/// The starred samples: some are refused.
fn taken() -> Vec<CutCase> {
    let mut cases = Vec::new();
    for sample in samples::starred() {
        for limits in [OFFICE, CONSOLE] {
            let name = format!("{}-{}", sample.name, set(limits));
            cases.push(cut_case(&name, limits, sample.tree.clone()));
        }
    }
    cases
}

/// Each fault alone, between other statements, and in two statements: the
/// earliest of equals is what remains.
fn singles() -> Vec<CutCase> {
    let mut cases = Vec::new();
    for (number, fault) in faults() {
        let fault = || fault.clone();
        let deep = || def(&[plain(), fault()]);
        let shapes = [
            ("alone", vec![fault()]),
            ("first", vec![fault(), plain()]),
            ("last", vec![plain(), make::pass(), fault()]),
            ("between", vec![plain(), fault(), plain()]),
            ("twice", vec![plain(), fault(), fault()]),
            ("deep-first", vec![plain(), deep(), fault()]),
            ("deep-last", vec![fault(), plain(), deep()]),
        ];
        for (shape, statements) in shapes {
            cases.push(case(&format!("{number}-{shape}"), OFFICE, &statements));
        }
    }
    cases
}

/// The later of two questions first, in statements of their own and in one: what
/// remains is refused by the earlier one.
fn pairs() -> Vec<CutCase> {
    let faults = faults();
    let mut cases = Vec::new();
    for (place, (early, first)) in faults.iter().enumerate() {
        for (late, second) in &faults[place + 1..] {
            let apart = [second.clone(), plain(), first.clone()];
            cases.push(case(&format!("{late}-{early}"), CONSOLE, &apart));
            let both = [second.clone(), held(&[second.clone(), first.clone()])];
            cases.push(case(&format!("{late}-{early}-in-one"), OFFICE, &both));
        }
    }
    cases
}

/// Refusals 2 to 6 are passed on, whatever else is wrong.
fn layouts() -> Vec<CutCase> {
    let broken = make::tree(&[make::break_(), plain()]);
    let changed = |place: usize, byte: u8| {
        let mut copy = broken.clone();
        copy[place] = byte;
        copy
    };
    let deep = make::expr(samples::nested_not(31));
    let at_limit = make::expr(samples::nested_not(30));
    vec![
        cut_case("no-bytes", OFFICE, vec![]),
        cut_case("cut-short", OFFICE, broken[..broken.len() - 1].to_vec()),
        cut_case("version", OFFICE, changed(4, 2)),
        cut_case("kind", OFFICE, changed(8, 11)),
        cut_case("one-more", OFFICE, changed(6, 3)),
        cut_case("one-less", OFFICE, changed(6, 1)),
        case("depth-33", OFFICE, &[make::break_(), deep]),
        case("depth-32", OFFICE, &[at_limit, make::break_()]),
    ]
}

/// 38 is asked of the whole tree, after 1 and before 2 to 6.
fn rooms() -> Vec<CutCase> {
    let trees = [
        (
            "refused",
            make::tree(&[plain(), make::break_(), make::pass()]),
        ),
        ("taken", make::tree(&[plain()])),
        ("version", vec![0, 0, 0, 3, 2, 0, 0]),
        ("kind", make::tree(&[vec![99]])),
    ];
    let mut cases = Vec::new();
    for (word, tree) in trees {
        let length = tree.len();
        for room in [0, length - 1, length, length + 5] {
            let name = format!("room-{word}-{room}");
            let case = cut_case(&name, OFFICE, tree.clone());
            cases.push(CutCase { room, ..case });
        }
    }
    cases
}

/// What a table of question 15 holds.
#[derive(Clone, Copy, PartialEq, Eq)]
pub enum Table {
    Functions,
    Symbols,
    Strings,
    Classes,
    Instructions,
}

pub const TABLES: [Table; 5] = [
    Table::Functions,
    Table::Symbols,
    Table::Strings,
    Table::Classes,
    Table::Instructions,
];

impl Table {
    fn word(self) -> &'static str {
        match self {
            Table::Functions => "functions",
            Table::Symbols => "symbols",
            Table::Strings => "strings",
            Table::Classes => "classes",
            Table::Instructions => "instructions",
        }
    }

    fn limit(self, limits: Limits) -> usize {
        match self {
            Table::Functions => limits.functions,
            Table::Symbols => limits.symbols,
            Table::Strings => limits.strings,
            Table::Classes => limits.classes,
            Table::Instructions => limits.instructions,
        }
    }

    /// A statement with so many of it; those of symbols and strings are numbered
    /// from a number on. An instruction more drops the value of the statement.
    fn statement(self, count: usize, from: usize) -> Bytes {
        let names = || many_names(from + count).split_off(from);
        let listed = |items: Vec<Bytes>| make::expr(make::list(&items));
        match self {
            Table::Functions => listed(make::times(count, &make::lambda(&[], make::none()))),
            Table::Symbols => listed(names().iter().map(|name| make::var(name)).collect()),
            Table::Strings => {
                let text = |name: &String| make::string(name.as_bytes());
                listed(names().iter().map(text).collect())
            }
            Table::Classes => held(&make::times(count, &make::class("A", &[], &[]))),
            // the list is made, and dropped
            Table::Instructions => listed(make::times(count.saturating_sub(2), &make::none())),
        }
    }
}

/// Runs that take a table over its limit: even statements, of which a run from
/// the first on is the cut; shorter runs behind longer ones; the last ones; one.
fn runs(table: Table, limits: Limits) -> Vec<CutCase> {
    let limit = table.limit(limits);
    let even = |count: usize, part: usize, from: usize| -> Vec<Bytes> {
        let one = |n| table.statement(part, from + n * part);
        (0..count).map(one).collect()
    };
    let whole = || even(10, limit / 10 + 1, 0);
    let spaced = |statements: Vec<Bytes>| -> Vec<Bytes> {
        let pair = |statement| [make::pass(), statement];
        statements.into_iter().flat_map(pair).collect()
    };
    let later = [even(12, limit / 10, 0), even(8, limit / 6, 2 * limit)].concat();
    let last = [even(6, limit / 20, 0), even(3, limit / 3 + 1, limit)].concat();
    let single = [even(4, limit / 5, 0), even(1, limit + 1, 0), vec![plain()]].concat();
    let again = [even(8, limit / 10, 0), even(12, limit / 10, 0)].concat();
    let shapes = [
        ("even", even(14, limit / 10, 0)),
        ("whole", whole()),
        ("spaced", spaced(whole())),
        ("later", later),
        ("last", last),
        ("single", single),
        ("again", again),
        ("under", even(3, limit / 5, 0)),
    ];
    let named = |(shape, statements): (&str, Vec<Bytes>)| {
        let name = format!("{}-{shape}-{}", table.word(), set(limits));
        case(&name, limits, &statements)
    };
    shapes.into_iter().map(named).collect()
}

/// A statement of so many calls of `f`; behind a function of that name it has as
/// many instructions less.
fn calls(count: usize) -> Bytes {
    make::expr(make::list(&make::times(count, &make::call_name("f", &[]))))
}

/// A run may pass 15 and be refused without its first statement.
fn starts() -> Vec<CutCase> {
    let f = || def(&[]);
    let class = make::class("f", &[], &[]);
    let method = make::class("A", &[make::method("f", &[], &[])], &[]);
    let many = |count: usize| make::times(count, &calls(20));
    let begun = |first: Bytes, count: usize| [vec![first], many(count)].concat();
    let between = [many(40), vec![f()], many(110)].concat();
    let twice = [vec![f()], many(60), vec![f()], many(45)].concat();
    let loop_ = make::for_("i", make::var("r"), &[]);
    let loops = make::times(26, &held(&make::times(10, &loop_)));
    vec![
        case("def-before-calls", CONSOLE, &begun(f(), 100)),
        case("def-before-fewer-calls", CONSOLE, &begun(f(), 60)),
        case("class-before-calls", CONSOLE, &begun(class, 60)),
        case("method-before-calls", CONSOLE, &begun(method, 100)),
        case("def-between-calls", CONSOLE, &between),
        case("defs-before-calls", CONSOLE, &twice),
        case("loops-in-main", CONSOLE, &loops),
        case("loops-in-def", CONSOLE, from_ref(&def(&loops))),
    ]
}

/// A random tree with much of a table, and definitions between calls: many are
/// refused by 15.
pub fn random(rng: &mut Rng, limits: Limits) -> Bytes {
    let count = 3 + rng.below(30);
    let much = *rng.pick(&TABLES);
    let statement = |_| {
        let table = if rng.once_in(3) {
            *rng.pick(&TABLES)
        } else {
            much
        };
        let most = 1 + 7 * table.limit(limits) / count;
        match rng.below(9) {
            0 => def(&[calls(rng.below(9))]),
            1 => calls(rng.below(limits.instructions / count)),
            2 => make::class("f", &[make::method("f", &[], &[])], &[]),
            3 => make::pass(),
            _ => table.statement(rng.below(most), rng.below(most)),
        }
    };
    make::tree(&(0..count).map(statement).collect::<Vec<_>>())
}
