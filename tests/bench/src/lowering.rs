//! The whole lowering, areas and output made once, beside the Rust's compile
//! of the tree that it has ready.

use crate::{line, sample};
use generator::limits::many_names;
use generator::{make, slow};
use rulketoos::{Areas, Limits, Refusal, MODULE_ROOM};
use std::hint::black_box;
use std::time::{Duration, Instant};

/// More than this is too long for any tree.
const LIMIT: Duration = Duration::from_millis(20);

/// More than this is too long for any tree by measured lengths, which walk a part once for each part around it.
const MEASURED_LIMIT: Duration = Duration::from_millis(100);

/// The best time of one call. Each is timed by itself, so that dropping what
/// it gives doesn't count.
fn best_call<T>(mut call: impl FnMut() -> T) -> Duration {
    let mut time = || {
        let started = Instant::now();
        let given = black_box(call());
        let took = started.elapsed();
        drop(given);
        took
    };
    let first = time().max(Duration::from_nanos(50));
    let calls = (Duration::from_millis(150).as_nanos() / first.as_nanos()).clamp(3, 30_000);
    (0..calls).map(|_| time()).min().unwrap_or(first)
}

/// The buffers that every call is lent.
struct Buffers {
    areas: Areas,
    out: Vec<u8>,
}

impl Buffers {
    fn new() -> Self {
        Self {
            areas: Areas::new(),
            out: vec![0; MODULE_ROOM],
        }
    }

    fn lower_by(&mut self, limits: Limits, tree: &[u8]) -> Result<usize, Refusal> {
        rulketoos::lower(black_box(tree), limits, &mut self.areas, &mut self.out)
    }

    fn lower(&mut self, tree: &[u8]) -> Result<usize, Refusal> {
        self.lower_by(Limits::Office, tree)
    }

    fn best(&mut self, tree: &[u8]) -> Duration {
        best_call(|| self.lower(tree))
    }

    fn measured(&mut self, tree: &[u8]) -> Result<usize, Refusal> {
        rulketoos::lower_measured(
            black_box(tree),
            Limits::Office,
            &mut self.areas,
            &mut self.out,
        )
    }
}

/// The Rust's time: its tree was read before, and nothing is written.
fn best_compile(tree: &[u8]) -> Duration {
    let ready = oracle::tree::read(tree).expect("a tree");
    best_call(|| oracle::compile(black_box(&ready)))
}

/// The statements of a script so many times.
pub fn repeated(tree: &[u8], times: u16) -> Vec<u8> {
    let count = u16::from_be_bytes([tree[5], tree[6]]);
    let mut rest = vec![1];
    rest.extend((count * times).to_be_bytes());
    rest.extend(tree[7..].repeat(times.into()));
    make::with_header(&rest)
}

fn call_of(args: &[Vec<u8>]) -> Vec<u8> {
    make::tree(&[make::expr(make::call_name("f", args))])
}

/// A def of 1,600 assignments to so many names in turn.
fn assignments(names: usize) -> Vec<u8> {
    let names = many_names(names);
    let one = |n: usize| make::assign(make::var(&names[n % names.len()]), make::none());
    let body: Vec<Vec<u8>> = (0..1_600).map(one).collect();
    make::tree(&[make::def("f", &[], &body)])
}

/// A def of 1,000 pairs unpacked to so many names in turn.
fn pairs(names: usize) -> Vec<u8> {
    let names = many_names(names);
    let name = |n: usize| make::var(&names[n % names.len()]);
    let one = |n: usize| make::assign(make::tuple(&[name(2 * n), name(2 * n + 1)]), make::none());
    let body: Vec<Vec<u8>> = (0..1_000).map(one).collect();
    make::tree(&[make::def("f", &[], &body)])
}

/// A def of so many loops, one after the other.
fn loops(count: usize) -> Vec<u8> {
    let one = make::for_("i", make::var("r"), &[]);
    make::tree(&[make::def("f", &["r"], &make::times(count, &one))])
}

/// A list of so many None.
fn nones(count: usize) -> Vec<u8> {
    let list = make::list(&make::times(count, &make::none()));
    make::tree(&[make::expr(list)])
}

/// So many symbols besides `__main__`.
fn symbols(count: usize) -> Vec<u8> {
    let one = |n: String| make::expr(make::var(&n));
    make::tree(&many_names(count).into_iter().map(one).collect::<Vec<_>>())
}

/// 255 defs, and 3,100 calls of the last.
fn calls_of_the_last() -> Vec<u8> {
    let names = slow::alike(255, 3);
    let mut stmts: Vec<Vec<u8>> = names.iter().map(|n| make::def(n, &[], &[])).collect();
    let call = make::expr(make::call_name(&names[254], &[]));
    stmts.extend(make::times(3_100, &call));
    make::tree(&stmts)
}

fn cases() -> Vec<(&'static str, Vec<u8>)> {
    let script = sample("casing");
    let names: Vec<Vec<u8>> = many_names(200).iter().map(|n| make::var(n)).collect();
    let numbers: Vec<Vec<u8>> = (0..200).map(make::int).collect();
    vec![
        ("a script of 20 lines", script.clone()),
        ("20 such scripts in one tree", repeated(&script, 20)),
        ("57 such scripts in one tree", repeated(&script, 57)),
        ("a script of 20 lines, full of accents", sample("papers")),
        ("a call with 200 arguments, numbers", call_of(&numbers)),
        ("a call with 200 arguments, names", call_of(&names)),
        ("a def of 1,600 assignments to 16 names", assignments(16)),
        ("a def of 1,600 assignments to 250 names", assignments(250)),
        ("a def of 1,000 pairs unpacked to 250 names", pairs(250)),
        ("a def of 250 loops", loops(250)),
        ("a list of 8,189 None", nones(8_189)),
        ("1,024 symbols", symbols(1_023)),
        ("255 defs, 3,100 calls of the last", calls_of_the_last()),
    ]
}

/// Scripts that are accepted, ours beside the Rust's.
pub fn beside_the_rust() {
    println!("lowering, beside the Rust's compile on its ready tree");
    let mut buffers = Buffers::new();
    for (what, tree) in cases() {
        assert!(buffers.lower(&tree).is_ok(), "{what} is accepted");
        line(what, buffers.best(&tree), best_compile(&tree));
    }
    for (what, tree) in [
        ("a script of 20 lines, at the console", sample("casing")),
        ("256 symbols, at the console", symbols(255)),
    ] {
        let mut call = || buffers.lower_by(Limits::Console, &tree);
        assert!(call().is_ok(), "{what} is accepted");
        line(what, best_call(call), best_compile(&tree));
    }
}

/// So many statements, each in the next: what `around` makes of a block.
fn nested(depth: usize, inside: Vec<Vec<u8>>, around: fn(&[Vec<u8>]) -> Vec<u8>) -> Vec<u8> {
    let block = (0..depth).fold(inside, |block, _| vec![around(&block)]);
    make::tree(&block)
}

/// Trees in which much stands deep, so that it is measured again and again.
fn deep() -> Vec<(&'static str, Vec<u8>)> {
    let call = || make::expr(make::call_name("f", &[]));
    let calls = || make::times(2_400, &call());
    let if_ = |block: &[Vec<u8>]| make::if_(&[(make::none(), block.to_vec())], None);
    let while_ = |block: &[Vec<u8>]| make::while_(make::none(), block);
    vec![
        ("2,400 calls in 29 nested ifs", nested(29, calls(), if_)),
        (
            "2,400 calls in 29 nested whiles",
            nested(29, calls(), while_),
        ),
    ]
}

/// Measured lengths beside the lowering that sets its jumps, and how long the slowest tree takes.
pub fn measured() {
    println!("lowering by measured lengths, beside the lowering");
    let mut buffers = Buffers::new();
    let mut worst = (Duration::ZERO, String::new());
    let listed = cases().into_iter().chain(deep());
    let mut all: Vec<_> = listed
        .map(|(what, tree)| (what.to_string(), tree))
        .collect();
    all.extend(slow::all().into_iter().map(|case| (case.name, case.tree)));
    for (what, tree) in all {
        assert_eq!(buffers.measured(&tree), buffers.lower(&tree), "{what}");
        let took = best_call(|| buffers.measured(&tree));
        line(&what, took, buffers.best(&tree));
        worst = worst.max((took, what));
    }
    let (took, name) = worst;
    let within = took <= MEASURED_LIMIT;
    let verdict = if within { "within" } else { "MORE THAN" };
    println!("*** the slowest tree, {name}: {took:.2?}, {verdict} {MEASURED_LIMIT:?} ***");
}

/// Trees that take long, and how long the slowest takes. The Rust isn't asked
/// about those that are refused.
pub fn slow_trees() {
    println!("lowering of trees that take long, beside the same");
    let mut buffers = Buffers::new();
    let mut worst = (Duration::ZERO, String::new());
    let mut cases = slow::all();
    cases.push(generator::samples::case("slow-list-8190", nones(8_190)));
    for case in cases {
        let took = buffers.best(&case.tree);
        match buffers.lower(&case.tree) {
            Ok(_) => line(&case.name, took, best_compile(&case.tree)),
            Err(refusal) => {
                let number = format!("refused {}", refusal.number());
                println!("{:52} {took:>12.2?} {number:>12}", case.name);
            }
        }
        worst = worst.max((took, case.name));
    }
    let (took, name) = worst;
    let verdict = if took <= LIMIT { "within" } else { "MORE THAN" };
    println!("*** the slowest tree, {name}: {took:.2?}, {verdict} {LIMIT:?} ***");
}
