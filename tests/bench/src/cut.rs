//! A refused tree cut down, beside the same by plain Rust over the model.

use crate::{best, line, long_tree};
use generator::limits::many_names;
use generator::{make, slow, Bytes};
use rulketoos::{Areas, Limits};
use std::hint::black_box;
use std::time::{Duration, Instant};

/// What plain Rust finds: from each start on, stretches a statement shorter than
/// the shortest so far. Where one is refused so are those that go on further.
fn plain(tree: &[u8], limits: model::Limits) -> Bytes {
    let program = model::tree::read(tree).expect("a tree");
    let number = model::plan(tree, limits).err();
    let (mut shortest, mut at) = (&program[..], 0);
    while at < program.len() && shortest.len() > 1 {
        let end = program.len().min(at + shortest.len() - 1);
        let tried = &program[at..end];
        if model::plan(&model::write::tree(tried), limits).err() == number {
            shortest = tried;
        } else {
            at += 1;
        }
    }
    model::write::tree(shortest)
}

/// What a call gives, and its best time, or the first where that is long.
fn timed<T>(mut call: impl FnMut() -> T) -> (T, Duration) {
    let started = Instant::now();
    let given = black_box(call());
    let first = started.elapsed();
    let took = if first < Duration::from_millis(100) {
        best(call)
    } else {
        first
    };
    (given, took)
}

/// 600 statements that are accepted, the last of them in place of another.
fn six_hundred(last: Bytes) -> Vec<u8> {
    let names = many_names(600);
    let one = |name: &String| make::assign(make::var("x"), make::string(name.as_bytes()));
    let mut statements: Vec<Bytes> = names[..500].iter().map(one).collect();
    statements.extend(make::times(99, &make::pass()));
    statements.push(last);
    make::tree(&statements)
}

fn wide_def() -> Bytes {
    let names = many_names(256);
    let bind = |name: &String| make::assign(make::var(name), make::none());
    make::def("f", &[], &names.iter().map(bind).collect::<Vec<_>>())
}

/// 600 statements of so many instructions each.
fn lists(count: usize) -> Vec<u8> {
    let list = make::list(&make::times(count - 2, &make::none()));
    make::tree(&make::times(600, &make::expr(list)))
}

/// 600 statements, two of them in the midst that take long to lower.
fn around_slow() -> Vec<u8> {
    let slow = slow::one_bucket(0, 4_480);
    let short = make::expr(make::list(&make::times(3, &make::none())));
    let half = make::times(299, &short);
    make::tree(&[half.clone(), slow, half].concat())
}

const MS: Duration = Duration::from_millis(1);
const SECOND: Duration = Duration::from_secs(1);

/// As many statements as a tree holds, of two instructions each.
fn most_statements() -> Vec<u8> {
    make::tree(&make::times(16_380, &make::expr(make::none())))
}

/// Trees that are cut down slowly, without plain Rust, which takes minutes.
fn alone(areas: &mut Areas) {
    for (what, tree) in [
        (
            "600 around two that take long to lower, by 15",
            around_slow(),
        ),
        (
            "16,380 statements, as many as fit, by 15",
            most_statements(),
        ),
    ] {
        let mut out = vec![0; tree.len()];
        let (count, took) = timed(|| rulketoos::cut(&tree, Limits::Office, areas, &mut out));
        assert!(count.is_ok_and(|count| count.is_some()) && took < 60 * SECOND);
        println!("{what:52} {took:>12.2?}");
    }
}

/// What is cut down, by the office's limits, and the time that is too long.
fn cases() -> [(&'static str, Vec<u8>, Duration); 5] {
    [
        (
            "600 statements, the last refused by 9",
            six_hundred(make::break_()),
            10 * MS,
        ),
        (
            "600 statements, the last refused by 14",
            six_hundred(wide_def()),
            10 * MS,
        ),
        ("600 of 20 instructions, refused by 15", lists(20), SECOND),
        ("600 of 50 instructions, refused by 15", lists(50), SECOND),
        (
            "random statements, some 30,000 bytes, by 15",
            long_tree(),
            SECOND,
        ),
    ]
}

pub fn cuts() {
    println!("a refused tree cut down (1, 38, 2 to 6), beside plain Rust");
    let mut areas = Areas::new();
    for (what, tree, limit) in cases() {
        let mut out = vec![0; tree.len()];
        let (count, took) =
            timed(|| rulketoos::cut(black_box(&tree), Limits::Office, &mut areas, &mut out));
        let count = count.expect("a tree").expect("refused");
        assert!(took < limit, "{what} takes {took:?}");
        let (wanted, other) = timed(|| plain(black_box(&tree), model::OFFICE));
        assert!(out[..count] == wanted, "{what}");
        line(what, took, other);
    }
    alone(&mut areas);
}
