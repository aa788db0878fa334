//! Our code beside the Rust's and beside plain Rust, in one run, as ratios.
//!
//!     cargo run --release --offline -p bench [-- lowering]
//!
//! Each line: what, our time, the other's time, ours by the other's. Times are
//! the best of several rounds.

mod cut;
mod heights;
mod lowering;
mod order;
mod reach;
mod texts;

use generator::{make, modules, random, Rng};
use std::hint::black_box;
use std::time::{Duration, Instant};

/// The best time of one call, over rounds of about a hundredth of a second.
fn best<T>(mut call: impl FnMut() -> T) -> Duration {
    let started = Instant::now();
    black_box(call());
    let once = started.elapsed().max(Duration::from_nanos(50));
    let calls = (Duration::from_millis(10).as_nanos() / once.as_nanos()).clamp(1, 10_000) as u32;
    let mut best = Duration::MAX;
    for _ in 0..15 {
        let started = Instant::now();
        for _ in 0..calls {
            black_box(call());
        }
        best = best.min(started.elapsed() / calls);
    }
    best
}

fn line(what: &str, ours: Duration, other: Duration) {
    let ratio = ours.as_secs_f64() / other.as_secs_f64();
    println!("{what:52} {ours:>12.2?} {other:>12.2?} {ratio:8.2}");
}

/// Parameters `aa`, `ab`, ... as many as a tree of 32,768 bytes holds, in one lambda.
fn many_parameters() -> Vec<u8> {
    let letters: Vec<u8> = (b'a'..=b'z').chain(b'A'..=b'Z').collect();
    let mut names = Vec::new();
    for &a in &letters {
        for &b in &letters {
            for &c in &letters {
                names.push(String::from_utf8(vec![a, b, c]).expect("ASCII"));
            }
        }
    }
    names.truncate(8_180);
    let list: Vec<&str> = names.iter().map(String::as_str).collect();
    make::tree(&[make::expr(make::lambda(&list, make::none()))])
}

/// Names of 64 bytes that differ at their ends only.
fn long_parameters() -> Vec<u8> {
    let names: Vec<String> = (0..500)
        .map(|n| format!("{}{n:04}", "x".repeat(60)))
        .collect();
    let list: Vec<&str> = names.iter().map(String::as_str).collect();
    make::tree(&[make::expr(make::lambda(&list, make::none()))])
}

/// Names of 64 bytes that are a loop's iterator's but for their last digit.
fn nearly_iterators() -> Vec<u8> {
    let name = format!("__for_iter_{}x__", "7".repeat(50));
    let list = make::list(&make::times(490, &make::var(&name)));
    make::tree(&[make::expr(list)])
}

/// A tree that is one string: this character again and again, some 32,000 bytes.
fn one_string(character: char) -> Vec<u8> {
    let text = character.to_string().repeat(32_000 / character.len_utf8());
    make::tree(&[make::expr(make::string(text.as_bytes()))])
}

/// A module of strings of this character, some 500,000 bytes.
fn many_strings(character: char) -> Vec<u8> {
    let text = character.to_string().repeat(60 / character.len_utf8());
    let mut parts = modules::Parts::of(&[]);
    parts.strings = vec![text.into_bytes(); 8_000];
    parts.bytes()
}

/// The strings of a module that was read, by Rust's own UTF-8.
fn plain_strings(module: &[u8]) -> bool {
    let count = usize::from(u16::from_be_bytes([module[16], module[17]]));
    let mut at = 18;
    (0..count).all(|_| {
        let length = usize::from(u16::from_be_bytes([module[at], module[at + 1]]));
        let string = &module[at + 2..at + 2 + length];
        at += 2 + length;
        std::str::from_utf8(string).is_ok()
    })
}

/// The tree of a sample script.
fn sample(name: &str) -> Vec<u8> {
    let folder = std::path::Path::new(env!("CARGO_MANIFEST_DIR")).join("../../samples");
    std::fs::read(folder.join(name).with_extension("tree")).expect(name)
}

fn script() -> Vec<u8> {
    sample("spine")
}

/// Statements of random programs, up to the longest tree.
fn long_tree() -> Vec<u8> {
    let mut rng = Rng::new(3);
    let mut statements = Vec::new();
    let mut count = 0_u16;
    while statements.len() < 28_000 {
        let tree = random::tree(&mut rng);
        let many = u16::from_be_bytes([tree[5], tree[6]]);
        if tree.len() + statements.len() < 32_000 && rulketoos::check(&tree).is_ok() {
            statements.extend_from_slice(&tree[7..]);
            count += many;
        }
    }
    let mut rest = vec![1];
    rest.extend(count.to_be_bytes());
    rest.extend(statements);
    make::with_header(&rest)
}

/// Our check of a tree beside the reading of the same bytes into the Rust's tree.
fn trees() {
    println!("check of a tree (2 to 13, 33, 36), beside reading it into the Rust's tree");
    let cases = [
        ("a script of 30 lines", script()),
        ("random statements, some 30,000 bytes", long_tree()),
        ("8,180 parameters of three letters", many_parameters()),
        (
            "500 parameters of 64 bytes, alike but at the end",
            long_parameters(),
        ),
        (
            "490 names of 64 bytes, nearly iterators'",
            nearly_iterators(),
        ),
        ("a script of 20 lines, full of accents", sample("papers")),
        ("a string of 32,000 bytes, ASCII", one_string('a')),
        ("a string of 32,000 bytes, accents", one_string('é')),
        (
            "a string of 32,000 bytes, three a character",
            one_string('和'),
        ),
        (
            "a string of 32,000 bytes, four a character",
            one_string('🗞'),
        ),
    ];
    for (what, tree) in cases {
        let ours = best(|| rulketoos::check(black_box(&tree)));
        let other = best(|| oracle::tree::read(black_box(&tree)));
        line(what, ours, other);
    }
}

/// Our reader beside the model's.
fn readers() {
    println!("reading a module (17 to 21), beside the model's reader");
    let cases = [
        (
            "the module of that script",
            model::lower(&script(), model::OFFICE, 16_384, 16_384, 65_536).expect("accepted"),
        ),
        (
            "458,827 bytes, nearly all of them code",
            modules::full_of_code(),
        ),
    ];
    for (what, module) in cases {
        let ours = best(|| rulketoos::read(black_box(&module)));
        let other = best(|| model::read(black_box(&module)));
        line(what, ours, other);
    }
    println!("reading a module of strings, beside Rust's own UTF-8 on the strings alone");
    for (what, character) in [
        ("ASCII", 'a'),
        ("accents", 'é'),
        ("three bytes a character", '和'),
    ] {
        let module = many_strings(character);
        assert!(plain_strings(&module) && rulketoos::read(&module).is_ok());
        let ours = best(|| rulketoos::read(black_box(&module)));
        let other = best(|| plain_strings(black_box(&module)));
        line(&format!("8,000 strings, {what}"), ours, other);
    }
}

/// A loop of ten instructions: eight plain ones, a question, a jump back; then Return.
fn loop_of_ten() -> Vec<u8> {
    let mut code = vec![modules::wide(11, 0, &[]); 8];
    code.push(modules::long(29, 1));
    code.push(modules::long(28, -10));
    code.push(vec![33]);
    modules::Parts::of(&code).bytes()
}

/// The same loop over decoded instructions, written plainly.
fn plain_loop(answers: &[u8], budget: u64, events: &mut [u8]) -> (u64, usize) {
    enum Step {
        Plain([u8; 3]),
        Question(usize),
        Jump(usize),
        Return,
    }
    let mut code: Vec<Step> = (0..8).map(|_| Step::Plain([11, 0, 0])).collect();
    code.extend([Step::Question(10), Step::Jump(0), Step::Return]);
    let (mut place, mut steps, mut used, mut at) = (0, 0, 0, 0);
    while steps < budget {
        match &code[place] {
            Step::Plain(bytes) => {
                events[at..at + 3].copy_from_slice(bytes);
                at += 3;
                place += 1;
            }
            Step::Question(to) => {
                let Some(&answer) = answers.get(used) else {
                    break;
                };
                events[at..at + 2].copy_from_slice(&[29, answer]);
                at += 2;
                used += 1;
                place = if answer == 0 { *to } else { place + 1 };
            }
            Step::Jump(to) => place = *to,
            Step::Return => {
                steps += 1;
                break;
            }
        }
        steps += 1;
    }
    (steps, at)
}

/// Our run beside plain Rust.
fn runs() {
    println!("running a loop of ten instructions, beside plain Rust over decoded instructions");
    let module = loop_of_ten();
    for count in [10_000, 1_000_000] {
        let answers = vec![1; count];
        let mut events = vec![0; 26 * (count + 1)];
        let budget = 10 * (count as u64 + 1);
        let mut run = || {
            let run = rulketoos::run(&module, 0, black_box(&answers), budget, &mut events);
            run.expect("accepted").steps
        };
        let ours = best(&mut run);
        let mut copy = vec![0; 26 * (count + 1)];
        let other = best(|| plain_loop(black_box(&answers), budget, &mut copy));
        let (steps, _) = plain_loop(&answers, budget, &mut copy);
        assert_eq!(run(), steps);
        assert_eq!(events, copy);
        line(&format!("{count} answers, {steps} steps"), ours, other);
    }
}

fn main() {
    assert!(oracle::ready("bench"), "the Rust stands beside ours here");
    println!("{:52} {:>12} {:>12} {:>8}", "", "ours", "other", "ratio");
    lowering::beside_the_rust();
    lowering::slow_trees();
    lowering::measured();
    if std::env::args().any(|word| word == "lowering") {
        return;
    }
    trees();
    readers();
    texts::listings();
    texts::sheets();
    heights::checks();
    order::pairs();
    cut::cuts();
    reach::last_places();
    runs();
}
