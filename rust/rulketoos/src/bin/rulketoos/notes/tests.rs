//! Notes on every module of the vectors that is accepted: the listing's lines are there, a line a function, a line a class.

use super::noted;
use crate::vectors;

/// How many lines tell of functions and of classes; all others are the listing's, each with a note or none.
fn heads(module: &[u8]) -> Option<[usize; 2]> {
    let listing = rulketoos::list_to_string(module).ok()?;
    let text = noted(module, &listing);
    let mut lines = listing.lines();
    let mut heads = [0; 2];
    for shown in text.lines() {
        if shown.starts_with("function ") {
            heads[0] += 1;
        } else if shown.starts_with("class ") {
            heads[1] += 1;
        } else {
            let line = lines.next().expect("a line of the listing");
            assert!(shown.starts_with(line.trim_end()), "{shown}");
        }
    }
    assert_eq!(lines.next(), None);
    Some(heads)
}

#[test]
fn modules_of_the_vectors() {
    let mut seen = 0;
    for module in vectors::records("modules.txt") {
        let Some([functions, _]) = heads(&module) else {
            continue;
        };
        let exists = |&number: &u64| rulketoos::code(&module, number).is_ok();
        assert_eq!(functions, (0..).take_while(exists).count(), "{module:?}");
        seen += 1;
    }
    assert!(seen > 200, "only {seen} modules");
}

/// Names of foreign modules may have any bytes: no terminal is led astray.
#[test]
fn names_of_any_bytes() {
    // a symbol of Escape and a line feed, which function 0 loads; a class `A` with a method `m`
    let module = [
        &[0, 0, 0, 37, 2, 0, 1, 2, 0x1b, b'\n', 0, 0, 0, 1][..],
        &[0, 0, 0, 0, 0, 0, 1, 0, 2, 11, 0, 0, 33],
        &[0, 1, 1, b'A', 0, 1, 1, b'm', 0, 0, 0, 1, 0, 0],
    ]
    .concat();
    let listing = rulketoos::list_to_string(&module).expect("accepted");
    let shown = noted(&module, &listing);
    let lines: Vec<&str> = shown.lines().collect();
    assert_eq!(
        lines[1],
        "function 0 \\x1b\\n: 0 parameters, 0 slots, height 1"
    );
    assert!(lines[2].ends_with("0      \\x1b\\n"), "{shown}");
    assert_eq!(lines[4], "class 0 A: m is function 0");
    assert_eq!(heads(&module), Some([1, 1]));
}
