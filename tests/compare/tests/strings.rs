//! Strings: the model's UTF-8 against Rust's own, and our questions 8 and 19
//! against the model's, on short strings of every kind.

use compare::ours::number;
use generator::make::{class, expr, string, tree};
use generator::modules::Parts;
use generator::texts::TURNS;

fn same_as_rust(bytes: &[u8]) {
    let rust = std::str::from_utf8(bytes).is_ok();
    assert_eq!(model::utf8::well_formed(bytes), rust, "{bytes:02x?}");
}

/// Every string of so many bytes, all of them or those at the ends of ranges.
fn each(bytes: &[u8], length: usize, visit: &mut impl FnMut(&[u8])) {
    fn extend(string: &mut Vec<u8>, bytes: &[u8], length: usize, visit: &mut impl FnMut(&[u8])) {
        if string.len() == length {
            return visit(string);
        }
        for &byte in bytes {
            string.push(byte);
            extend(string, bytes, length, visit);
            string.pop();
        }
    }
    extend(&mut Vec::new(), bytes, length, visit);
}

fn all_bytes() -> Vec<u8> {
    (0..=255).collect()
}

#[test]
fn every_short_string() {
    for length in 0..4 {
        each(&all_bytes(), length, &mut same_as_rust);
    }
    for length in 4..6 {
        each(&TURNS, length, &mut same_as_rust);
    }
}

#[test]
fn every_character() {
    let mut count = 0;
    for scalar in (0..0x11_0000).filter_map(char::from_u32) {
        assert!(model::utf8::well_formed(scalar.to_string().as_bytes()));
        count += 1;
    }
    assert_eq!(count, 0x11_0000 - 0x800);
}

/// Our check of a tree with the string in a statement and one in a class
/// attribute, and our reader on a module with it.
fn ours_is_the_models(bytes: &[u8]) {
    let good = model::utf8::well_formed(bytes);
    let stated = tree(&[expr(string(bytes)), expr(string(b"a"))]);
    let held = tree(&[class("A", &[], &[("a", string(bytes))])]);
    for tree in [stated, held] {
        let expected = if good { Ok(()) } else { Err(8) };
        assert_eq!(model::check(&tree), expected, "{bytes:02x?}");
        assert_eq!(
            rulketoos::check(&tree).map_err(number),
            expected,
            "{bytes:02x?}"
        );
    }
    let mut parts = Parts::of(&[]);
    parts.strings.push(bytes.to_vec());
    let module = parts.bytes();
    let expected = if good { Ok(()) } else { Err(19) };
    assert_eq!(model::read(&module), expected, "{bytes:02x?}");
    assert_eq!(
        rulketoos::read(&module).map_err(number),
        expected,
        "{bytes:02x?}"
    );
}

#[test]
fn ours_on_short_strings() {
    for length in 0..3 {
        each(&all_bytes(), length, &mut ours_is_the_models);
    }
    for length in 3..5 {
        each(&TURNS, length, &mut ours_is_the_models);
    }
}
