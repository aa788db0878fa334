//! Our texts of modules against the model's.

use compare::hex;
use compare::texts::{self, Text, LISTING, SHEET};
use generator::Rng;

const TEXTS: [Text; 2] = [LISTING, SHEET];

fn same(module: &[u8]) {
    for text in TEXTS {
        if let Err(message) = text.compare(module) {
            panic!("{message}\nmodule {}", hex(module));
        }
    }
}

#[test]
fn directed_modules() {
    texts::directed(&mut Rng::new(31), same);
}

#[test]
fn random_and_damaged_modules() {
    texts::random(&mut Rng::new(32), 4_000, same);
}
