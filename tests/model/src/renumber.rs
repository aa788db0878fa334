//! A module as the reference's record has it, for comparison with it.

use crate::instruction as op;
use crate::module::{Function, Module};
use crate::names;
use std::collections::HashMap;

/// The module with slots at or above the arity in defs and methods (not in
/// lambdas) renumbered by first use in the code, and without what the reference
/// has no part in: heights and version, and so the header's count.
pub fn renumber(module: &Module) -> Vec<u8> {
    let mut bytes = module.bytes.to_vec();
    for function in &module.functions {
        let name = module.symbols[usize::from(function.name)];
        if !names::is_lambda(name) {
            renumber_function(&mut bytes, function);
        }
    }
    without_heights(&bytes, &module.functions)
}

/// The two bytes of each height stand before the two of the count of
/// instructions, which stand before the code.
fn without_heights(bytes: &[u8], functions: &[Function]) -> Vec<u8> {
    let mut body = vec![1];
    let mut at = 5;
    for function in functions {
        body.extend(&bytes[at..function.start - 4]);
        at = function.start - 2;
    }
    body.extend(&bytes[at..]);
    let count = u32::try_from(body.len()).expect("32 bits");
    [&count.to_be_bytes(), &body[..]].concat()
}

fn renumber_function(bytes: &mut [u8], function: &Function) {
    let arity = u16::from(function.arity);
    let mut order = HashMap::new();
    for &place in &function.places {
        if !matches!(bytes[place], op::LOAD_LOCAL | op::STORE_LOCAL) {
            continue;
        }
        let slot = u16::from_be_bytes([bytes[place + 1], bytes[place + 2]]);
        if slot < arity {
            continue;
        }
        let next = arity + order.len() as u16;
        let new = *order.entry(slot).or_insert(next);
        bytes[place + 1..place + 3].copy_from_slice(&new.to_be_bytes());
    }
}
