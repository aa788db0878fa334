//! The check of stack heights, beside the model's: plain Rust that reads the
//! module and searches each function, and allocates what it needs.

use crate::{best, line, script};
use generator::reaches;
use rulketoos::HEIGHTS_AREA;
use std::hint::black_box;

pub fn checks() {
    println!("stack heights (1, 17 to 21, 37), beside plain Rust");
    let lowered = rulketoos::lower_to_vec(&script(), rulketoos::Limits::Office).expect("accepted");
    let mut cases = vec![("a script of 30 lines".to_string(), lowered)];
    cases.extend(reaches::large().into_iter().map(|c| (c.name, c.module)));
    let mut area = vec![0; HEIGHTS_AREA];
    for (what, module) in cases {
        let model = || model::heights(black_box(&module), HEIGHTS_AREA).is_ok();
        let mut ours = || rulketoos::heights(black_box(&module), &mut area).is_ok();
        assert_eq!(ours(), model());
        line(&what, best(ours), best(model));
    }
}
