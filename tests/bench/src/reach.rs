//! Answers that bring a run to a place, beside the model's: plain Rust that
//! reads the module, runs with one more answer at a time and allocates what it
//! needs.

use crate::{best, line, script};
use generator::reaches;
use rulketoos::REACH_AREA;
use std::hint::black_box;

/// The last place of a script's main, and of functions of the most
/// instructions: with no question, and with a yes to each.
fn cases() -> Vec<(String, Vec<u8>)> {
    let lowered = rulketoos::lower_to_vec(&script(), rulketoos::Limits::Office).expect("accepted");
    let mut cases = vec![("main of a script of 30 lines".to_string(), lowered)];
    for case in reaches::large() {
        let what = match case.name.as_str() {
            "reach-most-straight" => "65,535 instructions, no question",
            "reach-most-again" => "65,534 questions, a yes to each",
            _ => continue,
        };
        cases.push((what.to_string(), case.module));
    }
    cases
}

pub fn last_places() {
    println!("answers to the last place (1, 17 to 22, 34, 35), beside plain Rust");
    let (mut area, mut answers) = (vec![0; REACH_AREA], vec![0; reaches::MOST]);
    for (what, module) in cases() {
        let read = model::module::read(&module).expect("accepted");
        let place = read.functions[0].places.len() as u64 - 1;
        let model = || model::reach(black_box(&module), 0, place, REACH_AREA, reaches::MOST);
        let mut ours = || {
            let found = rulketoos::reach(black_box(&module), 0, place, &mut area, &mut answers);
            found.expect("accepted").map(<[u8]>::len)
        };
        let list = model().expect("accepted").expect("answers");
        assert_eq!(ours(), Some(list.len()));
        line(&what, best(ours), best(model));
    }
}
