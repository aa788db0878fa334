//! The model's answers that bring a run to a place, against all answer lists.

use generator::modules::{long, Parts};
use generator::{modules, random, reaches, Rng};
use model::module::{Function, Module};
use model::reach::{questions, Reached, AREA};
use model::run::places_met;

/// All lists of so many answers.
fn lists(length: usize) -> impl Iterator<Item = Vec<u8>> {
    let answer = |number: usize, at: usize| (number >> at & 1) as u8;
    (0..1_usize << length).map(move |number| (0..length).map(|at| answer(number, at)).collect())
}

/// The places that some list of answers reaches: all lists of two more answers
/// than there are questions. A run with fewer answers is the beginning of one
/// with more.
fn reached_by_lists(module: &Module, function: &Function) -> Vec<bool> {
    let mut reached = vec![false; function.places.len()];
    for answers in lists(questions(module, function) + 2) {
        for place in places_met(module, function, &answers) {
            reached[place] = true;
        }
    }
    reached
}

/// How many places of the module's functions with few questions are reached,
/// and how many aren't.
fn same_as_all_lists(module: &[u8]) -> [usize; 2] {
    let mut seen = [0; 2];
    let Ok(read) = model::module::read(module) else {
        return seen;
    };
    for function in &read.functions {
        let most = questions(&read, function);
        if most > 8 {
            continue;
        }
        let model = Reached::of(&read, function);
        for (place, reached) in reached_by_lists(&read, function).into_iter().enumerate() {
            let list = model.list(place);
            assert_eq!(list.is_some(), reached, "place {place}, {module:02x?}");
            seen[usize::from(!reached)] += 1;
            if let Some(list) = list {
                assert!(list.len() <= most, "place {place}, {module:02x?}");
                assert!(places_met(&read, function, &list).any(|met| met == place));
            }
        }
    }
    seen
}

#[test]
fn all_lists_on_small_modules() {
    let mut rng = Rng::new(41);
    let mut seen = [0; 2];
    let mut visit = |module: &[u8]| {
        let [reached, not] = same_as_all_lists(module);
        seen = [seen[0] + reached, seen[1] + not];
    };
    for case in reaches::small().into_iter().chain(modules::all()) {
        if case.module.len() < 2_000 {
            visit(&case.module);
        }
    }
    for _ in 0..3_000 {
        visit(&modules::random(&mut rng).bytes());
    }
    for _ in 0..300 {
        if let Ok(module) = model::lower(
            &random::tree(&mut rng),
            model::OFFICE,
            16_384,
            16_384,
            65_536,
        ) {
            visit(&module);
        }
    }
    assert!(seen[0] > 20_000 && seen[1] > 5_000, "{seen:?}");
}

/// The first function's place, with a buffer of ten.
fn reach(code: &[Vec<u8>], place: u64) -> Result<Option<Vec<u8>>, u8> {
    model::reach(&Parts::of(code).bytes(), 0, place, AREA, 10)
}

#[test]
fn lists_spelled_out() {
    // a loop: its question at 0, its body at 1, Return at 3
    let round = [long(29, 2), vec![7], long(28, -3)];
    let expected: [Result<Option<&[u8]>, u8>; 5] = [
        Ok(Some(&[0])),
        Ok(Some(&[1])),
        Ok(Some(&[1])),
        Ok(Some(&[0])),
        Err(34),
    ];
    for (place, expected) in (0..).zip(expected) {
        let expected = expected.map(|list| list.map(<[u8]>::to_vec));
        assert_eq!(reach(&round, place), expected, "{place}");
    }
    assert_eq!(reach(&[vec![7]], 0), Ok(Some(vec![])));
    assert_eq!(reach(&[long(28, -1)], 1), Ok(None));
    assert_eq!(reach(&[long(28, -1)], 1 << 32), Err(34));
}

#[test]
fn questions_of_the_call() {
    let module = Parts::of(&[long(29, 0), long(28, -1)]).bytes();
    assert_eq!(model::reach(&[], 9, 9, AREA - 1, 0), Err(1));
    assert_eq!(model::reach(&[], 9, 9, AREA, 0), Err(17));
    assert_eq!(model::reach(&module, 1, 9, AREA, 0), Err(22));
    assert_eq!(model::reach(&module, 0, 3, AREA, 0), Err(34));
    // 35 is asked before the search, also where there is no list
    assert_eq!(model::reach(&module, 0, 2, AREA, 0), Err(35));
    assert_eq!(model::reach(&module, 0, 2, AREA, 1), Ok(None));
    assert_eq!(model::reach(&module, 0, 1, AREA, 1), Ok(Some(vec![0])));
}
