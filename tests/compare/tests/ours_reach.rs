//! Our answers that bring a run to a place, against the model.

use compare::hex;
use compare::reach::{Asked, Lent};
use generator::{damage, modules, random, reaches, samples, Rng};
use model::reach::{questions, AREA};

fn agreed(answer: Result<(), String>, module: &[u8]) {
    if let Err(message) = answer {
        panic!(
            "{message}\nmodule {}",
            hex(&module[..module.len().min(2_000)])
        );
    }
}

/// Functions and places that are there and aren't, areas and buffers just long
/// enough, longer and too short.
fn calls(lent: &mut Lent, rng: &mut Rng, module: &[u8]) {
    let read = model::module::read(module);
    let functions: &[_] = read.as_ref().map_or(&[], |read| &read.functions);
    let count = functions.len() as u64;
    for function in [
        0,
        1,
        count.wrapping_sub(1),
        count,
        1 << 16,
        1 << 32,
        u64::MAX,
    ] {
        let found = usize::try_from(function)
            .ok()
            .and_then(|n| functions.get(n));
        let length = found.map_or(0, |found| found.places.len()) as u64;
        let asks = match (&read, found) {
            (Ok(read), Some(found)) => questions(read, found),
            _ => 3,
        };
        for place in [
            0,
            length.wrapping_sub(1),
            length,
            1 << 16,
            1 << 32,
            u64::MAX,
        ] {
            let area = *rng.pick(&[AREA, AREA, AREA, AREA + 1, AREA + 999, AREA - 1, 0]);
            let room = *rng.pick(&[asks, asks, asks + 1, asks + 70, asks.saturating_sub(1), 0]);
            let asked = Asked {
                function,
                place,
                area,
                room,
            };
            agreed(lent.compare(module, asked), module);
        }
    }
}

/// Every place of every function of a module that is read.
fn places(lent: &mut Lent, module: &[u8]) {
    let functions = model::module::read(module).map_or(0, |read| read.functions.len());
    for function in 0..functions as u64 {
        agreed(lent.every_place(module, function), module);
    }
}

#[test]
fn directed_modules() {
    let (mut lent, mut rng) = (Lent::default(), Rng::new(42));
    for case in reaches::small().into_iter().chain(modules::all()) {
        if case.module.len() < 2_000 {
            calls(&mut lent, &mut rng, &case.module);
            let copy = damage::damaged(&mut rng, &case.module);
            calls(&mut lent, &mut rng, &copy);
            places(&mut lent, &case.module);
        }
    }
}

/// Functions of the most instructions: both ends, places between them.
#[test]
fn the_most_instructions() {
    let (mut lent, mut rng) = (Lent::default(), Rng::new(43));
    let last = reaches::MOST - 1;
    for case in reaches::large() {
        for place in [
            0,
            1,
            2,
            last / 2,
            last / 2 + 1,
            last - 2,
            last - 1,
            last,
            last + 1,
        ] {
            let asked = Asked {
                function: 0,
                place: place as u64,
                area: AREA,
                room: *rng.pick(&[last, last, last + 5]),
            };
            agreed(lent.compare(&case.module, asked), &case.module);
        }
        let short = Asked {
            function: 0,
            place: 0,
            area: AREA,
            room: last - 1,
        };
        agreed(lent.compare(&case.module, short), &case.module);
    }
}

#[test]
fn random_modules() {
    let (mut lent, mut rng) = (Lent::default(), Rng::new(44));
    for round in 0..1_000 {
        let longest = if round % 10 == 0 { 60 } else { 12 };
        let module = modules::random_of(&mut rng, longest).bytes();
        places(&mut lent, &module);
        calls(&mut lent, &mut rng, &module);
        let copy = damage::damaged(&mut rng, &module);
        places(&mut lent, &copy);
        calls(&mut lent, &mut rng, &copy);
    }
}

/// Lowered modules: a lowered function is often reached in every place.
#[test]
fn lowered_modules() {
    let (mut lent, mut rng) = (Lent::default(), Rng::new(45));
    let starred = samples::starred().into_iter().map(|case| case.tree);
    let mut trees: Vec<Vec<u8>> = starred.collect();
    trees.extend((0..200).map(|_| random::tree(&mut rng)));
    for tree in trees {
        if let Ok(module) = model::lower(&tree, model::OFFICE, 16_384, 16_384, 4_000) {
            places(&mut lent, &module);
            calls(&mut lent, &mut rng, &module);
        }
    }
}
