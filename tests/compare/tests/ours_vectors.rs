//! The committed vectors, answered by our code.

use compare::ROOM;
use generator::text::{hex, hex_or_dash, unhex};
use rulketoos::{Areas, Limits, Refusal};
use std::cmp::Ordering;

/// The fields of every line of a file of vectors, which are so many.
fn vectors<const N: usize>(file: &str) -> Vec<[String; N]> {
    let folder = std::path::Path::new(env!("CARGO_MANIFEST_DIR")).join("../vectors");
    let text = std::fs::read_to_string(folder.join(file)).expect(file);
    let fields = |line: &str| {
        let fields: Vec<String> = line.split('\t').map(str::to_string).collect();
        fields.try_into().expect("as many fields")
    };
    text.lines().map(fields).collect()
}

fn refused(refusal: Refusal) -> String {
    format!("refused {}", refusal.number())
}

/// The output has the room that the program `lower` has.
#[test]
fn trees() {
    let (mut areas, mut out) = (Areas::new(), vec![0; ROOM]);
    for (file, limits) in [
        ("trees.txt", Limits::Office),
        ("console.txt", Limits::Console),
    ] {
        for [name, tree, answer] in vectors(file) {
            let tree = unhex(&tree).expect(&name);
            let lowered = rulketoos::lower(&tree, limits, &mut areas, &mut out);
            let ours = lowered.map_or_else(refused, |count| hex(&out[..count]));
            assert_eq!(ours, answer, "{name}");
            let lowered = rulketoos::lower_measured(&tree, limits, &mut areas, &mut out);
            let ours = lowered.map_or_else(refused, |count| hex(&out[..count]));
            assert_eq!(ours, answer, "{name}, measured");
        }
    }
}

#[test]
fn modules() {
    for [name, module, answer] in vectors("modules.txt") {
        let module = unhex(&module).expect(&name);
        let ours = rulketoos::read(&module).map_or_else(refused, |()| "accepted".to_string());
        assert_eq!(ours, answer, "{name}");
    }
}

#[test]
fn heights() {
    let mut area = vec![0; rulketoos::HEIGHTS_AREA];
    for [name, module, answer] in vectors("heights.txt") {
        let module = unhex(&module).expect(&name);
        let checked = rulketoos::heights(&module, &mut area);
        let ours = checked.map_or_else(refused, |()| "accepted".to_string());
        assert_eq!(ours, answer, "{name}");
    }
}

#[test]
fn runs() {
    for [name, module, function, answers, budget, room, answer] in vectors("runs.txt") {
        let number = |field: &str| field.parse::<u64>().expect(&name);
        let module = unhex(&module).expect(&name);
        let answers = unhex(&answers).expect(&name);
        let mut events = vec![0; number(&room) as usize];
        let (function, budget) = (number(&function), number(&budget));
        let run = rulketoos::run(&module, function, &answers, budget, &mut events);
        let ours = run.map_or_else(refused, |run| {
            let events = hex_or_dash(run.events);
            let ending = run.ending.number();
            format!("{ending} {} {} {events}", run.steps, run.used)
        });
        assert_eq!(ours, answer, "{name}");
    }
}

#[test]
fn orders() {
    let mut areas = Areas::new();
    for [name, first, second, answer] in vectors("orders.txt") {
        let (first, second) = (unhex(&first).expect(&name), unhex(&second).expect(&name));
        let ours = rulketoos::order(&first, &second, Limits::Office, &mut areas);
        let ours = ours.map_or_else(refused, |place| match place {
            Ordering::Less => "before".to_string(),
            Ordering::Equal => "equal".to_string(),
            Ordering::Greater => "after".to_string(),
        });
        assert_eq!(ours, answer, "{name}");
    }
}

#[test]
fn cuts() {
    let mut areas = Areas::new();
    for [name, set, tree, room, answer] in vectors("cuts.txt") {
        let limits = match set.as_str() {
            "office" => Limits::Office,
            _ => Limits::Console,
        };
        let tree = unhex(&tree).expect(&name);
        let mut out = vec![0; room.parse().expect(&name)];
        let ours = rulketoos::cut(&tree, limits, &mut areas, &mut out);
        let ours = ours.map_or_else(refused, |count| match count {
            Some(count) => hex(&out[..count]),
            None => "not refused".to_string(),
        });
        assert_eq!(ours, answer, "{name}");
    }
}
