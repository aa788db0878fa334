//! Refusals and their numbers, and what each call leaves of what it is lent.

use rulketoos::{Areas, Ending, Limits, NoSuchQuestion, Refusal, AREA, REACH_AREA};

const EMPTY: [u8; 7] = [0, 0, 0, 3, 1, 0, 0];

#[test]
fn every_number_has_its_refusal() {
    let mut count = 0;
    for (number, refusal) in (1..=24).chain(31..=38).zip(Refusal::all()) {
        assert_eq!(refusal.number(), number);
        assert_eq!(Refusal::try_from(number), Ok(refusal));
        let text = refusal.to_string();
        assert!(text.starts_with(&format!("refused {number}: ")), "{text}");
        assert!(text.ends_with(refusal.question()) && text.ends_with('?'));
        count += 1;
    }
    assert_eq!(count, 32);
    assert_eq!(Refusal::all().count(), count);
    for number in [0, 25, 30, 39, u32::MAX] {
        assert_eq!(Refusal::try_from(number), Err(NoSuchQuestion(number)));
    }
}

/// The tree of a statement that is this name, and of a string before it.
fn named(string: &[u8], name: &[u8]) -> Vec<u8> {
    let mut tree = vec![0, 0, 0, 0, 1, 0, 2, 3, 5, 0, string.len() as u8];
    tree.extend(string);
    tree.extend([3, 6, name.len() as u8]);
    tree.extend(name);
    tree[3] = tree.len() as u8 - 4;
    tree
}

#[test]
fn names_of_iterators() {
    let digits = |count| format!("__for_iter_{}__", "0".repeat(count)).into_bytes();
    let refusals = [
        (
            &b""[..],
            b"__for_iter_2__".to_vec(),
            Err(Refusal::IteratorName),
        ),
        (
            b"\xff",
            b"__for_iter_2__".to_vec(),
            Err(Refusal::IteratorName),
        ),
        (b"\xff", b"__for_iter___".to_vec(), Err(Refusal::BadString)),
        (b"", digits(51), Err(Refusal::IteratorName)),
        (b"", digits(52), Err(Refusal::BadName)),
        (b"", digits(0), Ok(())),
        (b"", b"__for_iter_x__".to_vec(), Ok(())),
        (b"", b"__for_iter_2___".to_vec(), Ok(())),
    ];
    for (string, name, answer) in refusals {
        let tree = named(string, &name);
        assert_eq!(rulketoos::check(&tree), answer);
        assert_eq!(
            rulketoos::lower_to_vec(&tree, Limits::Office).map(|_| ()),
            answer
        );
    }
}

#[test]
fn strings_are_utf8() {
    let good = [
        "",
        "a\u{7f}",
        "é",
        "e\u{301}",
        "和紙",
        "\u{d7ff}\u{e000}",
        "🗞\u{10ffff}",
    ];
    for string in good {
        let module =
            rulketoos::lower_to_vec(&named(string.as_bytes(), b"a"), Limits::Office).expect(string);
        assert_eq!(rulketoos::read(&module), Ok(()));
        let found = |bytes: &[u8]| module.windows(bytes.len().max(1)).any(|part| part == bytes);
        assert!(string.is_empty() || found(string.as_bytes()));
    }
    let bad: [&[u8]; 7] = [
        b"\x80",
        b"\xc3",
        b"\xc0\x80",
        b"\xe0\x9f\xbf",
        b"\xed\xa0\x80",
        b"\xf4\x90\x80\x80",
        b"a\xff",
    ];
    for string in bad {
        let tree = named(string, b"a");
        assert_eq!(rulketoos::check(&tree), Err(Refusal::BadString));
        assert_eq!(
            rulketoos::lower_to_vec(&tree, Limits::Office),
            Err(Refusal::BadString)
        );
        let ascii = vec![b'x'; string.len()];
        let mut module =
            rulketoos::lower_to_vec(&named(&ascii, b"a"), Limits::Office).expect("accepted");
        let place = module.windows(ascii.len()).position(|part| part == ascii);
        let place = place.expect("the string");
        module[place..place + string.len()].copy_from_slice(string);
        assert_eq!(rulketoos::read(&module), Err(Refusal::ModuleLayout));
    }
}

#[test]
fn short_areas_are_left_as_they_were() {
    for (first, second) in [(AREA - 1, AREA), (AREA, AREA - 1), (0, 0)] {
        let mut areas = Areas {
            first: vec![7; first],
            second: vec![8; second],
        };
        let before = areas.clone();
        let mut out = [9; 64];
        assert_eq!(
            rulketoos::lower(&EMPTY, Limits::Office, &mut areas, &mut out),
            Err(Refusal::AreasTooShort)
        );
        assert_eq!((areas, out), (before, [9; 64]));
    }
}

#[test]
fn the_output_is_written_or_left() {
    let mut areas = Areas::default();
    let mut short = [9; 33];
    assert_eq!(
        rulketoos::lower(&EMPTY, Limits::Office, &mut areas, &mut short),
        Err(Refusal::OutputTooShort)
    );
    assert_eq!(short, [9; 33]);
    let mut exact = [9; 34];
    assert_eq!(
        rulketoos::lower(&EMPTY, Limits::Office, &mut areas, &mut exact),
        Ok(34)
    );
    assert_eq!(
        rulketoos::lower_to_vec(&EMPTY, Limits::Office),
        Ok(exact.to_vec())
    );
    assert_eq!(areas, Areas::new());
}

/// The tree of so many statements, all these bytes.
fn repeated(stmt: &[u8], count: u16) -> Vec<u8> {
    let mut rest = vec![1];
    rest.extend(count.to_be_bytes());
    rest.extend(stmt.repeat(count.into()));
    let mut tree = (rest.len() as u32).to_be_bytes().to_vec();
    tree.extend(rest);
    tree
}

#[test]
fn limits_of_office_and_console() {
    let def: &[u8] = &[9, 1, b'f', 0, 0, 0, 0];
    let class: &[u8] = &[10, 1, b'A', 0, 0, 0, 0];
    let none: &[u8] = &[3, 0]; // two instructions
    for (stmt, office, console) in [(def, 255, 63), (class, 64, 64), (none, 4095, 1023)] {
        let mut areas = Areas::new();
        let mut out = vec![9; 65_536];
        for (limits, most) in [(Limits::Office, office), (Limits::Console, console)] {
            let mut lower = |count| {
                let tree = repeated(stmt, count);
                let answer = rulketoos::lower(&tree, limits, &mut areas, &mut out);
                answer.map(|count| out[..count].to_vec())
            };
            let whole = lower(most).expect("as many as are allowed");
            assert_eq!(lower(most + 1), Err(Refusal::ModuleTooLarge));
            let tree = repeated(stmt, most);
            assert_eq!(rulketoos::lower_to_vec(&tree, Limits::Office), Ok(whole));
        }
    }
    assert_eq!(
        [Limits::Office, Limits::Console].map(Limits::number),
        [0, 1]
    );
    assert_eq!(
        [0, 1, 2, u32::MAX].map(Limits::from)[1..],
        [Limits::Console; 3]
    );
    assert_eq!(
        (Limits::from(0), Limits::default()),
        (Limits::Office, Limits::Office)
    );
}

#[test]
fn empty_slices_are_read() {
    assert_eq!(rulketoos::check(&[]), Err(Refusal::TreeHeader));
    assert_eq!(
        rulketoos::lower_to_vec(&[], Limits::Office),
        Err(Refusal::TreeHeader)
    );
    assert_eq!(rulketoos::read(&[]), Err(Refusal::ModuleHeader));
    assert_eq!(rulketoos::code(&[], 0), Err(Refusal::ModuleHeader));
    let run = rulketoos::run(&[], 0, &[], 0, &mut []);
    assert_eq!(run, Err(Refusal::ModuleHeader));
    let listed = rulketoos::list(&[], &mut []);
    assert_eq!(listed, Err(Refusal::ModuleHeader));
    let counted = rulketoos::count_sheet(&[], &mut []);
    assert_eq!(counted, Err(Refusal::ModuleHeader));
    let reached = rulketoos::reach(&[], 0, 0, &mut [], &mut []);
    assert_eq!(reached, Err(Refusal::AreasTooShort));
    assert_eq!(
        rulketoos::reach_to_vec(&[], 0, 0),
        Err(Refusal::ModuleHeader)
    );
}

/// What remains is written or nothing is; the areas are zero afterwards, or left by 1.
#[test]
fn cutting_down() {
    // `None`, `break`, `None`
    let tree = [0, 0, 0, 8, 1, 0, 3, 3, 0, 0, 3, 0];
    let cut = |tree: &[u8], area: usize, room: usize| {
        let mut areas = Areas {
            first: vec![7; area],
            second: vec![7; AREA],
        };
        let mut out = vec![9; room];
        let count = rulketoos::cut(tree, Limits::Office, &mut areas, &mut out);
        let left = u32::from(count == Err(Refusal::AreasTooShort)) * 7;
        let numbers = areas.first.iter().chain(&areas.second);
        assert!(numbers.copied().all(|number| number == left));
        let rest = out.split_off(count.unwrap_or(None).unwrap_or(0));
        assert!(rest.iter().all(|&byte| byte == 9));
        count.map(|count| count.map(|_| out))
    };
    let remains = Ok(Some(vec![0, 0, 0, 4, 1, 0, 1, 0]));
    assert_eq!(cut(&tree, AREA, 12), remains);
    assert_eq!(cut(&tree, AREA + 9, 20), remains);
    assert_eq!(cut(&tree, AREA, 11), Err(Refusal::CutTooShort));
    assert_eq!(cut(&tree[..11], AREA, 11), Err(Refusal::TreeHeader));
    assert_eq!(cut(&tree[..11], AREA, 10), Err(Refusal::CutTooShort));
    assert_eq!(cut(&tree, AREA - 1, 0), Err(Refusal::AreasTooShort));
    assert_eq!(cut(&EMPTY, AREA, 7), Ok(None));
    assert_eq!(cut(&[], AREA, 0), Err(Refusal::TreeHeader));
    assert_eq!(rulketoos::cut_to_vec(&tree, Limits::Console), remains);
    assert_eq!(rulketoos::cut_to_vec(&EMPTY, Limits::Console), Ok(None));
    let refused = rulketoos::cut_to_vec(&[], Limits::Office);
    assert_eq!(refused, Err(Refusal::TreeHeader));
}

/// A text fits a buffer of just its length; a shorter one is left as it was.
#[test]
fn texts_are_written_or_left() {
    let module = rulketoos::lower_to_vec(&EMPTY, Limits::Office).expect("accepted");
    type Write = fn(&[u8], &mut [u8]) -> Result<usize, Refusal>;
    let texts: [(_, Write, _); 2] = [
        (
            rulketoos::list_to_string(&module),
            rulketoos::list,
            Refusal::ListingTooShort,
        ),
        (
            rulketoos::count_sheet_to_string(&module),
            rulketoos::count_sheet,
            Refusal::SheetTooShort,
        ),
    ];
    for (text, write, refusal) in texts {
        let text = text.expect("accepted");
        let mut exact = vec![9; text.len()];
        assert_eq!(write(&module, &mut exact), Ok(text.len()));
        assert_eq!(exact, text.as_bytes());
        let mut short = vec![9; text.len() - 1];
        assert_eq!(write(&module, &mut short), Err(refusal));
        assert!(short.iter().all(|&byte| byte == 9));
    }
}

/// A module without functions has a listing of no bytes, in a buffer of none,
/// and a sheet of its totals alone.
#[test]
fn a_module_without_functions() {
    let none = [0, 0, 0, 11, 2, 0, 0, 0, 0, 0, 0, 0, 0, 0, 0];
    assert_eq!(rulketoos::list(&none, &mut []), Ok(0));
    assert_eq!(rulketoos::list_to_string(&none), Ok(String::new()));
    let total = "TOTAL      0      0      0              \n";
    let sheet = rulketoos::count_sheet_to_string(&none);
    assert_eq!(sheet, Ok(total.to_string()));
    let refused = rulketoos::count_sheet(&none, &mut [0; 40]);
    assert_eq!(refused, Err(Refusal::SheetTooShort));
}

#[test]
fn endings() {
    // `while True: pass`
    let tree = [0, 0, 0, 8, 1, 0, 1, 7, 2, 0, 1, 2];
    let module = rulketoos::lower_to_vec(&tree, Limits::Office).expect("accepted");
    let ended = |answers: &[u8], budget| {
        let mut events = [0; 90];
        let run = rulketoos::run(&module, 0, answers, budget, &mut events);
        run.map(|run| (run.ending, run.steps, run.used))
    };
    assert_eq!(ended(&[0], 9), Ok((Ending::Returned, 3, 1)));
    assert_eq!(ended(&[1], 9), Ok((Ending::NoAnswerLeft, 4, 1)));
    assert_eq!(ended(&[1, 1, 1], 4), Ok((Ending::BudgetSpent, 4, 1)));
    assert_eq!(ended(&[2], 9), Err(Refusal::BadAnswer));
    assert_eq!(Ending::BudgetSpent.number(), 3);
    let mut events = [9; 2];
    let refused = rulketoos::run(&module, 0, &[0], 9, &mut events);
    assert_eq!(refused, Err(Refusal::EventsTooShort));
    assert_eq!(events, [9; 2]);
}

/// Answers are written or left; the area is zero afterwards, or left by 1.
#[test]
fn reaching_a_place() {
    // `while True: pass`: True, JumpIfFalse 1, Jump -3, Return
    let tree = [0, 0, 0, 8, 1, 0, 1, 7, 2, 0, 1, 2];
    let module = rulketoos::lower_to_vec(&tree, Limits::Office).expect("accepted");
    let reached = |function, place, area: usize, room: usize| {
        let (mut area, mut answers) = (vec![7; area], vec![9; room]);
        let found = rulketoos::reach(&module, function, place, &mut area, &mut answers);
        let found = found.map(|list| list.map(<[u8]>::to_vec));
        let left = u32::from(found == Err(Refusal::AreasTooShort)) * 7;
        assert!(area.iter().all(|&number| number == left));
        let written = found
            .as_ref()
            .map_or(0, |list| list.as_ref().map_or(0, Vec::len));
        assert!(answers[written..].iter().all(|&answer| answer == 9));
        found
    };
    let long = REACH_AREA;
    assert_eq!(reached(0, 0, long, 1), Ok(Some(vec![])));
    assert!(matches!(reached(0, 1, long, 1), Ok(Some(list)) if list.len() == 1));
    assert_eq!(reached(0, 2, long, 3), Ok(Some(vec![1])));
    assert_eq!(reached(0, 3, long + 9, 1), Ok(Some(vec![0])));
    assert_eq!(reached(0, 4, long - 1, 0), Err(Refusal::AreasTooShort));
    assert_eq!(reached(1, 4, long, 0), Err(Refusal::NoSuchFunction));
    assert_eq!(reached(0, 4, long, 0), Err(Refusal::NoSuchPlace));
    assert_eq!(reached(0, 1 << 32, long, 0), Err(Refusal::NoSuchPlace));
    assert_eq!(reached(0, 3, long, 0), Err(Refusal::AnswersTooShort));
}
