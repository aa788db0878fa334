//! The model's texts of modules, spelled out and read back.

use compare::{AREA, WIDE};
use generator::modules::{function, long, wide, Parts};
use generator::{random, samples, Rng};
use model::instruction as op;

/// Two functions, with an operand of every kind.
fn some_code() -> Parts {
    let eight = |opcode: u8, bits: u64| [&[opcode], bits.to_be_bytes().as_slice()].concat();
    let first = [
        eight(op::CONST_I64, i64::MIN as u64),
        eight(op::CONST_F64, 0x7FF8_0000_0000_00AB),
        long(op::CONST_STR, 0),
        wide(op::BUILD_TREE_SET, 65_535, &[]),
        vec![op::RETURN],
    ];
    let second = [
        long(op::JUMP_IF_FALSE, 5),
        wide(op::CALL, 1, &[2]),
        vec![op::CALL_BUILTIN, 14, 255],
        vec![op::CALL_VALUE, 10],
        wide(op::CALL_METHOD, 0, &[0]),
        long(op::JUMP, -6),
        wide(op::MAKE_CLOSURE, 0, &[9]),
        vec![op::RETURN],
    ];
    Parts::with(&[function(0, &first), function(0, &second)])
}

#[test]
fn a_listing() {
    let expected = [
        "PAGE      1                                         ",
        "    0     0 ConstI64        -9223372036854775808    ",
        "    0     1 ConstF64            7FF80000000000AB    ",
        "    0     2 ConstStr                           0    ",
        "    0     3 BuildTreeSet                   65535    ",
        "    0     4 Return                                  ",
        "    1     0 JumpIfFalse                        5    ",
        "    1     1 Call                               1   2",
        "    1     2 CallBuiltin                       14 255",
        "    1     3 CallValue                         10    ",
        "    1     4 CallMethod                         0   0",
        "    1     5 Jump                              -6    ",
        "    1     6 MakeClosure                        0   9",
        "    1     7 Return                                  ",
        "",
    ];
    let expected = expected.join("\n");
    let module = some_code().bytes();
    assert_eq!(model::list(&module, expected.len()), Ok(expected.clone()));
    assert_eq!(model::list(&module, expected.len() - 1), Err(31));
    assert_eq!(model::list(&module[1..], 0), Err(17));
}

#[test]
fn no_functions_no_page() {
    let module = Parts::with(&[]).bytes();
    assert_eq!(model::list(&module, 0), Ok(String::new()));
}

#[test]
fn a_sheet() {
    let expected = [
        "    0      5      0      0              ",
        "    1      8      1      4              ",
        "TOTAL     13      1      4              ",
        "",
    ];
    let expected = expected.join("\n");
    let module = some_code().bytes();
    assert_eq!(model::count_sheet(&module, 123), Ok(expected));
    assert_eq!(model::count_sheet(&module, 122), Err(32));
    assert_eq!(model::count_sheet(&module[1..], 0), Err(17));
}

#[test]
fn no_functions_a_total() {
    let module = Parts::with(&[]).bytes();
    let total = "TOTAL      0      0      0              \n";
    assert_eq!(model::count_sheet(&module, 41), Ok(total.to_string()));
    assert_eq!(model::count_sheet(&module, 40), Err(32));
}

/// Each total is the sum of its column, and each row counts what the listing
/// lists.
fn adds_up(module: &[u8]) {
    let (Ok(sheet), Ok(listing)) = (
        model::count_sheet(module, usize::MAX),
        model::list(module, usize::MAX),
    ) else {
        return;
    };
    let mut listed: Vec<[usize; 3]> = Vec::new();
    for line in code_lines(&listing) {
        if line[6..11].trim_start() == "0" {
            listed.push([0; 3]);
        }
        let name = line[12..27].trim_end();
        let question = name.starts_with("JumpIf");
        let row = listed.last_mut().expect("a function");
        row[0] += 1;
        row[1] += usize::from(question);
        row[2] += usize::from(name.starts_with("Call"));
    }
    let total = listed.iter().fold([0; 3], |sum, row| {
        std::array::from_fn(|column| sum[column] + row[column])
    });
    let mut expected = String::new();
    let heads = (0..listed.len()).map(|number| number.to_string());
    for (head, [all, questions, calls]) in heads
        .chain(["TOTAL".to_string()])
        .zip(listed.iter().copied().chain([total]))
    {
        let row = format!("{head:>5} {all:>6} {questions:>6} {calls:>6}");
        expected += &format!("{row:<40}\n");
    }
    assert_eq!(sheet, expected);
}

#[test]
fn sheets_add_up() {
    let mut rng = Rng::new(35);
    compare::texts::directed(&mut rng, adds_up);
    compare::texts::random(&mut rng, 500, adds_up);
}

/// The code lines of a listing, after a look at its page lines.
fn code_lines(listing: &str) -> Vec<&str> {
    let lines: Vec<&str> = listing.lines().collect();
    assert!(lines.iter().all(|line| line.len() == 52 && line.is_ascii()));
    assert_eq!(listing.len(), 53 * lines.len());
    let mut code = Vec::new();
    for (number, page) in lines.chunks(51).enumerate() {
        let first = format!("PAGE {:>6}", number + 1);
        assert_eq!(page[0].trim_end(), first);
        assert!(page.len() > 1 && !page[1..].iter().any(|line| line.starts_with("PAGE")));
        code.extend(&page[1..]);
    }
    code
}

/// The bytes that a code line stands for.
fn bytes_of(line: &str) -> Vec<u8> {
    let name = line[12..27].trim_end();
    let [first, second] = [&line[28..48], &line[49..52]].map(str::trim_start);
    let opcode = model::listing::NAMES
        .iter()
        .position(|&known| known == name);
    let opcode = opcode.expect("a name") as u8;
    let width = op::operand_bytes(opcode).expect("an opcode") - usize::from(!second.is_empty());
    let number = match (opcode, width) {
        (_, 0) => 0,
        (op::CONST_F64, _) => u64::from_str_radix(first, 16).expect("hexadecimal digits"),
        _ => first.parse::<i64>().expect("a number") as u64,
    };
    let mut bytes = vec![opcode];
    bytes.extend(&number.to_be_bytes()[8 - width..]);
    bytes.extend(second.parse::<u8>().ok());
    bytes
}

/// Each instruction is listed once, in order, with its function and place: the
/// listing gives back the code.
fn reads_back(module: &[u8]) {
    let Ok(listing) = model::list(module, usize::MAX) else {
        return;
    };
    let read = model::module::read(module).expect("it is listed");
    let mut lines = code_lines(&listing).into_iter();
    for (number, function) in read.functions.iter().enumerate() {
        for place in 0..function.places.len() {
            let line = lines.next().expect("a line");
            assert_eq!(line[..12], format!("{number:>5} {place:>5} "));
            assert_eq!(bytes_of(line), read.instruction(function, place));
        }
    }
    assert_eq!(lines.next(), None);
}

#[test]
fn listings_read_back() {
    let mut rng = Rng::new(33);
    compare::texts::directed(&mut rng, reads_back);
    compare::texts::random(&mut rng, 500, reads_back);
}

/// The name and the operands of a line, as the Rust's own text has them. A
/// slot has the Rust's own number, so it isn't looked at.
fn same_as_the_rust(line: &str, theirs: &str) {
    let mut parts = theirs.split(['(', ')', ',']).map(str::trim);
    let name = parts.next().unwrap_or_default();
    assert_eq!(line[12..27].trim_end(), name, "{theirs}");
    let [first, second] = [&line[28..48], &line[49..52]].map(str::trim_start);
    let operand = parts.next().unwrap_or_default();
    match name {
        "LoadLocal" | "StoreLocal" => assert!(first.parse::<u16>().is_ok()),
        "ConstF64" => {
            let bits = u64::from_str_radix(first, 16).expect("hexadecimal digits");
            assert_eq!(format!("{:?}", f64::from_bits(bits)), operand);
        }
        _ => assert_eq!(first, operand, "{theirs}"),
    }
    assert_eq!(second, parts.next().unwrap_or_default(), "{theirs}");
}

#[test]
fn names_and_operands_are_the_rusts() {
    oracle::ready("names and operands of a listing");
    let mut rng = Rng::new(34);
    let directed = samples::starred().into_iter().chain(samples::small());
    let mut trees: Vec<Vec<u8>> = directed.map(|case| case.tree).collect();
    trees.extend((0..2_000).map(|_| random::tree(&mut rng)));
    let mut seen = [false; 46];
    for tree in trees {
        let Ok(module) = model::lower(&tree, model::OFFICE, AREA, AREA, WIDE) else {
            continue;
        };
        let Some(theirs) = oracle::instructions(&tree) else {
            return;
        };
        let listing = model::list(&module, usize::MAX).expect("it is lowered");
        let lines = code_lines(&listing);
        assert_eq!(lines.len(), theirs.iter().map(Vec::len).sum::<usize>());
        for (line, text) in lines.into_iter().zip(theirs.concat()) {
            same_as_the_rust(line, &text);
            seen[usize::from(bytes_of(line)[0])] = true;
        }
    }
    assert!(seen.iter().all(|&seen| seen), "{seen:?}");
}

/// The samples' own texts are those of their modules.
#[test]
fn texts_of_the_samples() {
    let folder = std::path::Path::new(env!("CARGO_MANIFEST_DIR")).join("../../samples");
    let mut seen = 0;
    for entry in std::fs::read_dir(folder).expect("samples") {
        let path = entry.expect("a file").path();
        if path.extension().is_some_and(|end| end == "module") {
            let module = std::fs::read(&path).expect("a module");
            let text = |kind| std::fs::read_to_string(path.with_extension(kind)).expect(kind);
            assert_eq!(model::list(&module, usize::MAX), Ok(text("listing")));
            assert_eq!(model::count_sheet(&module, usize::MAX), Ok(text("sheet")));
            seen += 1;
        }
    }
    assert!(seen >= 6, "only {seen} samples");
}
