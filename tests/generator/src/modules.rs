//! Hand-made module records, on both sides of questions 17 to 21.

use crate::make::{with_header, Bytes};
use crate::rng::Rng;
use crate::texts;

/// A named module record.
pub struct ModuleCase {
    pub name: String,
    pub module: Bytes,
}

pub fn module_case(name: &str, module: Bytes) -> ModuleCase {
    ModuleCase {
        name: name.to_string(),
        module,
    }
}

/// The parts of a module record, to be changed before it is written.
#[derive(Clone, Default)]
pub struct Parts {
    pub symbols: Vec<Bytes>,
    pub strings: Vec<Bytes>,
    pub functions: Vec<Function>,
    pub classes: Vec<(Bytes, Vec<(Bytes, u16)>)>,
    pub constants: Vec<u16>,
}

#[derive(Clone, Default)]
pub struct Function {
    pub name: u16,
    pub arity: u8,
    pub locals: u16,
    pub height: u16,
    /// One item an instruction.
    pub code: Vec<Bytes>,
}

/// The version of a module record.
pub const VERSION: u8 = 2;
pub const RETURN: u8 = 33;

/// An instruction with a 32-bit operand: jumps, strings, constants.
pub fn long(opcode: u8, operand: i32) -> Bytes {
    let [a, b, c, d] = operand.to_be_bytes();
    vec![opcode, a, b, c, d]
}

/// An instruction with a 16-bit operand, and the bytes that follow it.
pub fn wide(opcode: u8, operand: u16, rest: &[u8]) -> Bytes {
    let [a, b] = operand.to_be_bytes();
    [&[opcode, a, b], rest].concat()
}

pub fn function(locals: u16, code: &[Bytes]) -> Function {
    Function {
        name: 0,
        arity: 0,
        locals,
        height: 0,
        code: code.to_vec(),
    }
}

fn count(out: &mut Bytes, number: usize) {
    let number = u16::try_from(number).expect("a 16-bit count");
    out.extend(number.to_be_bytes());
}

fn short(out: &mut Bytes, name: &[u8]) {
    out.push(u8::try_from(name.len()).expect("a length byte"));
    out.extend(name);
}

impl Parts {
    /// One symbol, one string, one class, one constant and these functions.
    pub fn with(functions: &[Function]) -> Self {
        Self {
            symbols: vec![b"__main__".to_vec()],
            strings: vec![b"s".to_vec()],
            functions: functions.to_vec(),
            classes: vec![(b"A".to_vec(), vec![])],
            constants: vec![0],
        }
    }

    /// One function with this code before its `Return`, and one slot.
    pub fn of(code: &[Bytes]) -> Self {
        let mut code = code.to_vec();
        code.push(vec![RETURN]);
        Self::with(&[function(1, &code)])
    }

    pub fn bytes(&self) -> Bytes {
        with_header(&[&[VERSION], self.rest().as_slice()].concat())
    }

    /// What follows the version byte.
    pub fn rest(&self) -> Bytes {
        let mut out = Bytes::new();
        count(&mut out, self.symbols.len());
        for symbol in &self.symbols {
            short(&mut out, symbol);
        }
        count(&mut out, self.strings.len());
        for string in &self.strings {
            count(&mut out, string.len());
            out.extend(string);
        }
        count(&mut out, self.functions.len());
        for function in &self.functions {
            out.extend(function.name.to_be_bytes());
            out.push(function.arity);
            out.extend(function.locals.to_be_bytes());
            out.extend(function.height.to_be_bytes());
            count(&mut out, function.code.len());
            out.extend(function.code.concat());
        }
        self.tail(&mut out);
        out
    }

    fn tail(&self, out: &mut Bytes) {
        count(out, self.classes.len());
        for (name, methods) in &self.classes {
            short(out, name);
            count(out, methods.len());
            for (method, function) in methods {
                short(out, method);
                out.extend(function.to_be_bytes());
            }
        }
        count(out, self.constants.len());
        for class in &self.constants {
            out.extend(class.to_be_bytes());
        }
    }
}

/// One of every instruction, with operands that exist; conditional jumps go
/// on to the next place.
pub fn every_instruction() -> Parts {
    let mut code: Vec<Bytes> = vec![
        [&[0], 7i64.to_be_bytes().as_slice()].concat(),
        [&[1], 0x7FF8_0000_0000_0001u64.to_be_bytes().as_slice()].concat(),
        long(2, 0),
        vec![3],
        vec![4],
        vec![5],
        long(6, 0),
        vec![7],
        vec![8],
    ];
    code.extend([9, 10, 11, 12].map(|op| wide(op, 0, &[])));
    code.extend((13..28).map(|op| vec![op]));
    code.extend([28, 29, 30].map(|op| long(op, 0)));
    code.push(wide(31, 0, &[2]));
    code.push(vec![32, 14, 1]);
    code.push(vec![34, 255]);
    code.push(wide(35, 0, &[0]));
    code.extend([36, 37].map(|op| wide(op, 0, &[])));
    code.extend([38, 39, 40, 41, 42].map(|op| wide(op, 65_535, &[])));
    code.extend([vec![43], vec![44], wide(45, 0, &[9])]);
    Parts::of(&code)
}

/// All hand-made modules, good and bad; the longest come last.
pub fn all() -> Vec<ModuleCase> {
    let mut cases = headers();
    cases.extend(layouts());
    cases.extend(class_names());
    cases.extend(strings());
    cases.extend(numbers());
    cases.extend(jumps());
    cases.extend(orders());
    cases.extend(not_asked());
    cases.extend(counts());
    cases
}

fn headers() -> Vec<ModuleCase> {
    let good = Parts::of(&[]).bytes();
    let with_count = |count: u32| [&count.to_be_bytes(), &good[4..]].concat();
    let length = good.len() as u32 - 4;
    let with_version = |version: u8| with_header(&[&[version], &good[5..]].concat());
    vec![
        module_case("module-none", vec![]),
        module_case("module-three-bytes", vec![0, 0, 0]),
        module_case("module-header-only", vec![0, 0, 0, 0]),
        module_case("module-good", good.clone()),
        module_case("module-count-more", with_count(length + 1)),
        module_case("module-count-less", with_count(length - 1)),
        module_case("module-count-high", with_count(length + (1 << 24))),
        module_case("module-version-0", with_version(0)),
        module_case("module-version-1", with_version(1)),
        module_case("module-version-3", with_version(3)),
        module_case("module-version-alone", with_header(&[VERSION])),
        module_case("module-empty-tables", Parts::default().bytes()),
    ]
}

/// The rest cut at every byte, a byte over, and opcodes that are none.
fn layouts() -> Vec<ModuleCase> {
    let mut parts = Parts::of(&[long(2, 0)]);
    parts.classes[0].1.push((b"m".to_vec(), 0));
    let rest = parts.rest();
    let with_rest = |rest: &[u8]| with_header(&[&[VERSION], rest].concat());
    let mut cases: Vec<_> = (0..rest.len())
        .map(|cut| module_case(&format!("module-cut-{cut}"), with_rest(&rest[..cut])))
        .collect();
    cases.push(module_case("module-whole", with_rest(&rest)));
    let over = [rest.as_slice(), &[0]].concat();
    cases.push(module_case("module-byte-over", with_rest(&over)));
    for opcode in [45, 46, 47, 128, 255] {
        let code = Parts::of(&[vec![opcode, 0, 0, 0]]);
        cases.push(module_case(&format!("opcode-{opcode}"), code.bytes()));
    }
    cases.push(module_case("opcode-all", every_instruction().bytes()));
    cases
}

fn class_names() -> Vec<ModuleCase> {
    let mut cases = Vec::new();
    let names: [(&str, Bytes); 7] = [
        ("empty", vec![]),
        ("64-long", vec![b'n'; 64]),
        ("65-long", vec![b'n'; 65]),
        ("255-long", vec![b'n'; 255]),
        ("digit", b"1a".to_vec()),
        ("later-digit", b"a1".to_vec()),
        ("lambda", b"<lambda#1>".to_vec()),
    ];
    for (word, name) in names {
        let mut parts = Parts::of(&[]);
        parts.classes[0].0 = name.clone();
        cases.push(module_case(&format!("class-name-{word}"), parts.bytes()));
        let mut parts = Parts::of(&[]);
        parts.classes[0].1 = vec![(name, 0)];
        cases.push(module_case(&format!("method-name-{word}"), parts.bytes()));
    }
    let orders = [
        ("rising", ["aa", "b", "ba"]),
        ("equal", ["a", "b", "b"]),
        ("falling", ["b", "a", "c"]),
        ("by-length", ["b", "aa", "c"]),
        ("prefix", ["a", "aa", "aaa"]),
        ("prefix-back", ["aa", "a", "b"]),
        ("case", ["A", "_", "a"]),
        ("case-back", ["a", "A", "b"]),
    ];
    for (word, names) in orders {
        let mut parts = Parts::of(&[]);
        parts.classes[0].1 = names.map(|n| (n.as_bytes().to_vec(), 0)).to_vec();
        cases.push(module_case(&format!("methods-{word}"), parts.bytes()));
    }
    cases
}

/// Strings in UTF-8, and such as are none, also where no code names them.
fn strings() -> Vec<ModuleCase> {
    let with = |name: &str, strings: &[&[u8]]| {
        let mut parts = Parts::of(&[]);
        parts.strings = strings.iter().map(|string| string.to_vec()).collect();
        module_case(name, parts.bytes())
    };
    let edges: Vec<String> = texts::EDGES.iter().map(char::to_string).collect();
    let edges: Vec<&[u8]> = edges.iter().map(String::as_bytes).collect();
    let long = "和".repeat(9_000);
    let mut cases = vec![
        with("strings-edges", &edges),
        with("strings-edges-in-one", &[&edges.concat()]),
        with("strings-papers", &texts::PAPERS.map(str::as_bytes)),
        with("strings-cut-in-two", &[&[0xC3], &[0xA9]]),
        with("strings-long", &[long.as_bytes()]),
        with("strings-long-cut", &[&long.as_bytes()[..26_999]]),
    ];
    for (word, forms) in texts::DAMAGED {
        for (place, form) in forms.iter().enumerate() {
            let between = ["é".as_bytes(), form, b"a"].concat();
            cases.push(with(&format!("strings-{word}-{place}"), &[form]));
            let name = format!("strings-{word}-{place}-second");
            cases.push(with(&name, &[b"a", &between]));
        }
    }
    cases
}

/// Each kind of number at the last that exists and the first that does not.
fn numbers() -> Vec<ModuleCase> {
    let mut cases = Vec::new();
    let mut code = |name: String, ins: Bytes| {
        cases.push(module_case(&name, Parts::of(&[ins]).bytes()));
    };
    let wides = [
        ("load-slot", 9),
        ("store-slot", 10),
        ("load-global", 11),
        ("store-global", 12),
        ("load-attribute", 36),
        ("store-attribute", 37),
    ];
    for (word, opcode) in wides {
        for number in [0, 1, 256, 65_535] {
            code(format!("number-{word}-{number}"), wide(opcode, number, &[]));
        }
    }
    for (word, opcode) in [("call", 31), ("method", 35), ("closure", 45)] {
        for number in [0, 1, 256, 65_535] {
            code(
                format!("number-{word}-{number}"),
                wide(opcode, number, &[255]),
            );
        }
    }
    for (word, opcode) in [("string", 2), ("constant", 6)] {
        for number in [0, 1, 65_536, -1, i32::MIN] {
            code(
                format!("number-{word}-{}", number as u32),
                long(opcode, number),
            );
        }
    }
    for id in [0, 7, 8, 9, 10, 14, 15, 16, 128, 255] {
        code(format!("number-built-in-{id}"), vec![32, id, 0]);
    }
    cases.extend(table_numbers());
    cases
}

fn table_numbers() -> Vec<ModuleCase> {
    let mut cases = Vec::new();
    for number in [0, 1, 65_535] {
        let mut parts = Parts::of(&[]);
        parts.functions[0].name = number;
        cases.push(module_case(&format!("number-name-{number}"), parts.bytes()));
        let mut parts = Parts::of(&[]);
        parts.constants[0] = number;
        cases.push(module_case(
            &format!("number-class-{number}"),
            parts.bytes(),
        ));
        let mut parts = Parts::of(&[]);
        parts.classes[0].1 = vec![(b"m".to_vec(), number)];
        let name = format!("number-method-function-{number}");
        cases.push(module_case(&name, parts.bytes()));
    }
    for (slot, locals) in [(0, 0), (254, 255), (255, 255), (65_534, 65_535)] {
        let mut parts = Parts::of(&[wide(9, slot, &[])]);
        parts.functions[0].locals = locals;
        let name = format!("number-slot-{slot}-of-{locals}");
        cases.push(module_case(&name, parts.bytes()));
    }
    cases
}

fn jumps() -> Vec<ModuleCase> {
    let mut cases = Vec::new();
    for (word, opcode) in [("jump", 28), ("if-false", 29), ("if-true", 30)] {
        // Places 0 to 3; the jump stands at 1.
        for distance in [0, 1, 2, 3, -1, -2, -3, i32::MAX, i32::MIN, 65_536] {
            let parts = Parts::of(&[vec![3], long(opcode, distance), vec![3]]);
            let way = if distance < 0 { "back" } else { "on" };
            let by = distance.unsigned_abs();
            cases.push(module_case(&format!("{word}-{way}-{by}"), parts.bytes()));
        }
    }
    let ends: [(&str, Vec<Bytes>); 6] = [
        ("nothing", vec![]),
        ("return", vec![vec![RETURN]]),
        ("pop", vec![vec![7]]),
        ("return-pop", vec![vec![RETURN], vec![7]]),
        ("jump-back", vec![long(28, -1)]),
        ("operand-33", vec![vec![32, 0, 33]]),
    ];
    for (word, code) in ends {
        let parts = Parts::with(&[function(0, &code)]);
        cases.push(module_case(&format!("ends-in-{word}"), parts.bytes()));
        let good = function(0, &[vec![RETURN]]);
        let parts = Parts::with(&[good, function(0, &code)]);
        let name = format!("second-ends-in-{word}");
        cases.push(module_case(&name, parts.bytes()));
    }
    cases
}

/// Two faults: the smaller number answers, wherever they stand.
fn orders() -> Vec<ModuleCase> {
    let bad_end = function(0, &[vec![7]]);
    let bad_number = function(0, &[wide(9, 0, &[]), vec![RETURN]]);
    let bad_jump = function(0, &[long(28, 9), vec![RETURN]]);
    let pair = |first: &Function, second: &Function| Parts::with(&[first.clone(), second.clone()]);
    let mut bad_class = pair(&bad_end, &bad_number);
    bad_class.classes[0].0 = vec![];
    let mut bad_constant = pair(&bad_end, &bad_jump);
    bad_constant.constants[0] = 1;
    vec![
        module_case("order-21-20", pair(&bad_end, &bad_number).bytes()),
        module_case("order-20-21", pair(&bad_number, &bad_jump).bytes()),
        module_case("order-21-20-19", bad_class.bytes()),
        module_case("order-21-20-constant", bad_constant.bytes()),
        module_case("order-21-21", pair(&bad_jump, &bad_end).bytes()),
    ]
}

/// What no question asks is accepted.
fn not_asked() -> Vec<ModuleCase> {
    let mut symbols = Parts::of(&[]);
    symbols.symbols = vec![vec![], vec![], vec![255; 255], b"a b".to_vec()];
    let mut strings = Parts::of(&[]);
    strings.strings = vec![vec![], vec![], "é".into(), vec![0; 300]];
    let mut arity = Parts::of(&[]);
    arity.functions[0].arity = 255;
    arity.functions[0].locals = 0;
    let mut classes = Parts::of(&[]);
    classes.classes = vec![(b"A".to_vec(), vec![]), (b"A".to_vec(), vec![])];
    classes.constants = vec![1, 1, 0, 1];
    let mut none = Parts::of(&[]);
    none.functions.clear();
    let mut unused = Parts::of(&[vec![RETURN], vec![8]]);
    unused.functions[0].locals = 65_535;
    vec![
        module_case("free-symbols", symbols.bytes()),
        module_case("free-strings", strings.bytes()),
        module_case("free-arity", arity.bytes()),
        module_case("free-classes", classes.bytes()),
        module_case("free-no-functions", none.bytes()),
        module_case("free-unused-code", unused.bytes()),
    ]
}

/// Counts above the lowering's limits are no matter for the reader.
fn counts() -> Vec<ModuleCase> {
    let mut functions = Parts::of(&[]);
    functions.functions = vec![function(0, &[vec![RETURN]]); 257];
    let mut symbols = Parts::of(&[wide(11, 1024, &[])]);
    symbols.symbols = vec![vec![b'a']; 1025];
    let mut classes = Parts::of(&[long(6, 64)]);
    classes.classes = vec![(b"A".to_vec(), vec![]); 65];
    classes.constants = (0..65).collect();
    vec![
        module_case("many-functions", functions.bytes()),
        module_case("many-symbols", symbols.bytes()),
        module_case("many-classes", classes.bytes()),
    ]
}

/// A module of exactly so many bytes; at most 524,288 are read.
pub fn of_length(length: usize) -> ModuleCase {
    let mut parts = Parts::of(&[]);
    parts.strings = vec![vec![b'x'; 65_000]; 8];
    let text = length - parts.bytes().len() - 2;
    parts.strings.push(vec![b'y'; text]);
    module_case(&format!("module-{length}"), parts.bytes())
}

/// A module near the longest with as many small instructions as fit.
pub fn full_of_code() -> Bytes {
    let mut code = vec![vec![7]; 65_534];
    code.push(vec![RETURN]);
    let mut parts = Parts::with(&[]);
    parts.functions = vec![function(0, &code); 7];
    parts.bytes()
}

/// A random hand-made module: any instructions, jumps to anywhere in their
/// function, and now and then a number or jump one too far.
pub fn random(rng: &mut Rng) -> Parts {
    random_of(rng, 12)
}

/// The same, with functions of at most so many instructions.
pub fn random_of(rng: &mut Rng, longest: usize) -> Parts {
    let functions = 1 + rng.below(3);
    let mut parts = Parts::with(&[]);
    parts.strings[0] = if rng.once_in(12) {
        texts::damaged_text(rng)
    } else {
        texts::text(rng)
    };
    let far = rng.once_in(4);
    for _ in 0..functions {
        let length = 1 + rng.below(longest);
        let mut code: Vec<Bytes> = (0..length - 1)
            .map(|place| random_instruction(rng, place, length, functions, far))
            .collect();
        code.push(vec![RETURN]);
        parts.functions.push(function(2, &code));
    }
    if rng.once_in(3) {
        parts.classes[0].1.push((b"m".to_vec(), 0));
    }
    parts
}

fn random_instruction(
    rng: &mut Rng,
    place: usize,
    length: usize,
    functions: usize,
    far: bool,
) -> Bytes {
    let one_too_far = usize::from(far && rng.once_in(12));
    if rng.once_in(2) {
        let target = rng.below(length + one_too_far) as i32;
        let opcode = 28 + rng.below(3) as u8;
        return long(opcode, target - (place as i32 + 1));
    }
    let small = |count: usize, rng: &mut Rng| rng.below(count + one_too_far) as u16;
    match rng.below(46) as u8 {
        opcode @ (0 | 1) => [&[opcode], rng.number().to_be_bytes().as_slice()].concat(),
        opcode @ (2 | 6) => long(opcode, one_too_far as i32),
        opcode @ (9 | 10) => wide(opcode, small(2, rng), &[]),
        opcode @ (11 | 12 | 36 | 37) => wide(opcode, one_too_far as u16, &[]),
        opcode @ 28..=30 => long(opcode, 0),
        opcode @ (31 | 45) => wide(opcode, small(functions, rng), &[rng.byte()]),
        32 => vec![32, 14 + one_too_far as u8, rng.byte()],
        34 => vec![34, rng.byte()],
        35 => wide(35, one_too_far as u16, &[rng.byte()]),
        opcode @ 38..=42 => wide(opcode, rng.number() as u16, &[]),
        opcode => vec![opcode],
    }
}
