//! Modules for texts of their code: pages at both sides of their end, operands
//! of every number of digits, the most functions and instructions there may be.

use crate::make::Bytes;
use crate::modules::{function, long, module_case, wide, ModuleCase, Parts, RETURN};

/// All of them; the longest come last.
pub fn all() -> Vec<ModuleCase> {
    let mut cases = pages();
    cases.extend(operands());
    cases.extend(tables());
    cases.extend(counted());
    cases.push(module_case("listing-far-jumps", far_jumps().bytes()));
    cases.push(module_case("listing-functions", most_functions().bytes()));
    cases
}

/// A function of so many instructions.
fn of_length(count: usize) -> crate::modules::Function {
    let mut code = vec![vec![7]; count - 1];
    code.push(vec![RETURN]);
    function(0, &code)
}

/// Code lines on both sides of a page's end, in one function and in several.
fn pages() -> Vec<ModuleCase> {
    let lengths: [&[usize]; 17] = [
        &[],
        &[1],
        &[49],
        &[50],
        &[51],
        &[99],
        &[100],
        &[101],
        &[49, 1],
        &[50, 1],
        &[1, 50],
        &[30, 30],
        &[49, 1, 49, 1],
        &[50, 50, 50],
        &[25, 25, 25, 26],
        &[1; 50],
        &[1; 101],
    ];
    let case = |lengths: &[usize]| {
        let functions: Vec<_> = lengths.iter().map(|&count| of_length(count)).collect();
        let (many, lines) = (lengths.len(), lengths.iter().sum::<usize>());
        let first = lengths.first().unwrap_or(&0);
        let name = format!("listing-{lines}-lines-{many}-functions-{first}");
        module_case(&name, Parts::with(&functions).bytes())
    };
    lengths.into_iter().map(case).collect()
}

/// 0, and every power of ten with its neighbours, up to the last of these bits.
fn decimals(most: u64) -> Vec<u64> {
    let powers = (0..20).map(|digits| 10_u64.pow(digits));
    let near = powers.flat_map(|power| [power - 1, power, power + 1]);
    let mut all: Vec<u64> = near.filter(|&number| number < most).collect();
    all.push(most);
    all.dedup();
    all
}

/// Integers and floats: both signs, every number of digits, every digit.
fn operands() -> Vec<ModuleCase> {
    let eight = |opcode: u8, bits: u64| [&[opcode], bits.to_be_bytes().as_slice()].concat();
    let mut integers: Vec<Bytes> = Vec::new();
    for number in decimals(1 << 63) {
        integers.push(eight(0, number));
        integers.push(eight(0, number.wrapping_neg()));
    }
    let floats = [
        0,
        1,
        0x0123_4567_89AB_CDEF,
        0xFEDC_BA98_7654_3210,
        0x7FF0_0000_0000_0000,
        0x7FF8_0000_0000_0001,
        0x8000_0000_0000_0000,
        u64::MAX,
    ];
    let floats: Vec<Bytes> = floats.into_iter().map(|bits| eight(1, bits)).collect();
    let mut counts: Vec<Bytes> = Vec::new();
    for count in [0, 9, 10, 99, 100, 255] {
        counts.push(wide(31, 0, &[count]));
        counts.push(vec![32, 10, count]);
        counts.push(vec![34, count]);
        counts.push(wide(35, 0, &[count]));
        counts.push(wide(45, 0, &[count]));
    }
    vec![
        module_case("listing-integers", Parts::of(&integers).bytes()),
        module_case("listing-floats", Parts::of(&floats).bytes()),
        module_case("listing-counts", Parts::of(&counts).bytes()),
    ]
}

/// Numbers of slots, elements, symbols, strings and constants of one to five
/// digits.
fn tables() -> Vec<ModuleCase> {
    let numbers: Vec<u16> = decimals(65_534).into_iter().map(|n| n as u16).collect();
    let code = |opcodes: &[u8]| {
        let one = |&number: &u16| opcodes.iter().map(move |&opcode| wide(opcode, number, &[]));
        Parts::of(&numbers.iter().flat_map(one).collect::<Vec<_>>())
    };
    let mut slots = code(&[9, 10, 38, 39, 40, 41, 42]);
    slots.functions[0].locals = 65_535;
    let mut symbols = code(&[11, 12, 36, 37]);
    symbols.symbols = vec![vec![]; 65_535];
    let by_table = |opcode: u8| {
        let one = |&number: &u16| long(opcode, number.into());
        Parts::of(&numbers.iter().map(one).collect::<Vec<_>>())
    };
    let mut strings = by_table(2);
    strings.strings = vec![vec![]; 65_535];
    let mut constants = by_table(6);
    constants.constants = vec![0; 65_535];
    vec![
        module_case("listing-slots", slots.bytes()),
        module_case("listing-symbols", symbols.bytes()),
        module_case("listing-strings", strings.bytes()),
        module_case("listing-constants", constants.bytes()),
    ]
}

/// Functions of conditional jumps, of calls and of neither, whose counts have
/// one to six digits.
fn counted() -> Vec<ModuleCase> {
    let of = |name: &str, count: usize, instructions: &[Bytes], functions: usize| {
        let mut code: Vec<Bytes> = instructions
            .iter()
            .cycle()
            .take(count - 1)
            .cloned()
            .collect();
        code.push(vec![RETURN]);
        let name = format!("sheet-{name}-{count}-times-{functions}");
        module_case(
            &name,
            Parts::with(&vec![function(0, &code); functions]).bytes(),
        )
    };
    let questions = [long(29, 0), long(30, 0)];
    let calls = [
        wide(31, 0, &[1]),
        vec![32, 0, 1],
        vec![34, 1],
        wide(35, 0, &[1]),
    ];
    let neither = [long(28, 0), wide(45, 0, &[1]), vec![RETURN]];
    let mut cases = Vec::new();
    for count in [2, 10, 11, 100, 101, 1_001] {
        cases.push(of("questions", count, &questions, 3));
        cases.push(of("calls", count, &calls, 2));
        cases.push(of("neither", count, &neither, 11));
    }
    cases.push(of("questions", 52_000, &questions, 2));
    cases.push(of("calls", 65_535, &[vec![34, 1]], 3));
    cases
}

/// A function of 65,535 instructions whose jumps go from one end to the other.
pub fn far_jumps() -> Parts {
    let mut code = vec![vec![7]; 65_535];
    for (place, opcode) in [(0, 28), (1, 29), (2, 30)] {
        code[place] = long(opcode, 65_533 - place as i32);
    }
    for (place, opcode) in [(65_531, 28), (65_532, 29), (65_533, 30)] {
        code[place] = long(opcode, -(place as i32) - 1);
    }
    code[65_534] = vec![RETURN];
    Parts::with(&[function(0, &code)])
}

/// The longest module with as many functions as it holds: 65,534 of a Return.
pub fn most_functions() -> Parts {
    Parts {
        symbols: vec![vec![]],
        functions: vec![of_length(1); 65_534],
        ..Parts::default()
    }
}
