//! Makers of tree records: each gives the bytes of one part.

pub type Bytes = Vec<u8>;

pub const AND: u8 = 12;
pub const OR: u8 = 13;

fn join(kind: u8, parts: &[&[u8]]) -> Bytes {
    let mut bytes = vec![kind];
    for part in parts {
        bytes.extend(*part);
    }
    bytes
}

/// A 16-bit count and the items.
pub fn counted(items: &[Bytes]) -> Bytes {
    let count = u16::try_from(items.len()).expect("a 16-bit count");
    let mut bytes = count.to_be_bytes().to_vec();
    for item in items {
        bytes.extend(item);
    }
    bytes
}

/// The same item so many times.
pub fn times(count: usize, item: &Bytes) -> Vec<Bytes> {
    vec![item.clone(); count]
}

/// The header with the count of what follows it.
pub fn with_header(rest: &[u8]) -> Bytes {
    let length = u32::try_from(rest.len()).expect("32 bits");
    let mut bytes = length.to_be_bytes().to_vec();
    bytes.extend(rest);
    bytes
}

/// The record again with a header that counts its rest.
pub fn mended(record: &[u8]) -> Bytes {
    with_header(record.get(4..).unwrap_or(&[]))
}

/// A whole tree record.
pub fn tree(stmts: &[Bytes]) -> Bytes {
    with_header(&join(1, &[&counted(stmts)]))
}

pub fn raw_name(name: &[u8]) -> Bytes {
    let length = u8::try_from(name.len()).expect("a length byte");
    join(length, &[name])
}

pub fn name(name: &str) -> Bytes {
    raw_name(name.as_bytes())
}

pub fn names(list: &[&str]) -> Bytes {
    counted(&list.iter().map(|n| name(n)).collect::<Vec<_>>())
}

// Statements.

pub fn break_() -> Bytes {
    vec![0]
}

pub fn continue_() -> Bytes {
    vec![1]
}

pub fn pass() -> Bytes {
    vec![2]
}

pub fn expr(value: Bytes) -> Bytes {
    join(3, &[&value])
}

pub fn ret(value: Bytes) -> Bytes {
    join(4, &[&value])
}

pub fn assign(target: Bytes, value: Bytes) -> Bytes {
    join(5, &[&target, &value])
}

/// The first arm is the `if`, the others are the elifs.
pub fn if_(arms: &[(Bytes, Vec<Bytes>)], otherwise: Option<&[Bytes]>) -> Bytes {
    let arm = |(condition, block): &(Bytes, Vec<Bytes>)| {
        let mut bytes = condition.clone();
        bytes.extend(counted(block));
        bytes
    };
    let elifs: Vec<Bytes> = arms[1..].iter().map(arm).collect();
    let last = match otherwise {
        None => vec![0],
        Some(block) => join(1, &[&counted(block)]),
    };
    join(6, &[&arm(&arms[0]), &counted(&elifs), &last])
}

pub fn while_(condition: Bytes, body: &[Bytes]) -> Bytes {
    join(7, &[&condition, &counted(body)])
}

pub fn for_(variable: &str, iterable: Bytes, body: &[Bytes]) -> Bytes {
    join(8, &[&name(variable), &iterable, &counted(body)])
}

/// A method is a def without the kind byte.
pub fn method(called: &str, params: &[&str], body: &[Bytes]) -> Bytes {
    let mut bytes = name(called);
    bytes.extend(names(params));
    bytes.extend(counted(body));
    bytes
}

pub fn def(called: &str, params: &[&str], body: &[Bytes]) -> Bytes {
    join(9, &[&method(called, params, body)])
}

pub fn class(called: &str, methods: &[Bytes], attributes: &[(&str, Bytes)]) -> Bytes {
    let attribute = |(n, value): &(&str, Bytes)| {
        let mut bytes = name(n);
        bytes.extend(value);
        bytes
    };
    let attributes: Vec<Bytes> = attributes.iter().map(attribute).collect();
    join(
        10,
        &[&name(called), &counted(methods), &counted(&attributes)],
    )
}

// Expressions.

pub fn none() -> Bytes {
    vec![0]
}

pub fn false_() -> Bytes {
    vec![1]
}

pub fn true_() -> Bytes {
    vec![2]
}

pub fn int(value: i64) -> Bytes {
    join(3, &[&value.to_be_bytes()])
}

pub fn float(bits: u64) -> Bytes {
    join(4, &[&bits.to_be_bytes()])
}

pub fn string(bytes: &[u8]) -> Bytes {
    let length = u16::try_from(bytes.len()).expect("a 16-bit count");
    join(5, &[&length.to_be_bytes(), bytes])
}

pub fn var(called: &str) -> Bytes {
    join(6, &[&name(called)])
}

pub fn raw_var(called: &[u8]) -> Bytes {
    join(6, &[&raw_name(called)])
}

pub fn unary(operator: u8, operand: Bytes) -> Bytes {
    join(7, &[&[operator], &operand])
}

pub fn binary(operator: u8, left: Bytes, right: Bytes) -> Bytes {
    join(8, &[&[operator], &left, &right])
}

pub fn call(callee: Bytes, args: &[Bytes]) -> Bytes {
    join(9, &[&callee, &counted(args)])
}

/// A call by name.
pub fn call_name(called: &str, args: &[Bytes]) -> Bytes {
    call(var(called), args)
}

pub fn attr(object: Bytes, called: &str) -> Bytes {
    join(10, &[&object, &name(called)])
}

pub fn list(items: &[Bytes]) -> Bytes {
    join(11, &[&counted(items)])
}

pub fn dict(pairs: &[(Bytes, Bytes)]) -> Bytes {
    let pairs: Vec<Bytes> = pairs
        .iter()
        .map(|(key, value)| [key.as_slice(), value].concat())
        .collect();
    join(12, &[&counted(&pairs)])
}

pub fn tuple(items: &[Bytes]) -> Bytes {
    join(13, &[&counted(items)])
}

pub fn set(items: &[Bytes]) -> Bytes {
    join(14, &[&counted(items)])
}

pub fn tree_set(items: &[Bytes]) -> Bytes {
    join(15, &[&counted(items)])
}

pub fn index(object: Bytes, place: Bytes) -> Bytes {
    join(16, &[&object, &place])
}

pub fn lambda(params: &[&str], body: Bytes) -> Bytes {
    join(17, &[&names(params), &body])
}
