//! Names: their shape, the built-ins, and the made names.

pub const MAIN: &[u8] = b"__main__";
pub const INIT: &[u8] = b"__init__";
pub const ITER: &[u8] = b"__iter__";
pub const HAS_NEXT: &[u8] = b"__has_next__";
pub const NEXT: &[u8] = b"__next__";

/// The 13 built-ins with their ids; 8 and 9 are not used.
const BUILTINS: [(&[u8], u8); 13] = [
    (b"print", 0),
    (b"input", 1),
    (b"int", 2),
    (b"bool", 3),
    (b"str", 4),
    (b"len", 5),
    (b"range", 6),
    (b"float", 7),
    (b"assert", 10),
    (b"map", 11),
    (b"filter", 12),
    (b"set", 13),
    (b"treeset", 14),
];

/// Letter or `_`, then letters, digits, `_`; 1 to 64 long.
pub fn well_formed(name: &[u8]) -> bool {
    let head = |byte: u8| byte.is_ascii_alphabetic() || byte == b'_';
    match name.split_first() {
        Some((&first, rest)) => {
            name.len() <= 64 && head(first) && rest.iter().all(|&b| head(b) || b.is_ascii_digit())
        }
        None => false,
    }
}

pub fn builtin(name: &[u8]) -> Option<u8> {
    let found = BUILTINS.iter().find(|(known, _)| *known == name)?;
    Some(found.1)
}

pub fn builtin_exists(id: u8) -> bool {
    BUILTINS.iter().any(|(_, known)| *known == id)
}

/// The global that keeps the iterator of the loop whose `StoreGlobal` has
/// this place in its function.
pub fn iterator(place: usize) -> Vec<u8> {
    format!("__for_iter_{place}__").into_bytes()
}

/// A name that a loop's iterator could have: digits, one or more, between
/// `__for_iter_` and `__`. No script may spell one.
pub fn is_iterator(name: &[u8]) -> bool {
    let digits = name
        .strip_prefix(b"__for_iter_")
        .and_then(|rest| rest.strip_suffix(b"__"));
    digits.is_some_and(|digits| !digits.is_empty() && digits.iter().all(u8::is_ascii_digit))
}

/// The name of the lambda with this function number.
pub fn lambda(number: usize) -> Vec<u8> {
    format!("<lambda#{number}>").into_bytes()
}

/// Only lambdas have names of this form: no script can spell it.
pub fn is_lambda(name: &[u8]) -> bool {
    name.starts_with(b"<lambda#")
}
