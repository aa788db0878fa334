//! Well-formed UTF-8: the table of byte ranges in section 4 of RFC 3629.

type Range = (u8, u8);

const TAIL: Range = (0x80, 0xBF);

/// The characters by the ranges of their bytes, a line of the table each.
const CHARACTERS: [&[Range]; 9] = [
    &[(0x00, 0x7F)],
    &[(0xC2, 0xDF), TAIL],
    &[(0xE0, 0xE0), (0xA0, 0xBF), TAIL],
    &[(0xE1, 0xEC), TAIL, TAIL],
    &[(0xED, 0xED), (0x80, 0x9F), TAIL],
    &[(0xEE, 0xEF), TAIL, TAIL],
    &[(0xF0, 0xF0), (0x90, 0xBF), TAIL, TAIL],
    &[(0xF1, 0xF3), TAIL, TAIL, TAIL],
    &[(0xF4, 0xF4), (0x80, 0x8F), TAIL, TAIL],
];

/// Whether the bytes begin with a character of these ranges.
fn begins(bytes: &[u8], ranges: &[Range]) -> bool {
    let inside = |(byte, range): (&u8, &Range)| (range.0..=range.1).contains(byte);
    bytes.len() >= ranges.len() && bytes.iter().zip(ranges).all(inside)
}

/// Whether the bytes are characters with nothing over.
pub fn well_formed(mut bytes: &[u8]) -> bool {
    while !bytes.is_empty() {
        let Some(ranges) = CHARACTERS.iter().find(|ranges| begins(bytes, ranges)) else {
            return false;
        };
        bytes = &bytes[ranges.len()..];
    }
    true
}
