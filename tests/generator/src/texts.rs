//! Strings in UTF-8: characters at both ends of every range of its table, and
//! every form that is none.

use crate::make::Bytes;
use crate::rng::Rng;

/// The first and last code point of each line of the table in section 4 of
/// RFC 3629, and of the codes on both sides of the surrogates.
pub const EDGES: [char; 18] = [
    '\0',
    '\u{7F}',
    '\u{80}',
    '\u{7FF}',
    '\u{800}',
    '\u{FFF}',
    '\u{1000}',
    '\u{CFFF}',
    '\u{D000}',
    '\u{D7FF}',
    '\u{E000}',
    '\u{FFFF}',
    '\u{10000}',
    '\u{3FFFF}',
    '\u{40000}',
    '\u{FFFFF}',
    '\u{100000}',
    '\u{10FFFF}',
];

/// Names of papers; the third is the second with its accent apart.
pub const PAPERS: [&str; 6] = [
    "Büttenpapier",
    "vergé",
    "verge\u{301}",
    "papír",
    "和紙",
    "🗞 journal",
];

/// What is no character, by the fault.
pub const DAMAGED: [(&str, &[&[u8]]); 6] = [
    (
        "overlong",
        &[
            &[0xC0, 0x80],
            &[0xC0, 0xAF],
            &[0xC1, 0xBF],
            &[0xE0, 0x80, 0x80],
            &[0xE0, 0x9F, 0xBF],
            &[0xF0, 0x80, 0x80, 0x80],
            &[0xF0, 0x8F, 0xBF, 0xBF],
        ],
    ),
    (
        "surrogate",
        &[
            &[0xED, 0xA0, 0x80],
            &[0xED, 0xAF, 0xBF],
            &[0xED, 0xB0, 0x80],
            &[0xED, 0xBF, 0xBF],
            &[0xED, 0xA0, 0x80, 0xED, 0xB0, 0x80],
        ],
    ),
    (
        "above",
        &[
            &[0xF4, 0x90, 0x80, 0x80],
            &[0xF4, 0xBF, 0xBF, 0xBF],
            &[0xF5, 0x80, 0x80, 0x80],
            &[0xF7, 0xBF, 0xBF, 0xBF],
            &[0xF8, 0x88, 0x80, 0x80, 0x80],
            &[0xFC, 0x84, 0x80, 0x80, 0x80, 0x80],
            &[0xFE],
            &[0xFF],
        ],
    ),
    (
        "cut",
        &[
            &[0xC2],
            &[0xDF],
            &[0xE0],
            &[0xE0, 0xA0],
            &[0xE1, 0x80],
            &[0xED, 0x9F],
            &[0xEF, 0xBF],
            &[0xF0],
            &[0xF0, 0x90],
            &[0xF0, 0x90, 0x80],
            &[0xF3, 0xBF, 0xBF],
            &[0xF4, 0x8F, 0xBF],
        ],
    ),
    (
        "stray",
        &[
            &[0x80],
            &[0xBF],
            &[0xC2, 0x80, 0x80],
            &[0xE0, 0xA0, 0x80, 0xBF],
            &[0xF4, 0x8F, 0xBF, 0xBF, 0x80],
        ],
    ),
    (
        "tail",
        &[
            &[0xC2, 0x7F],
            &[0xC2, 0xC0],
            &[0xDF, 0xFF],
            &[0xE0, 0xA0, 0x7F],
            &[0xE0, 0xC0, 0x80],
            &[0xE1, 0x7F, 0x80],
            &[0xEC, 0x80, 0xC0],
            &[0xED, 0x80, 0xC2, 0x80],
            &[0xF0, 0x90, 0x7F, 0x80],
            &[0xF0, 0xC0, 0x80, 0x80],
            &[0xF1, 0x80, 0x80, 0x00],
            &[0xF4, 0x80, 0x80, 0xC0],
        ],
    ),
];

/// Bytes at the ends of the ranges and one beyond.
pub const TURNS: [u8; 20] = [
    0x00, 0x7F, 0x80, 0x8F, 0x90, 0x9F, 0xA0, 0xBF, 0xC0, 0xC1, 0xC2, 0xDF, 0xE0, 0xEC, 0xED, 0xEE,
    0xEF, 0xF0, 0xF4, 0xF5,
];

/// A form that is no character.
pub fn damaged(rng: &mut Rng) -> &'static [u8] {
    let (_, forms) = *rng.pick(&DAMAGED);
    rng.pick::<&[u8]>(forms)
}

fn character(rng: &mut Rng) -> char {
    let below = *rng.pick(&[0x80, 0x800, 0x1_0000, 0x11_0000]);
    let any = char::from_u32(rng.below(below) as u32);
    if rng.once_in(2) {
        *rng.pick(&EDGES)
    } else {
        any.unwrap_or('é')
    }
}

/// A few characters of any length.
pub fn text(rng: &mut Rng) -> Bytes {
    if rng.once_in(4) {
        return rng.pick(&PAPERS).as_bytes().to_vec();
    }
    let text: String = (0..1 + rng.below(4)).map(|_| character(rng)).collect();
    text.into_bytes()
}

/// A few characters with a form between them that is none.
pub fn damaged_text(rng: &mut Rng) -> Bytes {
    let (before, after) = (text(rng), text(rng));
    let form = damaged(rng);
    match rng.below(4) {
        0 => form.to_vec(),
        1 => [before.as_slice(), form].concat(),
        2 => [form, after.as_slice()].concat(),
        _ => [before.as_slice(), form, &after].concat(),
    }
}
