//! Damaged copies of records: cuts, changes, insertions, deletions, swapped
//! counts, characters spoiled. Most get a header that counts their rest again.

use crate::make::{self, Bytes};
use crate::rng::Rng;
use crate::texts::TURNS;

/// One damaged copy; it may happen to be a good record.
pub fn damaged(rng: &mut Rng, record: &[u8]) -> Bytes {
    let mut bytes = record.to_vec();
    for _ in 0..1 + rng.below(2) {
        damage_once(rng, &mut bytes);
    }
    if rng.once_in(8) {
        return bytes;
    }
    make::mended(&bytes)
}

fn damage_once(rng: &mut Rng, bytes: &mut Bytes) {
    let length = bytes.len().max(1);
    let at = rng.below(length);
    match rng.below(10) {
        0 => bytes.truncate(at),
        1 if at < bytes.len() => bytes[at] = rng.byte(),
        2 if at < bytes.len() => bytes[at] = bytes[at].wrapping_add(1),
        3 if at < bytes.len() => bytes[at] = bytes[at].wrapping_sub(1),
        4 if at < bytes.len() => bytes[at] ^= 1 << rng.below(8),
        5 => bytes.insert(at.min(bytes.len()), rng.byte() & 31),
        6 if at < bytes.len() => {
            bytes.remove(at);
        }
        7 => swap_counts(rng, bytes),
        8 | 9 if bytes.iter().any(|&byte| byte >= 0xC2) => spoil_character(rng, bytes),
        _ => bytes.push(rng.byte()),
    }
}

/// Exchanges two neighbouring or far byte pairs, where counts often stand.
fn swap_counts(rng: &mut Rng, bytes: &mut Bytes) {
    if bytes.len() < 4 {
        return;
    }
    let (a, b) = (rng.below(bytes.len() - 1), rng.below(bytes.len() - 1));
    if a.abs_diff(b) >= 2 {
        bytes.swap(a, b);
        bytes.swap(a + 1, b + 1);
    }
}

/// Changes a byte of a character of several bytes, or the byte after it.
fn spoil_character(rng: &mut Rng, bytes: &mut Bytes) {
    let high = |&at: &usize| bytes[at] >= 0x80;
    let places: Vec<usize> = (0..bytes.len()).filter(high).collect();
    let at = *rng.pick(&places) + usize::from(rng.once_in(6));
    if let Some(byte) = bytes.get_mut(at) {
        *byte = *rng.pick(&TURNS);
    }
}
