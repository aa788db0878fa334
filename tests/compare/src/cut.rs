//! Our cut of a refused tree, held to the model: the answer, and every byte and
//! number that a call is lent.

use crate::hex;
use crate::ours::{limits, number};
use model::Limits;
use rulketoos::Areas;

/// What lies in the output and the areas before a call.
const DIRT: u8 = 0xa5;
const DIRT_WORD: u32 = 0xa5a5_a5a5;

/// What a cut gives, or the number of its refusal.
pub type Answer = Result<Option<Vec<u8>>, u8>;

/// The answer that a call has to give which is lent so much, by the answer with
/// room enough.
fn expected(whole: &Answer, tree: &[u8], areas: [usize; 2], room: usize) -> Answer {
    if areas.iter().any(|&length| length < model::AREA) {
        Err(1)
    } else if room < tree.len() {
        Err(38)
    } else {
        whole.clone()
    }
}

/// One call on a dirty output and dirty areas of these lengths.
fn call(
    tree: &[u8],
    set: Limits,
    areas: [usize; 2],
    room: usize,
    whole: &Answer,
) -> Result<(), String> {
    let expected = expected(whole, tree, areas, room);
    let mut out = vec![DIRT; room];
    let mut lent = Areas {
        first: vec![DIRT_WORD; areas[0]],
        second: vec![DIRT_WORD; areas[1]],
    };
    let ours = rulketoos::cut(tree, limits(set), &mut lent, &mut out).map_err(number);
    let count = expected.as_ref().map(|cut| cut.as_ref().map(Vec::len));
    if ours.as_ref() != count.as_ref().map_err(|number| *number) {
        return Err(format!("ours {ours:?}, the model {count:?}"));
    }
    let cut = match &expected {
        Ok(Some(cut)) => cut.as_slice(),
        _ => &[],
    };
    let (written, rest) = out.split_at(cut.len());
    if written != cut {
        return Err(format!("ours {}\nmodel {}", hex(written), hex(cut)));
    }
    if rest.iter().any(|&byte| byte != DIRT) {
        return Err("the rest of the output is changed".to_string());
    }
    let left = if expected == Err(1) { DIRT_WORD } else { 0 };
    if lent.first != vec![left; areas[0]] || lent.second != vec![left; areas[1]] {
        return Err(format!("the areas are not all {left}"));
    }
    Ok(())
}

/// Calls with areas just long enough, longer and too short, and with an output
/// of just the tree's length, longer and one short; and the model's answer with
/// room enough.
pub fn compare(tree: &[u8], set: Limits) -> Result<Answer, String> {
    let area = model::AREA;
    let length = tree.len();
    let whole = model::cut(tree, set, area, area, length);
    let short = if length.is_multiple_of(2) {
        [area - 1, area]
    } else {
        [area, area - 1]
    };
    for (areas, room) in [
        ([area, area], length),
        ([area + 1, area + 99], length + 7),
        ([area, area], length.saturating_sub(1)),
        (short, length),
        (short, 0),
    ] {
        call(tree, set, areas, room, &whole)
            .map_err(|e| format!("{set:?}, areas {areas:?}, room {room}: {e}"))?;
    }
    Ok(whole)
}
