//! Our order of trees, held to the model: the answer, and every number that a
//! call is lent.

use crate::ours::{limits, number};
use model::Limits;
use rulketoos::Areas;

/// What lies in the areas before a call.
const DIRT: u32 = 0xa5a5_a5a5;

/// One call on dirty areas of these lengths.
pub fn compare(
    first: &[u8],
    second: &[u8],
    set: Limits,
    area1: usize,
    area2: usize,
) -> Result<(), String> {
    let model = model::order(first, second, set, area1, area2);
    let mut areas = Areas {
        first: vec![DIRT; area1],
        second: vec![DIRT; area2],
    };
    let ours = rulketoos::order(first, second, limits(set), &mut areas).map_err(number);
    if ours != model {
        return Err(format!("ours {ours:?}, the model {model:?}"));
    }
    let left = if model == Err(1) { DIRT } else { 0 };
    if areas.first != vec![left; area1] || areas.second != vec![left; area2] {
        return Err(format!("the areas are not all {left}"));
    }
    Ok(())
}
