//! A refused tree cut down to a run of its top statements.

use crate::limits::Limits;
use crate::tree::Stmt;
use crate::{plan, write};

/// The tree of the fewest consecutive statements that is refused with this
/// number, the earliest of equals: every run is tried, shorter ones first. A run
/// of none is accepted.
pub fn fewest(statements: &[Stmt<'_>], limits: Limits, number: u8) -> Vec<u8> {
    let refused = |tree: &Vec<u8>| plan(tree, limits).err() == Some(number);
    (1..=statements.len())
        .flat_map(|length| statements.windows(length))
        .map(write::tree)
        .find(refused)
        .expect("all statements are refused so")
}
