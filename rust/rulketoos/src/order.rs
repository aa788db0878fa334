//! The order of trees.

use crate::library;
use crate::refusal::{written, Refusal};
use crate::trees::{Areas, Limits};
use std::cmp::Ordering;

/// Where the first of two trees comes in the order of trees: before the second, with it, or after it.
///
/// Every `pass` statement and every class attribute is taken out of each tree, counts and header are mended, and the bytes of the rests are compared,
/// unsigned, a proper beginning first. So the order is total and transitive, two trees are equal in it exactly where their rests are, and equal trees
/// have equal modules. The header counts the bytes: a shorter rest comes first.
///
/// Asks question 1 of the areas, then 2 to 15, 33 and 36 of the first tree, then of the second, 15 by the limits that are given. Neither tree is copied
/// or changed, and nothing is allocated.
///
/// ```
/// use rulketoos::{Areas, Limits};
/// use std::cmp::Ordering;
///
/// let mut areas = Areas::new();
/// // `None`, then `pass` and `None`, then `return None`
/// let none = [0, 0, 0, 5, 1, 0, 1, 3, 0];
/// let passed = [0, 0, 0, 6, 1, 0, 2, 2, 3, 0];
/// let returned = [0, 0, 0, 5, 1, 0, 1, 4, 0];
/// assert_eq!(rulketoos::order(&none, &passed, Limits::Office, &mut areas)?, Ordering::Equal);
/// assert_eq!(rulketoos::order(&none, &returned, Limits::Office, &mut areas)?, Ordering::Less);
/// assert_eq!(rulketoos::order(&returned, &passed, Limits::Office, &mut areas)?, Ordering::Greater);
/// # Ok::<(), rulketoos::Refusal>(())
/// ```
///
/// # Errors
///
/// The first question that is answered no; of two trees that are refused, the first tree's.
pub fn order(
    first: &[u8],
    second: &[u8],
    limits: Limits,
    areas: &mut Areas,
) -> Result<Ordering, Refusal> {
    let (area1, area2) = (&mut areas.first, &mut areas.second);
    // SAFETY: each pointer and length are a live slice's; the two that are written to are lent here alone, so none overlap.
    let told = unsafe {
        library::rulketoos_order(
            first.as_ptr(),
            first.len(),
            second.as_ptr(),
            second.len(),
            limits.number(),
            area1.as_mut_ptr(),
            area1.len(),
            area2.as_mut_ptr(),
            area2.len(),
        )
    };
    written(told).map(|place| place.cmp(&1))
}
