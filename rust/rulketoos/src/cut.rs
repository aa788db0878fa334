//! A refused tree cut down.

use crate::library;
use crate::refusal::{written, Refusal};
use crate::trees::{told_of_tree, Areas, Limits};

/// What the library answers where the tree isn't refused.
const NOT_REFUSED: u64 = 1 << 33;

/// Cuts a refused tree down: the fewest of its consecutive top statements that, as a tree of their own, are refused by the same question, the earliest
/// of equals. No shorter stretch of them is so refused.
///
/// Where the tree is refused by 7 to 15, 33 or 36, that tree goes to `out` from its start, and the answer is how many bytes it has; where it isn't
/// refused there is none. The rest of `out` is left as it was, and all of it where there is none and after a refusal.
///
/// Asks question 1 of the areas, 38 of `out`, which has to be as long as the whole tree, then 2 to 6. 15 is asked by the limits that are given, 16 isn't.
/// Nothing is allocated.
///
/// A tree of thousands of top statements that is refused by 15 may take seconds; any other takes milliseconds.
///
/// ```
/// use rulketoos::{Areas, Limits, Refusal};
///
/// let mut areas = Areas::new();
/// // `None`, `while None: None`, `break`, `break`
/// let tree = [0, 0, 0, 13, 1, 0, 4, 3, 0, 7, 0, 0, 1, 3, 0, 0, 0];
/// assert_eq!(rulketoos::check(&tree), Err(Refusal::LooseBreak));
/// let mut out = [9; 17];
/// let count = rulketoos::cut(&tree, Limits::Office, &mut areas, &mut out)?;
/// assert_eq!(count, Some(8));
/// assert_eq!(out[..8], [0, 0, 0, 4, 1, 0, 1, 0]);
/// assert_eq!(out[8..], [9; 9]);
/// let short = rulketoos::cut(&tree, Limits::Office, &mut areas, &mut out[..16]);
/// assert_eq!(short, Err(Refusal::CutTooShort));
/// assert_eq!(rulketoos::cut(&[0, 0, 0, 3, 1, 0, 0], Limits::Office, &mut areas, &mut out)?, None);
/// # Ok::<(), Refusal>(())
/// ```
///
/// # Errors
///
/// The first question of 1, 38 and 2 to 6 that is answered no.
pub fn cut(
    tree: &[u8],
    limits: Limits,
    areas: &mut Areas,
    out: &mut [u8],
) -> Result<Option<usize>, Refusal> {
    let told = told_of_tree(library::rulketoos_cut, tree, limits, areas, out);
    if told == NOT_REFUSED {
        return Ok(None);
    }
    written(told).map(Some)
}

/// Cuts a refused tree down, as [`cut`] does, to a new vector; none where it isn't refused. Asks questions 2 to 6: there is always room.
///
/// ```
/// use rulketoos::{Limits, Refusal};
///
/// // `def f(): ..` 70 times: with main 64 are one function too many for the console
/// let mut tree = vec![0, 0, 1, 237, 1, 0, 70];
/// tree.extend([9, 1, b'f', 0, 0, 0, 0].repeat(70));
/// let cut = rulketoos::cut_to_vec(&tree, Limits::Console)?.expect("refused");
/// assert_eq!(cut[..7], [0, 0, 1, 195, 1, 0, 64]);
/// assert_eq!(rulketoos::lower_to_vec(&cut, Limits::Console), Err(Refusal::ModuleTooLarge));
/// assert_eq!(rulketoos::cut_to_vec(&tree, Limits::Office)?, None);
/// # Ok::<(), Refusal>(())
/// ```
///
/// # Errors
///
/// The first question that is answered no.
pub fn cut_to_vec(tree: &[u8], limits: Limits) -> Result<Option<Vec<u8>>, Refusal> {
    let mut out = vec![0; tree.len()];
    let count = cut(tree, limits, &mut Areas::new(), &mut out)?;
    Ok(count.map(|count| {
        out.truncate(count);
        out.shrink_to_fit();
        out
    }))
}
