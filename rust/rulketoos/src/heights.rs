//! Stack heights: the number in a function's record, and the check of modules from elsewhere.

use crate::library;
use crate::modules::code;
use crate::refusal::{accepted, Refusal};

/// The length that the work area of [`heights`] has at the least.
pub const HEIGHTS_AREA: usize = 131_072;

/// Bytes between a function's height and its code: the height's own two, and the count of instructions.
const BEFORE_CODE: usize = 4;

/// The number in a function's record: how many values its run has on the stack at most, in a module that is lowered or that [`heights`] accepts.
/// Asks questions 17 to 22; function 0 is main.
///
/// ```
/// use rulketoos::{Limits, Refusal};
///
/// // `[None, None]` is None, None, BuildList 2, Pop, Return
/// let tree = [0, 0, 0, 9, 1, 0, 1, 3, 11, 0, 2, 0, 0];
/// let module = rulketoos::lower_to_vec(&tree, Limits::Office)?;
/// assert_eq!(rulketoos::height(&module, 0), Ok(2));
/// assert_eq!(rulketoos::height(&module, 1), Err(Refusal::NoSuchFunction));
/// # Ok::<(), Refusal>(())
/// ```
///
/// # Errors
///
/// The first question that is answered no.
pub fn height(module: &[u8], function: u64) -> Result<u16, Refusal> {
    let code = code(module, function)?;
    let start = code.as_ptr() as usize - module.as_ptr() as usize - BEFORE_CODE;
    Ok(u16::from_be_bytes([module[start], module[start + 1]]))
}

/// Checks the stack heights of a module record: every place of every function that some answers bring a run to is always met at one height, has
/// values enough for what it pops, and leaves no more than the function's [`height`]. Every module that is lowered passes.
///
/// Asks question 1 of the area ([`HEIGHTS_AREA`] numbers), then 17 to 21 and 37. What is in the area before doesn't matter; it is all zero
/// afterwards, but refusal 1 leaves it. Nothing is allocated.
///
/// ```
/// use rulketoos::{Limits, Refusal, HEIGHTS_AREA};
///
/// let mut area = vec![0; HEIGHTS_AREA];
/// // `None` is None, Pop, Return
/// let mut module = rulketoos::lower_to_vec(&[0, 0, 0, 5, 1, 0, 1, 3, 0], Limits::Office)?;
/// assert_eq!(rulketoos::heights(&module, &mut area), Ok(()));
/// // a module that says that it needs no stack: the first instruction leaves more
/// let end = module.len();
/// module[end - 10] = 0;
/// assert_eq!(rulketoos::heights(&module, &mut area), Err(Refusal::BadHeights));
/// # Ok::<(), Refusal>(())
/// ```
///
/// # Errors
///
/// The first question that is answered no.
pub fn heights(module: &[u8], area: &mut [u32]) -> Result<(), Refusal> {
    // SAFETY: each pointer and length are a live slice's; the one that is written to is lent here alone, so they don't overlap.
    accepted(unsafe {
        library::rulketoos_heights(module.as_ptr(), module.len(), area.as_mut_ptr(), area.len())
    })
}

/// Checks the stack heights of a module record as [`heights`] does, in an area of its own. Asks questions 17 to 21 and 37.
///
/// ```
/// let module = rulketoos::lower_to_vec(&[0, 0, 0, 3, 1, 0, 0], rulketoos::Limits::Office)?;
/// rulketoos::heights_of(&module)?;
/// # Ok::<(), rulketoos::Refusal>(())
/// ```
///
/// # Errors
///
/// The first question that is answered no.
pub fn heights_of(module: &[u8]) -> Result<(), Refusal> {
    heights(module, &mut vec![0; HEIGHTS_AREA])
}
