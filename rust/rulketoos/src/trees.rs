//! Trees: the check and the lowering.

use crate::library;
use crate::refusal::{accepted, written, Refusal};

/// The length that each work area has at the least.
pub const AREA: usize = 16_384;

/// Room for the module of every tree that is accepted. It holds 1,024 symbols of 64 bytes, 8,192 instructions of 9, the strings of a whole tree and all functions and classes.
pub const MODULE_ROOM: usize = 262_144;

/// A set of limits: how much question 15 lets a module have.
///
/// With the same lengths of areas and output, what the console takes gives the office the very same bytes. What the office refuses the console refuses: by the same question, or by 15 where the office says 16.
///
/// ```
/// use rulketoos::{Limits, Refusal};
///
/// // `def f(): ..` 64 times: with main 65 functions
/// let mut tree = vec![0, 0, 1, 195, 1, 0, 64];
/// tree.extend([9, 1, b'f', 0, 0, 0, 0].repeat(64));
/// assert!(rulketoos::lower_to_vec(&tree, Limits::Office).is_ok());
/// assert_eq!(rulketoos::lower_to_vec(&tree, Limits::Console), Err(Refusal::ModuleTooLarge));
/// ```
#[derive(Debug, Clone, Copy, PartialEq, Eq, Hash, Default)]
#[repr(u8)]
pub enum Limits {
    /// 0, the office's: 256 functions, 1,024 symbols, 512 strings, 64 classes, 8,192 instructions.
    #[default]
    Office = 0,
    /// 1, those of the console at the casing-in machine: 64 functions, 256 symbols, 512 strings, 64 classes, 2,048 instructions.
    Console = 1,
}

impl Limits {
    /// The number of the set, 0 or 1.
    #[must_use]
    pub fn number(self) -> u32 {
        self as u32
    }
}

impl From<u32> for Limits {
    /// The set that a number names: 0 is the office, every other number the console.
    fn from(number: u32) -> Limits {
        match number {
            0 => Limits::Office,
            _ => Limits::Console,
        }
    }
}

/// The two work areas of the lowering. Make them once and lend them to every call; what is in them doesn't matter.
///
/// Both are all zero after every call but one refused with [`Refusal::AreasTooShort`], which leaves them.
#[derive(Debug, Clone, PartialEq, Eq)]
pub struct Areas {
    /// The first area; [`AREA`] long or longer.
    pub first: Vec<u32>,
    /// The second area; [`AREA`] long or longer.
    pub second: Vec<u32>,
}

impl Areas {
    /// Two areas of [`AREA`] zeros.
    #[must_use]
    pub fn new() -> Areas {
        Areas {
            first: vec![0; AREA],
            second: vec![0; AREA],
        }
    }
}

impl Default for Areas {
    fn default() -> Areas {
        Areas::new()
    }
}

/// Lowers a tree record: the module record goes to `out` from its start, and the answer is how many bytes it has. The rest of `out` is left as it was, and after a refusal all of it.
///
/// Asks questions 1 to 16, 33 and 36, 15 by the limits that are given. Nothing is allocated.
///
/// ```
/// use rulketoos::Limits;
///
/// let mut areas = rulketoos::Areas::new();
/// let mut out = [9; 40];
/// let count = rulketoos::lower(&[0, 0, 0, 3, 1, 0, 0], Limits::Office, &mut areas, &mut out)?;
/// assert_eq!(count, 34);
/// assert_eq!(&out[..count], b"\0\0\0\x1e\x02\0\x01\x08__main__\0\0\0\x01\0\0\0\0\0\0\0\0\x01\x21\0\0\0\0");
/// assert_eq!(out[count..], [9; 6]);
/// # Ok::<(), rulketoos::Refusal>(())
/// ```
///
/// # Errors
///
/// The first question that is answered no.
pub fn lower(
    tree: &[u8],
    limits: Limits,
    areas: &mut Areas,
    out: &mut [u8],
) -> Result<usize, Refusal> {
    written(told_of_tree(
        library::rulketoos_lower,
        tree,
        limits,
        areas,
        out,
    ))
}

/// Lowers a tree record as [`lower`] does, by the plain lowering: it measures how many instructions each part of the tree will have, and writes every jump as it stays. docs/LOWERING.md reads it aloud.
///
/// Answer, bytes and areas are those of [`lower`], on every input and for both sets of limits. Nothing is allocated.
///
/// ```
/// use rulketoos::{Areas, Limits};
///
/// let mut areas = Areas::new();
/// let (mut out, mut same) = ([0; 64], [0; 64]);
/// // `while None: pass`
/// let tree = [0, 0, 0, 8, 1, 0, 1, 7, 0, 0, 1, 2];
/// let count = rulketoos::lower_measured(&tree, Limits::Office, &mut areas, &mut out)?;
/// // None, JumpIfFalse over the block and the jump back, Jump back, Return
/// assert_eq!(rulketoos::code(&out[..count], 0)?, [5, 29, 0, 0, 0, 1, 28, 255, 255, 255, 253, 33]);
/// assert_eq!(rulketoos::lower(&tree, Limits::Office, &mut areas, &mut same)?, count);
/// assert_eq!(out, same);
/// # Ok::<(), rulketoos::Refusal>(())
/// ```
///
/// # Errors
///
/// The first question that is answered no.
pub fn lower_measured(
    tree: &[u8],
    limits: Limits,
    areas: &mut Areas,
    out: &mut [u8],
) -> Result<usize, Refusal> {
    written(told_of_tree(
        library::rulketoos_lower_measured,
        tree,
        limits,
        areas,
        out,
    ))
}

/// A call of the library that reads a tree and writes to an output: a lowering, or the cut.
pub(crate) type TreeCall = unsafe extern "C" fn(
    *const u8,
    usize,
    u32,
    *mut u32,
    usize,
    *mut u32,
    usize,
    *mut u8,
    usize,
) -> u64;

/// The answer of such a call, as a number.
pub(crate) fn told_of_tree(
    call: TreeCall,
    tree: &[u8],
    limits: Limits,
    areas: &mut Areas,
    out: &mut [u8],
) -> u64 {
    let (first, second) = (&mut areas.first, &mut areas.second);
    // SAFETY: each pointer and length are a live slice's; the three that are written to are lent here alone, so none overlap.
    unsafe {
        call(
            tree.as_ptr(),
            tree.len(),
            limits.number(),
            first.as_mut_ptr(),
            first.len(),
            second.as_mut_ptr(),
            second.len(),
            out.as_mut_ptr(),
            out.len(),
        )
    }
}

/// Lowers a tree record to a new vector: the module record.
///
/// Asks questions 2 to 15, 33 and 36: there is always room. Where many trees are lowered, [`lower`] saves making the areas and the output each time.
///
/// ```
/// use rulketoos::Limits;
///
/// let module = rulketoos::lower_to_vec(&[0, 0, 0, 3, 1, 0, 0], Limits::Console)?;
/// assert_eq!(module.len(), 34);
/// assert_eq!(rulketoos::read(&module), Ok(()));
/// # Ok::<(), rulketoos::Refusal>(())
/// ```
///
/// # Errors
///
/// The first question that is answered no.
pub fn lower_to_vec(tree: &[u8], limits: Limits) -> Result<Vec<u8>, Refusal> {
    let mut module = vec![0; MODULE_ROOM];
    let count = lower(tree, limits, &mut Areas::new(), &mut module)?;
    module.truncate(count);
    module.shrink_to_fit();
    Ok(module)
}

/// Checks a tree record by itself: questions 2 to 13, 33 and 36.
///
/// ```
/// use rulketoos::Refusal;
///
/// assert_eq!(rulketoos::check(&[0, 0, 0, 3, 1, 0, 0]), Ok(()));
/// // `break` outside a loop
/// assert_eq!(rulketoos::check(&[0, 0, 0, 4, 1, 0, 1, 0]), Err(Refusal::LooseBreak));
/// // the name of a loop's iterator
/// let tree = b"\0\0\0\x14\x01\0\x01\x03\x06\x0e__for_iter_2__";
/// assert_eq!(rulketoos::check(tree), Err(Refusal::IteratorName));
/// // strings are UTF-8: "é", and its first byte alone
/// assert_eq!(rulketoos::check(b"\0\0\0\x09\x01\0\x01\x03\x05\0\x02\xc3\xa9"), Ok(()));
/// assert_eq!(rulketoos::check(b"\0\0\0\x08\x01\0\x01\x03\x05\0\x01\xc3"), Err(Refusal::BadString));
/// ```
///
/// # Errors
///
/// The first question that is answered no.
pub fn check(tree: &[u8]) -> Result<(), Refusal> {
    // SAFETY: pointer and length are a live slice's, and it is only read.
    accepted(unsafe { library::rulketoos_check(tree.as_ptr(), tree.len()) })
}
