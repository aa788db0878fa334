//! Answers that bring a run to a place.

use crate::library;
use crate::refusal::{written, Refusal};

/// The length that the work area of [`reach`] has at the least.
pub const REACH_AREA: usize = 131_072;

/// What the library answers where no answers bring a run to the place.
const NONE: u64 = 1 << 33;

/// No function has more conditional jumps: a function has at most 65,535 instructions, and its last is a Return.
const MOST_QUESTIONS: usize = 65_534;

/// Answers with which the run of a function meets a place: the instruction there is counted as a step. They stand at the start of `answers`; the
/// rest of it is left as it was, and all of it where there are none and after a refusal. None are given exactly where no answers bring a run to
/// the place, under any budget.
///
/// There are no more of them than the function has conditional jumps, and a budget of as many steps as it has instructions is enough. Which they
/// are, where several lists bring a run there, is left open. A conditional jump is met only with an answer of its own.
///
/// Asks question 1 of the area ([`REACH_AREA`] numbers), then 17 to 22, 34 and 35: `answers` has room for as many as the function has conditional
/// jumps. What is in the area before doesn't matter; it is all zero afterwards, but refusal 1 leaves it. Nothing is allocated.
///
/// ```
/// use rulketoos::{Refusal, REACH_AREA};
///
/// // `while True: pass` is True, JumpIfFalse 1, Jump -3, Return
/// let module = rulketoos::lower_to_vec(&[0, 0, 0, 8, 1, 0, 1, 7, 2, 0, 1, 2], rulketoos::Limits::Office)?;
/// let mut area = vec![0; REACH_AREA];
/// let mut answers = [9; 4];
/// assert_eq!(rulketoos::reach(&module, 0, 0, &mut area, &mut answers)?, Some([].as_slice()));
/// assert_eq!(rulketoos::reach(&module, 0, 2, &mut area, &mut answers)?, Some([1].as_slice()));
/// assert_eq!(rulketoos::reach(&module, 0, 3, &mut area, &mut answers)?, Some([0].as_slice()));
/// assert_eq!(answers[1..], [9; 3]);
/// let refused = rulketoos::reach(&module, 0, 4, &mut area, &mut answers);
/// assert_eq!(refused, Err(Refusal::NoSuchPlace));
/// # Ok::<(), Refusal>(())
/// ```
///
/// # Errors
///
/// The first question that is answered no.
pub fn reach<'a>(
    module: &[u8],
    function: u64,
    place: u64,
    area: &mut [u32],
    answers: &'a mut [u8],
) -> Result<Option<&'a [u8]>, Refusal> {
    // SAFETY: each pointer and length are a live slice's; the two that are written to are lent here alone, so none overlap.
    let told = unsafe {
        library::rulketoos_reach(
            module.as_ptr(),
            module.len(),
            function,
            place,
            area.as_mut_ptr(),
            area.len(),
            answers.as_mut_ptr(),
            answers.len(),
        )
    };
    if told == NONE {
        return Ok(None);
    }
    written(told).map(|count| Some(&answers[..count]))
}

/// Answers with which the run of a function meets a place, as [`reach`] gives them, in a new vector. Asks questions 17 to 22 and 34: there is always
/// room. Where many places are asked for, [`reach`] saves making the area each time.
///
/// ```
/// // `if a: pass` and `b`: LoadGlobal, JumpIfFalse 1, Jump 0, LoadGlobal, Pop, Return
/// let tree = b"\0\0\0\x11\x01\0\x02\x06\x06\x01a\0\x01\x02\0\0\0\x03\x06\x01b";
/// let module = rulketoos::lower_to_vec(tree, rulketoos::Limits::Office)?;
/// assert_eq!(rulketoos::reach_to_vec(&module, 0, 0)?, Some(vec![]));
/// assert_eq!(rulketoos::reach_to_vec(&module, 0, 2)?, Some(vec![1]));
/// // code behind the last Return of a module that wasn't lowered: none
/// let foreign = [0, 0, 0, 24, 2, 0, 1, 0, 0, 0, 0, 1, 0, 0, 0, 0, 0, 0, 0, 0, 3, 33, 7, 33, 0, 0, 0, 0];
/// assert_eq!(rulketoos::reach_to_vec(&foreign, 0, 1)?, None);
/// # Ok::<(), rulketoos::Refusal>(())
/// ```
///
/// # Errors
///
/// The first question that is answered no.
pub fn reach_to_vec(module: &[u8], function: u64, place: u64) -> Result<Option<Vec<u8>>, Refusal> {
    let mut area = vec![0; REACH_AREA];
    let mut answers = vec![0; MOST_QUESTIONS];
    let found = reach(module, function, place, &mut area, &mut answers)?;
    Ok(found.map(<[u8]>::to_vec))
}
