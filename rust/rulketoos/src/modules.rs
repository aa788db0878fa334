//! Modules: the reader, the code of a function, the run.

use crate::library;
use crate::refusal::{accepted, refusal, Refusal};

/// Reads a module record: questions 17 to 21.
///
/// ```
/// use rulketoos::{Limits, Refusal};
///
/// let mut module = rulketoos::lower_to_vec(&[0, 0, 0, 3, 1, 0, 0], Limits::Office)?;
/// assert_eq!(rulketoos::read(&module), Ok(()));
/// module[4] = 1;
/// assert_eq!(rulketoos::read(&module), Err(Refusal::ModuleVersion));
/// # Ok::<(), Refusal>(())
/// ```
///
/// # Errors
///
/// The first question that is answered no.
pub fn read(module: &[u8]) -> Result<(), Refusal> {
    // SAFETY: pointer and length are a live slice's, and it is only read.
    accepted(unsafe { library::rulketoos_read(module.as_ptr(), module.len()) })
}

/// The code of one function: a part of the module's bytes. Asks questions 17 to 22; function 0 is main.
///
/// ```
/// use rulketoos::{Limits, Refusal};
///
/// let module = rulketoos::lower_to_vec(&[0, 0, 0, 3, 1, 0, 0], Limits::Office)?;
/// assert_eq!(rulketoos::code(&module, 0), Ok([33].as_slice())); // Return
/// assert_eq!(rulketoos::code(&module, 1), Err(Refusal::NoSuchFunction));
/// # Ok::<(), Refusal>(())
/// ```
///
/// # Errors
///
/// The first question that is answered no.
pub fn code(module: &[u8], function: u64) -> Result<&[u8], Refusal> {
    // SAFETY: pointer and length are a live slice's, and it is only read.
    let told = unsafe { library::rulketoos_code(module.as_ptr(), module.len(), function) };
    let low = (told & 0xffff_ffff) as u32;
    match told >> 32 {
        0 => Err(refusal(low)),
        start => Ok(&module[start as usize..][..low as usize]),
    }
}

/// How a run ended.
#[derive(Debug, Clone, Copy, PartialEq, Eq, Hash)]
#[repr(u8)]
pub enum Ending {
    /// 1: the function returned.
    Returned = 1,
    /// 2: a question was met and no answer was left.
    NoAnswerLeft = 2,
    /// 3: the budget was spent.
    BudgetSpent = 3,
}

impl Ending {
    /// The number of the ending, 1 to 3.
    #[must_use]
    pub fn number(self) -> u32 {
        self as u32
    }

    fn of(number: u64) -> Ending {
        match number {
            1 => Ending::Returned,
            2 => Ending::NoAnswerLeft,
            3 => Ending::BudgetSpent,
            other => panic!("the library answers with ending 1, 2 or 3, not {other}"),
        }
    }
}

/// What a run came to.
#[derive(Debug, Clone, Copy, PartialEq, Eq)]
pub struct Run<'e> {
    /// How it ended.
    pub ending: Ending,
    /// How many instructions it met, jumps included.
    pub steps: u64,
    /// How many answers it used.
    pub used: usize,
    /// Its events: the part of the lent buffer that was written.
    pub events: &'e [u8],
}

/// Runs a function of a module record on answers, each 0 or 1, with at most `budget` steps. Asks questions 17 to 24.
///
/// An event is the bytes of an instruction that is no jump, or a conditional jump's opcode and its answer. Events go to `events` from its start; the rest of it is left as it was, and after a refusal all of it. An
/// event has at most 9 bytes, so 9 times the budget is always room enough.
///
/// ```
/// use rulketoos::{Ending, Limits};
///
/// // `while True: pass`
/// let tree = [0, 0, 0, 8, 1, 0, 1, 7, 2, 0, 1, 2];
/// let module = rulketoos::lower_to_vec(&tree, Limits::Office)?;
/// let mut events = [0; 90];
/// let run = rulketoos::run(&module, 0, &[1, 0], 10, &mut events)?;
/// assert_eq!(run.ending, Ending::Returned);
/// assert_eq!((run.steps, run.used), (6, 2));
/// // True, yes; True, no; Return
/// assert_eq!(run.events, [3, 29, 1, 3, 29, 0, 33]);
/// # Ok::<(), rulketoos::Refusal>(())
/// ```
///
/// # Errors
///
/// The first question that is answered no.
pub fn run<'e>(
    module: &[u8],
    function: u64,
    answers: &[u8],
    budget: u64,
    events: &'e mut [u8],
) -> Result<Run<'e>, Refusal> {
    let mut numbers = [0; 4];
    // SAFETY: each pointer and length are a live slice's; the two that are written to are lent here alone, so none overlap.
    let told = unsafe {
        library::rulketoos_run(
            module.as_ptr(),
            module.len(),
            function,
            answers.as_ptr(),
            answers.len(),
            budget,
            events.as_mut_ptr(),
            events.len(),
            numbers.as_mut_ptr(),
            numbers.len(),
        )
    };
    accepted(told)?;
    let [ending, steps, used, bytes] = numbers;
    Ok(Run {
        ending: Ending::of(ending),
        steps,
        used: used as usize,
        events: &events[..bytes as usize],
    })
}
