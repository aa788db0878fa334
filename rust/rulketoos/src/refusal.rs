//! Refusals: the questions that are answered no.

use std::error::Error;
use std::fmt;

/// The first question that is answered no.
///
/// The lowering asks 1 to 16, 33 and 36, the check of a tree 2 to 13, 33 and 36 (33 just after 7, 36 just after 10), the reader of modules 17 to 21, the hand-back of code 17 to 22 and the run 17 to 24; the listing 17 to 21, then 31, the count sheet 17 to 21, then 32;
/// the search for answers that bring a run to a place 1, 17 to 22, then 34 and 35; the check of heights 1, 17 to 21, then 37; the order of trees 1, then 2 to 15, 33 and 36 of each; the cut of a refused tree 1, 38, then 2 to 6.
///
/// ```
/// use rulketoos::Refusal;
///
/// let refusal = rulketoos::check(&[0, 0, 0, 3, 2, 0, 0]).unwrap_err();
/// assert_eq!(refusal, Refusal::TreeVersion);
/// assert_eq!(refusal.number(), 4);
/// assert_eq!(refusal.to_string(), "refused 4: is the tree's next byte there, and 1?");
/// assert_eq!(Refusal::try_from(4), Ok(Refusal::TreeVersion));
/// ```
#[derive(Debug, Clone, Copy, PartialEq, Eq, Hash, PartialOrd, Ord)]
#[repr(u8)]
pub enum Refusal {
    /// 1: a work area is shorter than 16,384, or that of [`reach`](crate::reach) or [`heights`](crate::heights) than 131,072.
    AreasTooShort = 1,
    /// 2: the tree is longer than 32,768 bytes.
    TreeTooLong = 2,
    /// 3: the tree's first four bytes aren't there or don't count the rest.
    TreeHeader = 3,
    /// 4: the tree's version isn't 1.
    TreeVersion = 4,
    /// 5: the rest of the tree doesn't read as one block.
    TreeLayout = 5,
    /// 6: a statement or expression is deeper than 32.
    TooDeep = 6,
    /// 7: a name isn't well formed.
    BadName = 7,
    /// 8: a string isn't well-formed UTF-8.
    BadString = 8,
    /// 9: a break or continue stands in no loop of its function.
    LooseBreak = 9,
    /// 10: the target of an assignment is none.
    BadTarget = 10,
    /// 11: a list of parameters has a name twice.
    RepeatedParameter = 11,
    /// 12: a method `__init__` has no parameter.
    BareInit = 12,
    /// 13: a list of parameters or arguments is longer than 255.
    ListTooLong = 13,
    /// 14: a function has more than 255 slots.
    TooManySlots = 14,
    /// 15: there are more functions, symbols, strings, classes or instructions than the [`Limits`](crate::Limits) allow.
    ModuleTooLarge = 15,
    /// 16: the module doesn't fit the output.
    OutputTooShort = 16,
    /// 17: the module is longer than 524,288 bytes, or its first four bytes don't count the rest.
    ModuleHeader = 17,
    /// 18: the module's version isn't 2.
    ModuleVersion = 18,
    /// 19: the rest of the module doesn't follow the layout, or a string isn't well-formed UTF-8.
    ModuleLayout = 19,
    /// 20: a number in the module names nothing.
    NoSuchNumber = 20,
    /// 21: a function doesn't end in `Return`, or a jump leaves its code.
    OpenCode = 21,
    /// 22: the module has no such function.
    NoSuchFunction = 22,
    /// 23: an answer is neither 0 nor 1.
    BadAnswer = 23,
    /// 24: the events don't fit the buffer.
    EventsTooShort = 24,
    /// 31: the listing doesn't fit the buffer.
    ListingTooShort = 31,
    /// 32: the count sheet doesn't fit the buffer.
    SheetTooShort = 32,
    /// 33: a name is one of a loop's iterator: `__for_iter_{}__` with digits in place of the braces.
    IteratorName = 33,
    /// 34: the function has no such place.
    NoSuchPlace = 34,
    /// 35: the buffer for the answers is shorter than the number of the function's conditional jumps.
    AnswersTooShort = 35,
    /// 36: a target, or a target inside a tuple target, is an empty tuple.
    EmptyTarget = 36,
    /// 37: a place that some answers reach has two heights, too few values, or leaves more than its function's number.
    BadHeights = 37,
    /// 38: the output of [`cut`](crate::cut) is shorter than the whole tree.
    CutTooShort = 38,
}

/// Every refusal with its question, by rising numbers.
const QUESTIONS: [(Refusal, &str); 32] = [
    (
        Refusal::AreasTooShort,
        "is each work area at least 16,384 numbers long, that of reach and heights 131,072?",
    ),
    (Refusal::TreeTooLong, "is the tree at most 32,768 bytes, header included?"),
    (Refusal::TreeHeader, "has the tree four bytes, and do they count the rest?"),
    (Refusal::TreeVersion, "is the tree's next byte there, and 1?"),
    (Refusal::TreeLayout, "does the rest of the tree read as one block with nothing over?"),
    (Refusal::TooDeep, "is no statement or expression deeper than 32?"),
    (
        Refusal::BadName,
        "is every name well formed: a letter or _, then letters, digits, _; 1 to 64 bytes?",
    ),
    (Refusal::BadString, "is every string well-formed UTF-8 (RFC 3629)?"),
    (
        Refusal::LooseBreak,
        "does each break and continue stand in a loop of its own function?",
    ),
    (
        Refusal::BadTarget,
        "is each target a variable, attribute, index, or tuple of variables and such tuples?",
    ),
    (
        Refusal::RepeatedParameter,
        "are the names in each parameter list distinct?",
    ),
    (Refusal::BareInit, "has each method __init__ a parameter?"),
    (
        Refusal::ListTooLong,
        "has each list of parameters or arguments at most 255?",
    ),
    (
        Refusal::TooManySlots,
        "has each lowered function at most 255 slots?",
    ),
    (
        Refusal::ModuleTooLarge,
        "are there at most 256 functions, 1,024 symbols, 512 strings, 64 classes, 8,192 instructions in all (at the console 64, 256, 512, 64, 2,048)?",
    ),
    (Refusal::OutputTooShort, "does the module fit the output?"),
    (
        Refusal::ModuleHeader,
        "is the module at most 524,288 bytes, and do its first four count the rest?",
    ),
    (Refusal::ModuleVersion, "is the module's version 2?"),
    (
        Refusal::ModuleLayout,
        "does the rest of the module follow the layout, strings well-formed UTF-8, class and method names well formed, a class's method names strictly rising, nothing over?",
    ),
    (
        Refusal::NoSuchNumber,
        "does every symbol, string, constant, class, function, built-in and slot number exist?",
    ),
    (
        Refusal::OpenCode,
        "does each function end in Return, each jump land in its own code?",
    ),
    (Refusal::NoSuchFunction, "does the function exist?"),
    (Refusal::BadAnswer, "is each answer 0 or 1?"),
    (Refusal::EventsTooShort, "do the events fit the buffer?"),
    (Refusal::ListingTooShort, "does the listing fit the buffer?"),
    (Refusal::SheetTooShort, "does the count sheet fit the buffer?"),
    (
        Refusal::IteratorName,
        "is no name of the form __for_iter_{}__, one or more digits in place of the braces?",
    ),
    (Refusal::NoSuchPlace, "is the place in the function?"),
    (
        Refusal::AnswersTooShort,
        "has the buffer room for an answer to each conditional jump of the function?",
    ),
    (Refusal::EmptyTarget, "is no target, and none inside a tuple target, an empty tuple?"),
    (
        Refusal::BadHeights,
        "is each place that answers reach met at one height, with values enough, and does it leave no more than its function's number?",
    ),
    (Refusal::CutTooShort, "is the output at least as long as the whole tree?"),
];

impl Refusal {
    /// The number of the question, 1 to 24 or 31 to 38.
    #[must_use]
    pub fn number(self) -> u32 {
        self as u32
    }

    /// The question in words; its answer is no.
    #[must_use]
    pub fn question(self) -> &'static str {
        let found = QUESTIONS.iter().find(|(refusal, _)| *refusal == self);
        found.expect("every refusal is in the list").1
    }

    /// All refusals, by rising numbers.
    pub fn all() -> impl Iterator<Item = Refusal> {
        QUESTIONS.into_iter().map(|(refusal, _)| refusal)
    }
}

impl fmt::Display for Refusal {
    fn fmt(&self, f: &mut fmt::Formatter<'_>) -> fmt::Result {
        write!(f, "refused {}: {}", self.number(), self.question())
    }
}

impl Error for Refusal {}

/// A number that no question has.
#[derive(Debug, Clone, Copy, PartialEq, Eq)]
pub struct NoSuchQuestion(pub u32);

impl fmt::Display for NoSuchQuestion {
    fn fmt(&self, f: &mut fmt::Formatter<'_>) -> fmt::Result {
        write!(
            f,
            "there is no question {}: they are 1 to 24 and 31 to 38",
            self.0
        )
    }
}

impl Error for NoSuchQuestion {}

impl TryFrom<u32> for Refusal {
    type Error = NoSuchQuestion;

    fn try_from(number: u32) -> Result<Refusal, NoSuchQuestion> {
        Refusal::all()
            .find(|refusal| refusal.number() == number)
            .ok_or(NoSuchQuestion(number))
    }
}

/// The refusal that the library answered with.
pub(crate) fn refusal(number: u32) -> Refusal {
    Refusal::try_from(number).expect("the library answers with a question's number")
}

/// An answer of the library that is 2^32 plus a count, or a question's number.
pub(crate) fn written(answer: u64) -> Result<usize, Refusal> {
    let low = (answer & 0xffff_ffff) as u32;
    match answer >> 32 {
        0 => Err(refusal(low)),
        _ => Ok(low as usize),
    }
}

/// An answer of the library that is 0 or a question's number.
pub(crate) fn accepted(answer: u32) -> Result<(), Refusal> {
    match answer {
        0 => Ok(()),
        number => Err(refusal(number)),
    }
}
