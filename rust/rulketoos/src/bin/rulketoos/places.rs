//! Where in a tree a question is answered no: the library gives the question's number, this the places. And where the
//! top statements of a tree stand.
//!
//! The walk takes a tree that passes questions 2 to 6, and asks one of the questions that speak of a part of a tree, 7 to
//! 13, 33 and 36. A further one is a line where the part that it speaks of is walked.

use rulketoos::Refusal;
use std::collections::HashSet;
use std::ops::RangeInclusive;

/// Where the parts of a tree stand in a script, by rising bytes.
pub struct Places(Vec<Place>);

struct Place {
    /// The part's first byte in the tree.
    start: usize,
    /// Line and column of its beginning.
    line: usize,
    column: usize,
    /// The line that it ends in.
    last: usize,
}

impl Places {
    /// The places of the lines that tree_of.py writes.
    pub fn of(lines: &[u8]) -> Option<Places> {
        let text = std::str::from_utf8(lines).ok()?;
        let place = |line: &str| {
            let mut numbers = line.split(' ').map(|word| word.parse().ok());
            Some(Place {
                start: numbers.next()??,
                line: numbers.next()??,
                column: numbers.next()??,
                last: numbers.next()??,
            })
        };
        text.lines().map(place).collect::<Option<_>>().map(Places)
    }

    /// Line and column of the part that begins at a byte, or of the last before it.
    pub fn at(&self, byte: usize) -> Option<(usize, usize)> {
        let after = self.0.partition_point(|place| place.start <= byte);
        let place = self.0.get(after.checked_sub(1)?)?;
        Some((place.line, place.column))
    }

    /// The lines of the parts that begin at these bytes, from the first's first to the last's last.
    pub fn lines(&self, first: usize, last: usize) -> Option<RangeInclusive<usize>> {
        let at = |byte| self.0.iter().find(|place| place.start == byte);
        Some(at(first)?.line..=at(last)?.last)
    }
}

/// The bytes at which the parts begin that answer the question no, in order; none where it speaks of no part.
pub fn noes(tree: &[u8], question: Refusal) -> Vec<usize> {
    let mut walk = Walk::new(tree, Some(question));
    walk.block(false);
    walk.noes
}

/// The bytes at which the top statements of a tree begin, and where the last one ends.
pub fn statements(tree: &[u8]) -> Vec<usize> {
    let mut walk = Walk::new(tree, None);
    let count = walk.count().unwrap_or(0);
    let mut starts = vec![walk.at];
    for _ in 0..count {
        if walk.stmt(false).is_none() {
            break;
        }
        starts.push(walk.at);
    }
    starts
}

struct Walk<'t> {
    tree: &'t [u8],
    at: usize,
    question: Option<Refusal>,
    noes: Vec<usize>,
}

/// Each step answers nothing where the tree ends too soon; what was noted before stays.
impl<'t> Walk<'t> {
    /// At the count of the top statements.
    fn new(tree: &'t [u8], question: Option<Refusal>) -> Walk<'t> {
        Walk {
            tree,
            at: 5,
            question,
            noes: Vec::new(),
        }
    }

    fn ask(&mut self, question: Refusal, at: usize, yes: bool) {
        if Some(question) == self.question && !yes {
            self.noes.push(at);
        }
    }

    fn take(&mut self, count: usize) -> Option<&'t [u8]> {
        let end = self.at.checked_add(count)?;
        let bytes = self.tree.get(self.at..end)?;
        self.at = end;
        Some(bytes)
    }

    fn byte(&mut self) -> Option<u8> {
        self.take(1).map(|bytes| bytes[0])
    }

    fn count(&mut self) -> Option<usize> {
        self.take(2)
            .map(|bytes| usize::from(bytes[0]) << 8 | usize::from(bytes[1]))
    }

    fn name(&mut self) -> Option<&'t [u8]> {
        let start = self.at;
        let length = self.byte()?;
        let name = self.take(length.into())?;
        self.ask(Refusal::BadName, start, well_formed(name));
        self.ask(Refusal::IteratorName, start, !is_iterator(name));
        Some(name)
    }

    fn block(&mut self, in_loop: bool) -> Option<()> {
        for _ in 0..self.count()? {
            self.stmt(in_loop)?;
        }
        Some(())
    }

    fn stmt(&mut self, in_loop: bool) -> Option<()> {
        let start = self.at;
        match self.byte()? {
            0 | 1 => self.ask(Refusal::LooseBreak, start, in_loop),
            3 | 4 => self.expr()?,
            5 => {
                self.target(false)?;
                self.expr()?;
            }
            6 => self.conditional(in_loop)?,
            7 => {
                self.expr()?;
                self.block(true)?;
            }
            8 => {
                self.name()?;
                self.expr()?;
                self.block(true)?;
            }
            9 => self.function(false)?,
            10 => self.class()?,
            _ => {}
        }
        Some(())
    }

    fn conditional(&mut self, in_loop: bool) -> Option<()> {
        self.expr()?;
        self.block(in_loop)?;
        for _ in 0..self.count()? {
            self.expr()?;
            self.block(in_loop)?;
        }
        match self.byte()? {
            0 => Some(()),
            _ => self.block(in_loop),
        }
    }

    fn function(&mut self, method: bool) -> Option<()> {
        let start = self.at;
        let name = self.name()?;
        let count = self.parameters(start)?;
        self.ask(
            Refusal::BareInit,
            start,
            !method || name != b"__init__" || count > 0,
        );
        self.block(false)
    }

    fn class(&mut self) -> Option<()> {
        self.name()?;
        for _ in 0..self.count()? {
            self.function(true)?;
        }
        for _ in 0..self.count()? {
            self.name()?;
            self.expr()?;
        }
        Some(())
    }

    /// A list of parameters; `start` is where what has them begins.
    fn parameters(&mut self, start: usize) -> Option<usize> {
        let count = self.count()?;
        let mut names = HashSet::new();
        for _ in 0..count {
            let at = self.at;
            let new = names.insert(self.name()?);
            self.ask(Refusal::RepeatedParameter, at, new);
        }
        self.ask(Refusal::ListTooLong, start, count <= 255);
        Some(count)
    }

    /// A target; `inside` a tuple it is a variable or a tuple.
    fn target(&mut self, inside: bool) -> Option<()> {
        let start = self.at;
        match self.tree.get(start)? {
            13 => {
                self.at += 1;
                let count = self.count()?;
                self.ask(Refusal::EmptyTarget, start, count > 0);
                for _ in 0..count {
                    self.target(true)?;
                }
                return Some(());
            }
            6 => {}
            10 | 16 if !inside => {}
            _ => self.ask(Refusal::BadTarget, start, false),
        }
        self.expr()
    }

    fn expr(&mut self) -> Option<()> {
        let start = self.at;
        match self.byte()? {
            3 | 4 => self.take(8).map(|_| ()),
            5 => self.string(start),
            6 => self.name().map(|_| ()),
            7 => self.operands(1),
            8 => self.operands(2),
            9 => self.call(start),
            10 => {
                self.expr()?;
                self.name().map(|_| ())
            }
            12 => {
                let pairs = self.count()?;
                self.exprs(2 * pairs)
            }
            11 | 13..=15 => {
                let count = self.count()?;
                self.exprs(count)
            }
            16 => self.exprs(2),
            17 => {
                self.parameters(start)?;
                self.expr()
            }
            _ => Some(()),
        }
    }

    fn string(&mut self, start: usize) -> Option<()> {
        let count = self.count()?;
        let bytes = self.take(count)?;
        let well_formed = std::str::from_utf8(bytes).is_ok();
        self.ask(Refusal::BadString, start, well_formed);
        Some(())
    }

    fn operands(&mut self, count: usize) -> Option<()> {
        self.byte()?;
        self.exprs(count)
    }

    fn call(&mut self, start: usize) -> Option<()> {
        self.expr()?;
        let count = self.count()?;
        self.ask(Refusal::ListTooLong, start, count <= 255);
        self.exprs(count)
    }

    fn exprs(&mut self, count: usize) -> Option<()> {
        (0..count).try_for_each(|_| self.expr())
    }
}

fn well_formed(name: &[u8]) -> bool {
    let letter = |byte: u8| byte.is_ascii_alphabetic() || byte == b'_';
    let starts = name.first().is_some_and(|&first| letter(first));
    starts
        && name.len() <= 64
        && name
            .iter()
            .all(|&byte| letter(byte) || byte.is_ascii_digit())
}

/// A name that a loop's iterator could have.
fn is_iterator(name: &[u8]) -> bool {
    let rest = name.strip_prefix(b"__for_iter_");
    let digits = rest.and_then(|rest| rest.strip_suffix(b"__"));
    digits.is_some_and(|digits| !digits.is_empty() && digits.iter().all(u8::is_ascii_digit))
}

#[cfg(test)]
mod tests;
