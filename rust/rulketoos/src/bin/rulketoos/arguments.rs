//! The words of a command line: operands in order, options anywhere.

use crate::failure::Failure;
use std::ffi::{OsStr, OsString};

/// A subcommand.
pub struct Command {
    /// Its name.
    pub name: &'static str,
    /// Its operands in order, and how many of them must be given. One that ends in `..`, the last, may be given any number of times.
    pub operands: &'static [&'static str],
    pub least: usize,
    /// Its options.
    pub options: &'static [Opt],
    /// What it does, in a line.
    pub about: &'static str,
    /// What else is to be known of it.
    pub more: &'static str,
    /// A line that can be tried in the repository's root.
    pub example: &'static str,
    /// Does it.
    pub run: fn(&Words) -> Result<(), Failure>,
}

/// An option: `-o FILE` has a value, `--flag` has none.
pub struct Opt {
    pub name: &'static str,
    pub value: Option<&'static str>,
    pub about: &'static str,
}

/// What the words of a subcommand ask for.
pub enum Given {
    Help,
    Words(Words),
}

/// The operands and options that are given.
#[derive(Default)]
pub struct Words {
    operands: Vec<OsString>,
    options: Vec<(&'static str, OsString)>,
}

impl Words {
    /// The operand at a place, if it is given.
    pub fn operand(&self, place: usize) -> Option<&OsStr> {
        self.operands.get(place).map(OsString::as_os_str)
    }

    /// All operands that are given.
    pub fn operands(&self) -> impl Iterator<Item = &OsStr> {
        self.operands.iter().map(OsString::as_os_str)
    }

    /// An operand that must be given: the parser has seen to it that it is.
    pub fn needed(&self, place: usize) -> &OsStr {
        self.operand(place).expect("an operand that must be given")
    }

    /// An option's value, if it is given; that of a flag is empty.
    pub fn option(&self, name: &str) -> Option<&OsStr> {
        let found = self.options.iter().find(|(given, _)| *given == name);
        found.map(|(_, value)| value.as_os_str())
    }
}

/// A number below 2^64, in decimal.
pub fn number(what: &str, word: &OsStr) -> Result<u64, Failure> {
    let digits = word
        .to_str()
        .filter(|text| text.bytes().all(|byte| byte.is_ascii_digit()));
    digits.and_then(|text| text.parse().ok()).ok_or_else(|| {
        let word = word.to_string_lossy();
        Failure::unable(format!(
            "{what} is a number from 0 to 18446744073709551615, not {word:?}"
        ))
    })
}

impl Command {
    /// Takes a command's words apart.
    pub fn given(&self, words: &[OsString]) -> Result<Given, Failure> {
        let mut given = Words::default();
        let mut rest = words.iter();
        while let Some(word) = rest.next() {
            match word.to_str() {
                Some("-h" | "--help") => return Ok(Given::Help),
                Some("--") => given.operands.extend(rest.by_ref().cloned()),
                Some(text) if text.len() > 1 && text.starts_with('-') => {
                    let (name, value) = self.option(text, &mut rest)?;
                    if given.option(name).is_some() {
                        return Err(self.misused(&format!("{name} is given twice")));
                    }
                    given.options.push((name, value));
                }
                _ => given.operands.push(word.clone()),
            }
        }
        match given.operands.get(self.most()) {
            Some(word) => {
                Err(self.misused(&format!("{} is one word too many", word.to_string_lossy())))
            }
            None if given.operands.len() < self.least => Err(self.misused(&format!(
                "{} is missing",
                self.operands[given.operands.len()]
            ))),
            None => Ok(Given::Words(given)),
        }
    }

    /// How many operands may be given.
    fn most(&self) -> usize {
        match self.operands.last() {
            Some(last) if last.ends_with("..") => usize::MAX,
            _ => self.operands.len(),
        }
    }

    /// An option and its value: the next word, or what follows `=`.
    fn option<'w>(
        &self,
        text: &str,
        rest: &mut impl Iterator<Item = &'w OsString>,
    ) -> Result<(&'static str, OsString), Failure> {
        let (name, joined) = match text.split_once('=') {
            Some((name, value)) => (name, Some(OsString::from(value))),
            None => (text, None),
        };
        let Some(option) = self.options.iter().find(|option| option.name == name) else {
            return Err(self.misused(&format!("there is no option {name}")));
        };
        let value = match (option.value, joined) {
            (None, None) => OsString::new(),
            (None, Some(_)) => return Err(self.misused(&format!("{name} takes no value"))),
            (Some(_), Some(value)) => value,
            (Some(what), None) => match rest.next() {
                Some(value) => value.clone(),
                None => return Err(self.misused(&format!("{what} is missing after {name}"))),
            },
        };
        Ok((option.name, value))
    }

    /// What is wrong with the words, and how they should be.
    fn misused(&self, what: &str) -> Failure {
        let usage = self.usage();
        Failure::unable(format!(
            "{what}\n{usage}\n`rulketoos {} --help` says more",
            self.name
        ))
    }

    fn usage(&self) -> String {
        let mut text = format!("usage: rulketoos {}", self.name);
        for (place, operand) in self.operands.iter().enumerate() {
            text += &if place < self.least {
                format!(" {operand}")
            } else {
                format!(" [{operand}]")
            };
        }
        for option in self.options {
            text += &format!(" [{}]", option.spelling());
        }
        text
    }

    /// The whole help.
    pub fn help(&self) -> String {
        let mut text = format!(
            "{}\n\n{}: {}.\n{}\n",
            self.usage(),
            self.name,
            self.about,
            self.more
        );
        for option in self.options {
            text += &format!("\n  {:15} {}\n", option.spelling(), option.about);
        }
        text + &format!(
            "\nExample, in the root of the repository:\n\n    {}\n",
            self.example
        )
    }
}

impl Opt {
    fn spelling(&self) -> String {
        match self.value {
            Some(value) => format!("{} {value}", self.name),
            None => self.name.to_string(),
        }
    }
}
