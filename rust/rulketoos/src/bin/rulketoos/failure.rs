//! Why a command isn't done, and the exit status that says so.

/// What kept a command from being done.
pub enum Failure {
    /// Refused: a question is answered no, or the script isn't in the language.
    Refused(String),
    /// Wrong usage, or something that can't be read, written or started.
    Unable(String),
    /// Nobody reads the output any more; there is nobody to tell, either.
    Unread,
}

impl Failure {
    /// A failure in words, after the name of the program.
    pub fn unable(message: impl AsRef<str>) -> Failure {
        Failure::Unable(format!("rulketoos: {}", message.as_ref()))
    }

    /// The exit status.
    pub fn status(&self) -> u8 {
        match self {
            Failure::Refused(_) => 1,
            Failure::Unable(_) | Failure::Unread => 2,
        }
    }

    /// What is said on standard error.
    pub fn message(&self) -> Option<&str> {
        match self {
            Failure::Refused(message) | Failure::Unable(message) => Some(message),
            Failure::Unread => None,
        }
    }
}
