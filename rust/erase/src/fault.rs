//! Why a file can't be erased.

use std::fmt;

/// A place in a file, and what is wrong there.
#[derive(Debug, PartialEq, Eq)]
pub struct Fault {
    /// The file.
    pub path: String,
    /// The line, from 1, or 0 for the whole file.
    pub line: usize,
    /// What is wrong.
    pub text: String,
}

impl Fault {
    pub fn new(path: &str, line: usize, text: impl Into<String>) -> Fault {
        Fault {
            path: path.into(),
            line,
            text: text.into(),
        }
    }
}

impl fmt::Display for Fault {
    fn fmt(&self, f: &mut fmt::Formatter<'_>) -> fmt::Result {
        write!(f, "{}:{}: {}", self.path, self.line, self.text)
    }
}

impl std::error::Error for Fault {}
