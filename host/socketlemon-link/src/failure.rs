//! Why a command failed, as one sentence for its user.

use std::fmt;
use std::io;
use std::path::Path;

/// A failure, in words.
#[derive(Debug, PartialEq, Eq)]
pub struct Failure {
    words: String,
    status: u8,
}

impl Failure {
    /// A failure with these words.
    pub fn new(words: impl Into<String>) -> Failure {
        Failure { words: words.into(), status: 1 }
    }

    /// The user's input is wrong, as a command line can be.
    pub fn input(words: impl Into<String>) -> Failure {
        Failure { words: words.into(), status: 2 }
    }

    /// The exit status that tells it.
    pub fn status(&self) -> u8 {
        self.status
    }

    /// What could not be done with a file, and what the system said.
    pub fn file(what: &str, path: &Path, error: &io::Error) -> Failure {
        Failure::new(format!("cannot {what} {}: {error}", path.display()))
    }
}

impl fmt::Display for Failure {
    fn fmt(&self, f: &mut fmt::Formatter<'_>) -> fmt::Result {
        f.write_str(&self.words)
    }
}

impl std::error::Error for Failure {}
