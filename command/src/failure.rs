//! Why the command ends without having done its work.

use mogdivash::Refusal;
use std::fmt;
use std::io;
use std::path::Path;

#[derive(Debug, PartialEq)]
pub enum Failure {
    /// The words of the command line are none that it takes: exit status 2.
    Usage(String),
    /// All else: exit status 1.
    Work(String),
}

impl Failure {
    pub fn usage(what: impl Into<String>) -> Failure {
        Failure::Usage(what.into())
    }

    pub fn work(what: impl Into<String>) -> Failure {
        Failure::Work(what.into())
    }

    /// A refusal of the library: its number and its words.
    pub fn refused(file: &Path, refusal: Refusal) -> Failure {
        let (name, number) = (file.display(), refusal.number());
        Failure::Work(format!("{name}: refused by {number}: {refusal}"))
    }

    /// A file that cannot be read or written.
    pub fn file(file: &Path, error: &io::Error) -> Failure {
        Failure::Work(format!("{}: {error}", file.display()))
    }

    pub fn status(&self) -> u8 {
        match self {
            Failure::Usage(_) => 2,
            Failure::Work(_) => 1,
        }
    }
}

impl fmt::Display for Failure {
    fn fmt(&self, f: &mut fmt::Formatter<'_>) -> fmt::Result {
        match self {
            Failure::Usage(what) => write!(f, "{what} (see mogdivash --help)"),
            Failure::Work(what) => f.write_str(what),
        }
    }
}
