//! One call of tracing, and what document 02, Wish 1, says that it answers.

pub use crate::cut::{NO_ROOM, NOT_FOUND};

/// The words of an answer: the flag and the length.
pub const WORDS: usize = 2;

/// What is lent to a call.
#[derive(Clone, Copy, Debug)]
pub struct Lent {
    pub room: usize,
    /// Words for the answer.
    pub words: usize,
}

/// What a call comes to before anything is lent.
#[derive(Clone, Debug, PartialEq, Eq)]
pub enum Outcome {
    Refused(u8),
    /// The flag and the record.
    Record(u8, Vec<u8>),
}

impl Outcome {
    /// A kept glyph is not plain.
    pub fn untraced() -> Outcome {
        Outcome::Record(0, Vec::new())
    }

    /// What a call answers with so much lent.
    pub fn answer(&self, lent: Lent) -> Result<(u8, &[u8]), u8> {
        match self {
            Outcome::Refused(number) => Err(*number),
            Outcome::Record(_, bytes) if bytes.len() > lent.room || lent.words < WORDS => {
                Err(NO_ROOM)
            }
            Outcome::Record(flag, bytes) => Ok((*flag, bytes)),
        }
    }

    /// How long its record is.
    pub fn length(&self) -> usize {
        match self {
            Outcome::Refused(_) => 0,
            Outcome::Record(_, bytes) => bytes.len(),
        }
    }
}
