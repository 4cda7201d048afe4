//! Refusals: document 01, 'Entries and their refusals', and document 02.

use std::error::Error;
use std::fmt;

/// Why a call was refused. The discriminant is the number that the C functions return.
#[derive(Clone, Copy, Debug, PartialEq, Eq, Hash)]
#[repr(u8)]
pub enum Refusal {
    /// A structure of the font ends before what was being read.
    Truncated = 1,
    /// Another fault in a structure of the font.
    Malformed = 2,
    /// A form that is not handled, a font of the other keying, or, to subsetting, a stroked font, or one with the Expert encoding
    /// that the subset is not to have.
    Unsupported = 3,
    /// A font of more than 67,108,864 bytes, or a new name of more than 65,535.
    TooLong = 4,
    /// A well-formed real of a DICT past its limits.
    Real = 5,
    /// No glyph, item or kind of that number.
    NoSuchNumber = 6,
    /// A kept glyph that finding its own name or CID would not give.
    NotFound = 7,
    /// A record or flag that is not well-formed.
    Record = 8,
    /// Fewer work words lent than W.
    Work = 9,
    /// A subset of more than 67,108,864 bytes.
    SubsetTooLong = 10,
    /// Fewer elements lent than the answer has.
    Output = 11,
    /// A subset with a string id above 64,999.
    Strings = 12,
    /// An encoding of more than 255 codes of kept glyphs, all 256: document 02, Wish 4.
    Pairs = 13,
    /// A record right in form that is not accepted: document 02, Wish 6.
    NotAccepted = 14,
    /// An OpenType file without a table `CFF `.
    NoTable = 15,
}

impl Refusal {
    /// All refusals, by number.
    pub const ALL: [Refusal; 15] = [
        Refusal::Truncated,
        Refusal::Malformed,
        Refusal::Unsupported,
        Refusal::TooLong,
        Refusal::Real,
        Refusal::NoSuchNumber,
        Refusal::NotFound,
        Refusal::Record,
        Refusal::Work,
        Refusal::SubsetTooLong,
        Refusal::Output,
        Refusal::Strings,
        Refusal::Pairs,
        Refusal::NotAccepted,
        Refusal::NoTable,
    ];

    /// Its number in documents 01 and 02, 1 to 15.
    pub fn number(self) -> u8 {
        self as u8
    }

    /// The refusal of that number.
    pub fn from_number(number: u8) -> Option<Refusal> {
        Refusal::ALL
            .into_iter()
            .find(|refusal| refusal.number() == number)
    }

    /// What a C function returned: 0, or a refusal.
    pub(crate) fn check(returned: u8) -> Result<(), Refusal> {
        match Refusal::from_number(returned) {
            None => Ok(()),
            Some(refusal) => Err(refusal),
        }
    }
}

impl fmt::Display for Refusal {
    fn fmt(&self, f: &mut fmt::Formatter<'_>) -> fmt::Result {
        f.write_str(match self {
            Refusal::Truncated => "the font is truncated",
            Refusal::Malformed => "the font is malformed",
            Refusal::Unsupported => "the font has a form that is not supported",
            Refusal::TooLong => "the font or the new name is too long",
            Refusal::Real => "a real number of the font is past its limits",
            Refusal::NoSuchNumber => "the font has no glyph or item of that number",
            Refusal::NotFound => "a kept glyph is not the one that its name or CID finds",
            Refusal::Record => "the record or its flag is not well-formed",
            Refusal::Work => "too few work words",
            Refusal::SubsetTooLong => "the subset is too long",
            Refusal::Output => "too little room for the answer",
            Refusal::Strings => "the subset has too many strings",
            Refusal::Pairs => "the subset has too many codes",
            Refusal::NotAccepted => "the record does not fit the kept glyphs",
            Refusal::NoTable => "the OpenType file has no table of CFF outlines",
        })
    }
}

impl Error for Refusal {}
