//! A reader of CFF fonts, written from document 01 ('Corners in mod.rs', 'Entries and their
//! refusals') and TN5176 as a third opinion beside the original and the library. It holds places
//! and no copies, so it takes no more memory for a hostile font than for another. Wishes of document 02
//! are switches: with none of them on it is document 01's.
//! Here are the refusals and the way through a set of fonts; its parts are in the files below model/.

mod dict;
mod font;
mod glyph_tables;
mod held;
mod index;
mod parts;
mod privates;

pub use dict::{Entries, operator};
pub use font::{EXPERT, Font, STANDARD};
pub use held::{Held, Private as HeldPrivate, Raw, held};
pub use index::Index;
pub use parts::{Parts, parts, without_encoding};

use crate::domain::Wishes;
use privates::Fds;
use std::collections::{BTreeSet, HashMap};

pub const TRUNCATED: u8 = 1;
pub const MALFORMED: u8 = 2;
pub const UNSUPPORTED: u8 = 3;
pub const TOO_LONG: u8 = 4;
pub const PAST_LIMITS: u8 = 5;
pub const NO_SUCH_ITEM: u8 = 6;

/// The longest font, document 01.
pub const LONGEST: usize = 67_108_864;

/// A refusal, and where it was met.
#[derive(Clone, Copy, Debug, PartialEq, Eq)]
pub struct Refused {
    pub number: u8,
    /// What was being read.
    pub part: &'static str,
    pub fault: &'static str,
    /// The place in the font; for a real past the limits that of its first nibbles.
    pub at: usize,
}

type Step<T> = Result<T, Refused>;

fn refuse<T>(number: u8, part: &'static str, fault: &'static str, at: usize) -> Step<T> {
    Err(Refused {
        number,
        part,
        fault,
        at,
    })
}

/// A reading: the font or the refusal, and what else was learnt.
pub struct Reading {
    pub font: Step<Font>,
    /// Bytes of memory that the original takes for this reading, about.
    pub memory: u64,
    /// Fonts of the set that were read, a refused one among them.
    pub fonts: usize,
    /// Where parts of the font start.
    pub marks: Vec<usize>,
    /// What the font has of document 01's and TN5176's choices, and of what wishes speak of.
    pub notes: BTreeSet<&'static str>,
}

pub fn read(bytes: &[u8], wishes: Wishes) -> Reading {
    let mut reader = Reader::new(bytes, wishes);
    let font = reader.set();
    Reading {
        font,
        memory: reader.memory,
        fonts: reader.fonts,
        marks: reader.marks,
        notes: reader.notes,
    }
}

struct Reader<'a> {
    bytes: &'a [u8],
    wishes: Wishes,
    memory: u64,
    fonts: usize,
    marks: Vec<usize>,
    notes: BTreeSet<&'static str>,
    /// Locals and memory of the Privates met, by place and size: many FDs may share one.
    privates: HashMap<(u64, u64), Step<(u64, u64)>>,
    /// The same for FD arrays, by place: many fonts may share one.
    fd_arrays: HashMap<u64, Step<Fds>>,
}

/// The number in big-endian bytes.
fn number(bytes: &[u8]) -> u64 {
    bytes.iter().fold(0, |n, &b| n << 8 | u64::from(b))
}

impl<'a> Reader<'a> {
    fn new(bytes: &'a [u8], wishes: Wishes) -> Self {
        Reader {
            bytes,
            wishes,
            memory: 0,
            fonts: 0,
            marks: Vec::new(),
            notes: BTreeSet::new(),
            privates: HashMap::new(),
            fd_arrays: HashMap::new(),
        }
    }

    /// Bytes of a part, which must be there.
    fn bytes_at(&self, at: u64, n: u64, part: &'static str, fault: &'static str) -> Step<&[u8]> {
        match at.checked_add(n) {
            Some(end) if end <= self.bytes.len() as u64 => {
                Ok(&self.bytes[at as usize..end as usize])
            }
            _ => refuse(TRUNCATED, part, fault, at.min(LONGEST as u64) as usize),
        }
    }

    fn note(&mut self, what: &'static str) {
        self.notes.insert(what);
    }

    fn mark(&mut self, at: u64) {
        if at < self.bytes.len() as u64 {
            self.marks.push(at as usize);
        }
    }

    fn set(&mut self) -> Step<Font> {
        if self.bytes.len() > LONGEST {
            return refuse(TOO_LONG, "font", "too long", 0);
        }
        // Header: major version, minor version, its size, an offset size.
        let header = self.bytes_at(0, 4, "header", "ends early")?;
        let (major, header_size) = (header[0], header[2]);
        if major != 1 {
            return refuse(UNSUPPORTED, "header", "major version", 0);
        }
        match header_size {
            0..4 => self.note("header size below 4"),
            4 => {}
            _ => self.note("header size above 4"),
        }
        let names = self.index(u64::from(header_size), "name INDEX")?;
        let tops = self.index(names.end as u64, "top DICT INDEX")?;
        let strings = self.index(tops.end as u64, "string INDEX")?;
        let globals = self.index(strings.end as u64, "global subroutine INDEX")?;
        if names.count != tops.count {
            return refuse(MALFORMED, "top DICT INDEX", "as many as names", 0);
        }
        let shared = self.copied(&strings) + self.copied(&globals);
        self.memory += shared;
        let mut first = None;
        for k in 0..tops.count {
            self.fonts += 1;
            self.memory += shared;
            let font = self.font(tops.span(self.bytes, k), strings, globals)?;
            first.get_or_insert(font);
        }
        match tops.count {
            0 | 1 => {}
            2 => self.note("set of 2 fonts"),
            _ => self.note("set of more than 2 fonts"),
        }
        match first {
            Some(font) => Ok(font),
            None => refuse(MALFORMED, "name INDEX", "no font", 0),
        }
    }
}
