//! All that a font which is read holds, without where its parts stand: its DICTs entry by entry, and the items of its INDEXes.

use super::dict::{Dict, operator};
use super::{Index, Reader, number};
use crate::domain::WISHES;
use std::ops::Range;

/// An entry of a DICT: its operator, and the bytes of each operand.
#[derive(Clone)]
pub struct Raw {
    pub operator: u16,
    pub operands: Vec<Vec<u8>>,
}

#[derive(Clone)]
pub struct Private {
    pub entries: Vec<Raw>,
    /// None where it has no Subrs.
    pub locals: Option<Vec<Vec<u8>>>,
}

/// What the first font of a file holds, its ids apart.
#[derive(Clone)]
pub struct Held {
    pub cid_keyed: bool,
    pub top: Vec<Raw>,
    pub strings: Vec<Vec<u8>>,
    pub globals: Vec<Vec<u8>>,
    pub charstrings: Vec<Vec<u8>>,
    /// Whether it has a charset of its own.
    pub charset: bool,
    /// The bytes of an encoding of its own.
    pub encoding: Option<Vec<u8>>,
    /// The Font DICTs of a CID-keyed font.
    pub dicts: Vec<Vec<Raw>>,
    /// The Private of each FD, of a name-keyed font the one; none where no entry names it.
    pub privates: Vec<Option<Private>>,
    /// The FD of each glyph, where FDSelect is there.
    pub select: Option<Vec<u8>>,
}

/// What the first font of bytes that are read holds.
pub fn held(bytes: &[u8], glyphs: usize) -> Option<Held> {
    let mut reader = Reader::new(bytes, WISHES);
    let names = reader.index(u64::from(bytes[2]), "").ok()?;
    let tops = reader.index(names.end as u64, "").ok()?;
    let strings = reader.index(tops.end as u64, "").ok()?;
    let globals = reader.index(strings.end as u64, "").ok()?;
    let span = tops.span(bytes, 0);
    let top = reader.dict(span.clone(), "").ok()?;
    let at = |operator| top.place(operator, "").ok();
    let charstrings = reader.index(at(operator::CHARSTRINGS)??, "").ok()?;
    let mut held = Held {
        cid_keyed: top.last(operator::ROS).is_some(),
        top: raw(bytes, span),
        strings: items(bytes, &strings),
        globals: items(bytes, &globals),
        charstrings: items(bytes, &charstrings),
        charset: at(operator::CHARSET)?.is_some_and(|at| at > 2),
        encoding: None,
        dicts: Vec::new(),
        privates: Vec::new(),
        select: None,
    };
    if held.cid_keyed {
        let array = reader.index(at(operator::FD_ARRAY)??, "").ok()?;
        for k in 0..array.count {
            let span = array.span(bytes, k);
            let fd = reader.dict(span.clone(), "").ok()?;
            held.dicts.push(raw(bytes, span));
            held.privates.push(reader.held_private(&fd)?);
        }
        if let Some(at) = at(operator::FD_SELECT)? {
            held.select = Some(super::parts::selected(&bytes[at as usize..], glyphs));
        }
    } else {
        held.privates.push(reader.held_private(&top)?);
        if let Some(at) = at(operator::ENCODING)?.filter(|&at| at > 1) {
            held.encoding = Some(encoding(&bytes[at as usize..]).to_vec());
        }
    }
    Some(held)
}

fn items(bytes: &[u8], index: &Index) -> Vec<Vec<u8>> {
    (0..index.count)
        .map(|k| bytes[index.span(bytes, k)].to_vec())
        .collect()
}

/// An encoding that is read, from its first byte: TN5176, section 12.
fn encoding(table: &[u8]) -> &[u8] {
    let count = usize::from(table[1]);
    let mut length = 2 + if table[0] & 127 == 0 {
        count
    } else {
        2 * count
    };
    if table[0] & 128 != 0 {
        length += 1 + 3 * usize::from(table[length]);
    }
    &table[..length]
}

/// The entries of a DICT that is read; operands behind the last operator are dropped.
fn raw(bytes: &[u8], span: Range<usize>) -> Vec<Raw> {
    let mut entries = Vec::new();
    let mut operands = Vec::new();
    let mut at = span.start;
    while at < span.end {
        let first = bytes[at];
        let length = match first {
            12 | 247..=254 => 2,
            28 => 3,
            29 => 5,
            30 => {
                let ends = |b: &u8| b & 15 == 15 || b >> 4 == 15;
                let rest = &bytes[at + 1..span.end];
                2 + rest.iter().position(ends).unwrap_or(rest.len())
            }
            _ => 1,
        };
        let token = &bytes[at..at + length];
        if first < 22 {
            let operator = if first == 12 {
                number(token) as u16
            } else {
                u16::from(first)
            };
            entries.push(Raw {
                operator,
                operands: std::mem::take(&mut operands),
            });
        } else {
            operands.push(token.to_vec());
        }
        at += length;
    }
    entries
}

impl Reader<'_> {
    /// The Private that a DICT names, if it does; the outer None is for one that cannot be read.
    fn held_private(&mut self, dict: &Dict) -> Option<Option<Private>> {
        let Some([size, offset]) = dict.last(operator::PRIVATE) else {
            return Some(None);
        };
        let (size, at) = (size.whole_part()?, offset.whole_part()?);
        let span = at as usize..(at + size) as usize;
        let dict = self.dict(span.clone(), "").ok()?;
        let locals = match dict.place(operator::SUBRS, "").ok()? {
            None => None,
            Some(relative) => {
                let index = self.index(at + relative, "").ok()?;
                Some(items(self.bytes, &index))
            }
        };
        Some(Some(Private {
            entries: raw(self.bytes, span),
            locals,
        }))
    }
}
