//! What a subset is made of: the DICTs, local subroutines and FDs of a font that is read.

use super::dict::{Dict, Entries, operator};
use super::{Index, Reader, number};
use crate::decimal::Decimal;
use crate::domain::NONE;
use std::ops::Range;

/// A Private and its local subroutines.
pub struct Private {
    pub entries: Entries,
    pub locals: Option<Index>,
}

/// What a subset is made of, beside what `Font` tells.
pub struct Parts {
    pub top: Entries,
    /// The operands of the last FontMatrix of each FD.
    pub matrices: Vec<Option<Vec<Decimal>>>,
    /// Of each FD; of a name-keyed font the one.
    pub privates: Vec<Private>,
    /// The FD of each glyph.
    pub select: Vec<u8>,
}

/// The parts of the first font of bytes that are read.
pub fn parts(bytes: &[u8], glyphs: usize) -> Option<Parts> {
    let mut reader = Reader::new(bytes, NONE);
    let names = reader.index(u64::from(bytes[2]), "").ok()?;
    let tops = reader.index(names.end as u64, "").ok()?;
    let top = reader.dict(tops.span(bytes, 0), "").ok()?;
    let mut matrices = Vec::new();
    let mut privates = Vec::new();
    let mut select = vec![0; glyphs];
    if top.last(operator::ROS).is_some() {
        let array = reader
            .index(top.place(operator::FD_ARRAY, "").ok()??, "")
            .ok()?;
        for k in 0..array.count {
            let fd = reader.dict(array.span(bytes, k), "").ok()?;
            matrices.push(fd.last(operator::FONT_MATRIX).map(<[Decimal]>::to_vec));
            privates.push(reader.private_parts(&fd)?);
        }
        if let Some(at) = top.place(operator::FD_SELECT, "").ok()? {
            select = selected(&bytes[at as usize..], glyphs);
        }
    } else {
        privates.push(reader.private_parts(&top)?);
    }
    Some(Parts {
        top: top.entries,
        matrices,
        privates,
        select,
    })
}

/// A copy of a font whose top DICTs have no Encoding entry: another operator, UniqueID, stands in its place.
pub fn without_encoding(bytes: &[u8]) -> Option<Vec<u8>> {
    const UNIQUE_ID: u8 = 13;
    let mut reader = Reader::new(bytes, NONE);
    let names = reader.index(u64::from(*bytes.get(2)?), "").ok()?;
    let tops = reader.index(names.end as u64, "").ok()?;
    let mut copy = bytes.to_vec();
    for k in 0..tops.count {
        for place in reader.operators(tops.span(bytes, k)) {
            if u16::from(copy[place]) == operator::ENCODING {
                copy[place] = UNIQUE_ID;
            }
        }
    }
    Some(copy)
}

/// The FD of each glyph by an FDSelect that is read.
pub(super) fn selected(table: &[u8], glyphs: usize) -> Vec<u8> {
    if table[0] == 0 {
        return table[1..=glyphs].to_vec();
    }
    let mut select = vec![0; glyphs];
    for range in 0..number(&table[1..3]) as usize {
        let at = 3 + 3 * range;
        let (first, next) = (number(&table[at..at + 2]), number(&table[at + 3..at + 5]));
        for glyph in first..next.min(glyphs as u64) {
            select[glyph as usize] = table[at + 2];
        }
    }
    select
}

impl Reader<'_> {
    /// Where the operators of one byte stand in a DICT that is read.
    fn operators(&self, span: Range<usize>) -> Vec<usize> {
        let mut places = Vec::new();
        let mut at = span.start;
        while at < span.end {
            let first = self.bytes[at];
            match first {
                0..=11 | 13..=21 => places.push(at),
                30 => {
                    let ends = |b: &u8| b & 15 == 15 || b >> 4 == 15;
                    let rest = &self.bytes[at + 1..span.end];
                    at += 1 + rest.iter().position(ends).unwrap_or(rest.len());
                }
                _ => {}
            }
            at += match first {
                12 | 247..=254 => 2,
                28 => 3,
                29 => 5,
                _ => 1,
            };
        }
        places
    }

    fn private_parts(&mut self, dict: &Dict) -> Option<Private> {
        let Some([size, offset]) = dict.last(operator::PRIVATE) else {
            return Some(Private {
                entries: Vec::new(),
                locals: None,
            });
        };
        let (size, at) = (size.whole_part()?, offset.whole_part()?);
        let dict = self.dict(at as usize..(at + size) as usize, "").ok()?;
        let locals = match dict.place(operator::SUBRS, "").ok()? {
            None => None,
            Some(relative) => Some(self.index(at + relative, "").ok()?),
        };
        Some(Private {
            entries: dict.entries,
            locals,
        })
    }
}
