//! DICTs: TN5176, section 4.

use super::{MALFORMED, PAST_LIMITS, Reader, Step, TRUNCATED, number, refuse};
use crate::decimal::{self, Decimal, Real};
use std::ops::Range;

/// Operators of DICTs, TN5176, sections 9, 15 and 18; an escape is 12 times 256 and its byte.
pub mod operator {
    pub const CHARSET: u16 = 15;
    pub const ENCODING: u16 = 16;
    pub const CHARSTRINGS: u16 = 17;
    pub const PRIVATE: u16 = 18;
    pub const SUBRS: u16 = 19;
    pub const PAINT_TYPE: u16 = 12 << 8 | 5;
    pub const CHARSTRING_TYPE: u16 = 12 << 8 | 6;
    pub const FONT_MATRIX: u16 = 12 << 8 | 7;
    pub const STROKE_WIDTH: u16 = 12 << 8 | 8;
    pub const ROS: u16 = 12 << 8 | 30;
    pub const FD_ARRAY: u16 = 12 << 8 | 36;
    pub const FD_SELECT: u16 = 12 << 8 | 37;
}

/// Entries of a DICT: operators with their operands.
pub type Entries = Vec<(u16, Vec<Decimal>)>;

/// Entries of a DICT in their order.
pub(super) struct Dict {
    pub(super) entries: Entries,
}

impl Dict {
    /// The operands of the last entry of an operator.
    pub(super) fn last(&self, operator: u16) -> Option<&[Decimal]> {
        let mut found = self.entries.iter().filter(|e| e.0 == operator);
        found.next_back().map(|e| e.1.as_slice())
    }

    /// Its number: an entry with other than one operand is absent.
    pub(super) fn number(&self, operator: u16) -> Option<Decimal> {
        match self.last(operator) {
            Some([n]) => Some(*n),
            _ => None,
        }
    }

    /// Its number as an offset, which must be whole.
    pub(super) fn place(&self, operator: u16, part: &'static str) -> Step<Option<u64>> {
        match self.number(operator) {
            None => Ok(None),
            Some(n) => match n.place() {
                Some(at) => Ok(Some(at)),
                None => refuse(MALFORMED, part, "offset below 0 or no whole number", 0),
            },
        }
    }

    /// What the original holds of it.
    pub(super) fn memory(&self) -> u64 {
        self.entries
            .iter()
            .map(|e| 64 + 16 * e.1.len() as u64)
            .sum()
    }
}

impl Reader<'_> {
    /// The DICT in a part of the font. Nothing past the part is read.
    pub(super) fn dict(&mut self, span: Range<usize>, part: &'static str) -> Step<Dict> {
        self.mark(span.start as u64);
        let data = &self.bytes[span.clone()];
        let mut entries = Vec::new();
        let mut operands = Vec::new();
        let mut at = 0;
        while at < data.len() {
            let first = i64::from(data[at]);
            at += 1;
            // How many bytes follow the first.
            let more = match first {
                12 | 247..=254 => 1,
                28 => 2,
                29 => 4,
                22..=27 | 31 | 255 => {
                    return refuse(MALFORMED, part, "reserved byte", span.start + at - 1);
                }
                _ => 0,
            };
            if data.len() - at < more {
                return refuse(
                    TRUNCATED,
                    part,
                    "number or escape ends early",
                    span.start + at,
                );
            }
            let follow = number(&data[at..at + more]) as i64;
            at += more;
            match first {
                12 => entries.push((12 << 8 | follow as u16, std::mem::take(&mut operands))),
                0..=21 => entries.push((first as u16, std::mem::take(&mut operands))),
                28 => operands.push(Decimal::integer(i64::from(follow as u16 as i16))),
                29 => operands.push(Decimal::integer(i64::from(follow as u32 as i32))),
                30 => {
                    self.note("real");
                    let (n, next) = real(data, at, span.start, part)?;
                    operands.push(n);
                    at = next;
                }
                247..=250 => operands.push(Decimal::integer((first - 247) * 256 + follow + 108)),
                251..=254 => operands.push(Decimal::integer(-(first - 251) * 256 - follow - 108)),
                _ => operands.push(Decimal::integer(first - 139)),
            }
        }
        if !operands.is_empty() {
            return refuse(MALFORMED, part, "operands left over", span.end);
        }
        let dict = Dict { entries };
        self.note_dict(&dict);
        Ok(dict)
    }

    fn note_dict(&mut self, dict: &Dict) {
        use operator::*;
        let ours = [
            CHARSET,
            ENCODING,
            CHARSTRINGS,
            PRIVATE,
            SUBRS,
            CHARSTRING_TYPE,
            FD_ARRAY,
            FD_SELECT,
        ];
        for (k, (operator, operands)) in dict.entries.iter().enumerate() {
            if ours.contains(operator) {
                if dict.entries[k + 1..].iter().any(|e| e.0 == *operator) {
                    self.note("entry that a later one undoes");
                } else if operands.len() != 1 && *operator != PRIVATE {
                    self.note("entry absent for its operands");
                }
            }
        }
        if dict.entries.is_empty() {
            self.note("empty DICT");
        }
    }
}

/// The real whose first nibbles are at `at` in a DICT: its number, and the place after its last
/// byte.
fn real(data: &[u8], at: usize, start: usize, part: &'static str) -> Step<(Decimal, usize)> {
    let mut nibbles = Vec::new();
    let mut next = at;
    'bytes: loop {
        let Some(&byte) = data.get(next) else {
            return refuse(TRUNCATED, part, "real without an end", start + at);
        };
        next += 1;
        for nibble in [byte >> 4, byte & 15] {
            match nibble {
                15 => break 'bytes,
                13 => return refuse(MALFORMED, part, "reserved nibble", start + at),
                _ => nibbles.push(nibble),
            }
        }
    }
    match decimal::real(&nibbles) {
        Real::Number(n) => Ok((n, next)),
        Real::Malformed => refuse(MALFORMED, part, "text of a real", start + at),
        Real::Past(limit) => refuse(PAST_LIMITS, part, limit, start + at),
    }
}
