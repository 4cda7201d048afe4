//! What a made font tells of each glyph: charset, Encoding, FDSelect.

use super::{LETTERS, Maker};
use crate::cff::STANDARD_STRINGS;
use crate::layout::{Num, Part};

impl Maker<'_> {
    /// String ids or CIDs of the glyphs, glyph 0 not among them.
    fn ids(&mut self, glyphs: usize, cid_keyed: bool) -> Vec<u16> {
        let strings = self.strings;
        let mut ids: Vec<u16> = Vec::new();
        let start = self.g.below(300);
        let way = self.g.below(5);
        for k in 1..glyphs {
            let id = match way {
                // In a row.
                0 => start + k,
                // Rising with gaps.
                1 => ids.last().map_or(0, |&id| usize::from(id)) + 1 + self.g.below(3),
                _ => match self.g.below(8) {
                    0 if !ids.is_empty() => usize::from(ids[self.g.below(ids.len())]),
                    1 => self.g.below(65536),
                    2 | 3 => STANDARD_STRINGS.len() + self.g.below(strings + 2),
                    4 => ids.last().map_or(0, |&id| usize::from(id)) + 1,
                    5 if cid_keyed => self.g.below(10),
                    5 if self.coded => LETTERS + self.g.below(6),
                    _ => self.g.below(STANDARD_STRINGS.len()),
                },
            };
            ids.push(id.min(65535) as u16);
        }
        ids
    }

    /// The operands of the charset entry, and the charset.
    pub(super) fn charset(&mut self, glyphs: usize, cid_keyed: bool) -> Option<Vec<Num>> {
        self.ids = (0..glyphs as u16).collect();
        match self.g.below(10) {
            0..=5 if self.coded && glyphs > 200 => return None,
            0 | 1 => return None,
            2 => return Some(vec![self.small(0)]),
            _ => {}
        }
        if self.odds != 0 && self.g.once_in(25) {
            let value = self.g.one_of(&[1, 2]);
            return Some(vec![self.small(value)]);
        }
        let ids = self.ids(glyphs, cid_keyed);
        self.ids = [&[0], ids.as_slice()].concat();
        let mut out;
        match self.g.below(3) {
            0 => {
                out = vec![0];
                for id in ids {
                    out.extend_from_slice(&id.to_be_bytes());
                }
            }
            format => {
                out = vec![format as u8];
                let most = if format == 1 { 256 } else { 65536 };
                let mut rest = ids.as_slice();
                while let Some(&first) = rest.first() {
                    let run = (1..rest.len().min(most))
                        .find(|&k| usize::from(rest[k]) != usize::from(first) + k)
                        .unwrap_or(rest.len().min(most));
                    rest = &rest[run..];
                    let mut left = run - 1;
                    // The last range may run past the glyphs.
                    if rest.is_empty() && self.g.once_in(3) {
                        left = (left + self.g.below(300)).min(most - 1);
                    }
                    let mut first = first;
                    if self.wrong() {
                        first = 65535 - self.g.below(4) as u16;
                        left = self.g.below(most);
                    }
                    out.extend_from_slice(&first.to_be_bytes());
                    out.extend_from_slice(&(left as u16).to_be_bytes()[2 - format..]);
                }
            }
        }
        if self.wrong() {
            out[0] = self.g.one_of(&[3, 4, 128, 255]);
        }
        if self.wrong() {
            let n = self.g.below(out.len());
            out.truncate(n);
        }
        let part = self.layout.add(Part::Bytes(out));
        Some(self.offset_of(part))
    }

    pub(super) fn encoding(&mut self, glyphs: usize) -> Option<Vec<Num>> {
        if self.coded {
            return self.codes(glyphs);
        }
        match self.g.below(6) {
            0..=2 => return None,
            3 => return Some(vec![self.small(0)]),
            _ => {}
        }
        if self.odds != 0 && self.g.once_in(12) {
            return Some(vec![self.small(1)]);
        }
        let mut format = self.g.below(2) as u8;
        let supplements = self.g.once_in(3);
        let count = match self.g.below(6) {
            0 => self.g.below(256),
            1 => 0,
            _ => glyphs.saturating_sub(1).min(255),
        };
        let unit = usize::from(format) + 1;
        let mut codes = vec![count as u8];
        codes.extend(self.g.bytes(count * unit));
        if supplements {
            format |= 0x80;
            let count = self.g.below(4);
            codes.push(count as u8);
            codes.extend(self.g.bytes(count * 3));
        }
        if self.wrong() {
            format = self.g.one_of(&[2, 3, 0x7f, 0x82, 0xff]);
        }
        let mut out = vec![format];
        out.extend(codes);
        if self.wrong() {
            let n = self.g.below(out.len());
            out.truncate(n);
        }
        let part = self.layout.add(Part::Bytes(out));
        Some(self.offset_of(part))
    }

    /// An encoding with what document 02, Wish 4, speaks of: codes twice, ranges past 255, numbers past the font, supplements of each
    /// kind of string, and all codes.
    fn codes(&mut self, glyphs: usize) -> Option<Vec<Num>> {
        match self.g.below(30) {
            0 => return None,
            1 => return Some(vec![self.small(0)]),
            2..=4 => return Some(vec![self.small(1)]),
            // Two operands are none.
            5 => return Some(vec![self.small(1), self.small(1)]),
            _ => {}
        }
        let mut out = match self.g.below(12) {
            0 | 1 => self.all_codes(glyphs),
            n => {
                let format = (n % 2) as u8;
                let mut out = vec![format];
                out.extend(if format == 0 {
                    self.listed_codes(glyphs)
                } else {
                    self.ranges(glyphs)
                });
                if self.g.below(3) > 0 {
                    out[0] |= 0x80;
                    let count = self.g.one_of(&[0, 1, 1, 2, 3, 5, 9, 30]);
                    out.push(count as u8);
                    for _ in 0..count {
                        out.push(self.code());
                        let id = self.supplied();
                        out.extend_from_slice(&id.to_be_bytes());
                    }
                }
                out
            }
        };
        if self.wrong() {
            out[0] = self.g.one_of(&[2, 3, 0x7f, 0x82, 0xff]);
        }
        if self.wrong() {
            let n = self.g.below(out.len());
            out.truncate(n);
        }
        let part = self.layout.add(Part::Bytes(out));
        Some(self.offset_of(part))
    }

    /// A code: one of few, or any.
    fn code(&mut self) -> u8 {
        match self.g.below(4) {
            0 | 1 => b'A' + self.g.below(6) as u8,
            2 => self.g.one_of(&[0, 1, 254, 255]),
            _ => self.g.below(256) as u8,
        }
    }

    /// A supplement's string id: a glyph's, one of few names, an own string's or one past them, any.
    fn supplied(&mut self) -> u16 {
        let id = match self.g.below(9) {
            0..=3 if !self.ids.is_empty() => return self.ids[self.g.below(self.ids.len())],
            4 | 5 => LETTERS + self.g.below(6),
            6 => STANDARD_STRINGS.len() + self.g.below(self.strings + 3),
            7 => 0,
            _ => self.g.below(65536),
        };
        id as u16
    }

    fn listed_codes(&mut self, glyphs: usize) -> Vec<u8> {
        let last = glyphs.saturating_sub(1);
        let count = match self.g.below(6) {
            0 => 0,
            1 => last + self.g.below(4),
            2 => self.g.below(256),
            _ => last,
        };
        let count = count.min(255);
        let mut out = vec![count as u8];
        out.extend((0..count).map(|_| self.code()));
        out
    }

    fn ranges(&mut self, glyphs: usize) -> Vec<u8> {
        let count = self.g.one_of(&[0, 1, 1, 2, 3, 6, 20]);
        let mut out = vec![count as u8];
        for _ in 0..count {
            out.push(self.code());
            out.push(match self.g.below(5) {
                0 => self.g.below(256) as u8,
                1 => glyphs.min(255) as u8,
                _ => self.g.below(4) as u8,
            });
        }
        out
    }

    /// All codes but one at most: by a range where there are as many glyphs, else by one code and supplements.
    fn all_codes(&mut self, glyphs: usize) -> Vec<u8> {
        if glyphs > 255 && self.g.below(4) > 0 {
            return vec![1, 1, self.g.below(2) as u8, 255];
        }
        let supplements = 255 - self.g.below(2);
        let mut out = vec![0x80, 1, 0, supplements as u8];
        for code in 1..=supplements {
            out.push(code as u8);
            let id = if self.ids.is_empty() || self.g.once_in(2000) {
                self.supplied()
            } else {
                self.ids[self.g.below(self.ids.len())]
            };
            out.extend_from_slice(&id.to_be_bytes());
        }
        out
    }

    pub(super) fn fd_select(&mut self, glyphs: usize, fds: usize) -> Vec<u8> {
        let fds = fds.min(256);
        let mut out;
        if self.g.once_in(3) {
            out = vec![0];
            out.extend((0..glyphs).map(|_| self.g.below(fds) as u8));
            if self.wrong() && glyphs > 0 {
                let k = 1 + self.g.below(glyphs);
                out[k] = self.g.one_of(&[fds.min(255) as u8, 255]);
            }
        } else {
            // Ranges that rise; some are empty, or leave glyphs out at either end.
            let mut bounds = vec![if self.g.once_in(5) {
                self.g.below(3)
            } else {
                0
            }];
            for _ in 0..self.g.below(5) {
                let last = bounds[bounds.len() - 1];
                bounds.push(last + self.g.below(4));
            }
            match self.g.below(8) {
                0 => {}
                1 => bounds.push(65535),
                _ => bounds.push(glyphs.max(bounds[bounds.len() - 1])),
            }
            if self.wrong() {
                let k = self.g.below(bounds.len());
                bounds[k] = self.g.below(glyphs + 3);
            }
            out = vec![3];
            out.extend_from_slice(&(bounds.len() as u16 - 1).to_be_bytes());
            for (k, bound) in bounds.iter().enumerate() {
                out.extend_from_slice(&(*bound as u16).to_be_bytes());
                if k + 1 < bounds.len() {
                    let empty = bounds[k] >= bounds[k + 1] || bounds[k] >= glyphs;
                    // An FD past the array matters only where a glyph has it.
                    if self.wrong() || empty && self.g.once_in(2) {
                        out.push(self.g.one_of(&[fds.min(255) as u8, 255]));
                    } else {
                        out.push(self.g.below(fds) as u8);
                    }
                }
            }
        }
        if self.wrong() {
            out[0] = self.g.one_of(&[1, 2, 4, 255]);
        }
        if self.wrong() {
            let n = self.g.below(out.len());
            out.truncate(n);
        }
        out
    }
}
