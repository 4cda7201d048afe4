//! The top DICT of a made font, and through it the parts that it names.

use super::Maker;
use crate::bodies::Role;
use crate::cff::STANDARD_STRINGS;
use crate::layout::{Entry, Num, Part, entry};
use crate::numbers::{self, Form};

/// PaintType and StrokeWidth.
const STROKES: [&[u8]; 2] = [&[12, 5], &[12, 8]];

impl Maker<'_> {
    pub(super) fn font(&mut self, cid_keyed: bool) -> Vec<Entry> {
        let glyphs = match self.g.below(400) {
            0..=11 => 229 + self.g.below(400),
            12..=40 => 9 + self.g.below(40),
            41 if self.g.once_in(12) => 65_000 + self.g.below(536),
            _ => 1 + self.g.below(8),
        };
        let glyphs = match glyphs {
            _ if self.wrong() => 0,
            // A little above the codes that there are; seldom more.
            229.. if self.coded => 250 + self.g.below(20),
            _ => glyphs,
        };
        let mut top = Vec::new();
        if cid_keyed {
            let odds = if self.stroked { 8 } else { 25 };
            let count = if self.wrong() || self.plan.is_some() && self.g.once_in(odds) {
                self.g.below(6)
            } else {
                3
            };
            let operands = (0..count)
                .map(|_| {
                    if self.plan.is_some() && !self.g.once_in(3) {
                        self.string_id()
                    } else {
                        self.other_number()
                    }
                })
                .collect();
            top.push(entry(operands, &[12, 30]));
        }
        if self.plan.is_some() {
            self.copied_entries(&mut top);
        }
        if self.g.once_in(4) {
            let number = self.charstring_type();
            top.push(entry(vec![number], &[12, 6]));
        }
        let bodies = self.bodies(glyphs, Role::Glyph);
        let shape = self.shape();
        let charstrings = self.layout.add(Part::Index(shape, bodies));
        let operands = self.offset_of(charstrings);
        top.push(entry(operands, &[17]));
        if let Some(operands) = self.charset(glyphs, cid_keyed) {
            top.push(entry(operands, &[15]));
        }
        if self.g.once_in(8) {
            // Entries of the other keying are passed over, whatever they say.
            let operators: [&[u8]; 2] = if cid_keyed {
                [&[16], &[18]]
            } else {
                [&[12, 36], &[12, 37]]
            };
            for operator in operators {
                let operands = self.senseless();
                top.push(entry(operands, operator));
            }
        }
        if cid_keyed || self.g.once_in(40) {
            self.fds(glyphs, &mut top);
        }
        if !cid_keyed || self.g.once_in(40) {
            if let Some(operands) = self.encoding(glyphs) {
                top.push(entry(operands, &[16]));
            }
            if let Some(operands) = self.private(None) {
                top.push(entry(operands, &[18]));
            }
        }
        for _ in 0..self.g.below(4) {
            let other = self.other_entry();
            if self.stroked || !STROKES.contains(&other.operator.as_slice()) {
                top.push(other);
            }
        }
        if self.g.once_in(2) {
            for k in (1..top.len()).rev() {
                let l = self.g.below(k + 1);
                top.swap(k, l);
            }
        }
        self.disturb(&mut top);
        top
    }

    /// A string id, one of the font's own as often as not, with a fraction now and then.
    fn string_id(&mut self) -> Num {
        let id = match self.g.below(3) {
            0 => self.g.below(STANDARD_STRINGS.len()),
            _ => STANDARD_STRINGS.len() + self.g.below(self.strings + 1),
        };
        if self.g.once_in(12) {
            return Num::Bytes(numbers::write(id as i64, Form::Fraction(self.g.word())));
        }
        self.small(id as i64)
    }

    /// Entries that a subset copies.
    fn copied_entries(&mut self, top: &mut Vec<Entry>) {
        for operator in [&[0][..], &[1], &[12, 0], &[2], &[3], &[4]] {
            if self.g.once_in(4) {
                let id = self.string_id();
                top.push(entry(vec![id], operator));
            }
        }
        if self.stroked {
            self.strokes(top);
        }
        let numbers: [(usize, &[u8]); 7] = [
            (4, &[5]),
            (1, &[12, 1]),
            (1, &[12, 2]),
            (1, &[12, 3]),
            (1, &[12, 4]),
            (6, &[12, 7]),
            (1, &[12, 34]),
        ];
        for (count, operator) in numbers {
            if self.g.once_in(5) {
                let operands = (0..count).map(|_| self.other_number()).collect();
                top.push(entry(operands, operator));
            }
        }
    }

    /// PaintType, StrokeWidth or both: one number, 0 as often as not, or none or two.
    fn strokes(&mut self, top: &mut Vec<Entry>) {
        let which = self.g.below(3);
        for (k, operator) in STROKES.into_iter().enumerate() {
            if which == k {
                continue;
            }
            let count = self.g.one_of(&[1, 1, 1, 1, 1, 1, 0, 2]);
            let operands = (0..count)
                .map(|_| match self.g.below(4) {
                    0 | 1 => self.small(0),
                    // 0.5, -0 and 0.00.
                    2 => Num::Bytes(
                        self.g
                            .one_of(&[
                                &[30, 0xa5, 0xff][..],
                                &[30, 0xe0, 0xff],
                                &[30, 0x0a, 0x00, 0xff],
                            ])
                            .to_vec(),
                    ),
                    _ => self.other_number(),
                })
                .collect();
            top.push(entry(operands, operator));
        }
    }

    fn charstring_type(&mut self) -> Num {
        if self.wrong() {
            let value = self.g.one_of(&[0, 1, 3, -2, 20]);
            if self.g.once_in(4) {
                return Num::Bytes(numbers::write(2, Form::Fraction(self.g.word())));
            }
            return self.small(value);
        }
        self.small(2)
    }
}
