//! Entries and operands of the DICTs of a made font, right and wrong ones.

use super::Maker;
use crate::layout::{Entry, Num, entry};
use crate::numbers::{self, Form, form};

/// One-byte operators and escapes that reading does not look for.
const OTHER_OPERATORS: [u8; 16] = [0, 1, 2, 3, 4, 5, 6, 7, 8, 9, 10, 11, 13, 14, 20, 21];
const OTHER_ESCAPES: [u8; 20] = [
    0, 1, 2, 3, 4, 5, 7, 8, 9, 17, 18, 22, 29, 31, 34, 35, 38, 60, 128, 255,
];

impl Maker<'_> {
    /// A DICT with entries repeated, doubled operands, reserved bytes, operands left over.
    pub(super) fn disturb(&mut self, dict: &mut Vec<Entry>) {
        // An earlier entry of an operator does not count, whatever it says.
        if self.g.once_in(6) && !dict.is_empty() {
            let k = self.g.below(dict.len());
            let mut early = dict[k].clone();
            if early.operator != [12, 30] {
                early.operands = (0..self.g.below(4)).map(|_| self.other_number()).collect();
            }
            let at = self.g.below(k + 1);
            dict.insert(at, early);
        }
        if self.wrong() && !dict.is_empty() {
            // A later one does.
            let k = self.g.below(dict.len());
            let mut late = dict[k].clone();
            late.operands = (0..self.g.below(4)).map(|_| self.other_number()).collect();
            dict.push(late);
        }
        if self.wrong() && !dict.is_empty() {
            let k = self.g.below(dict.len());
            dict.remove(k);
        }
        if self.wrong() && !dict.is_empty() {
            // Two operands where one is wanted, or one more than wanted.
            let k = self.g.below(dict.len());
            let more = self.other_number();
            dict[k].operands.push(more);
        }
        if self.wrong() {
            let byte = self.g.one_of(&[22, 23, 24, 25, 26, 27, 31, 255]);
            let at = self.g.below(dict.len() + 1);
            dict.insert(at, entry(Vec::new(), &[byte]));
        }
        if self.wrong() {
            let number = self.other_number();
            dict.push(entry(vec![number], &[]));
        }
        if self.wrong() {
            // Ends within a number, a real or an escape.
            let real = numbers::real_endless(self.g);
            let tail: &[u8] = self.g.one_of(&[
                &[12],
                &[28],
                &[28, 1],
                &[29, 1, 2, 3],
                &[247],
                &[254],
                real.as_slice(),
            ]);
            dict.push(entry(Vec::new(), tail));
        }
        if self.wrong() {
            let at = self.g.below(dict.len() + 1);
            let real = numbers::real_past(self.g);
            let operator = self.other_operator();
            dict.insert(at, entry(vec![Num::Bytes(real)], &operator));
        }
        if self.wrong() {
            let at = self.g.below(dict.len() + 1);
            let real = numbers::real_malformed(self.g);
            let operator = self.other_operator();
            dict.insert(at, entry(vec![Num::Bytes(real)], &operator));
        }
    }

    fn other_operator(&mut self) -> Vec<u8> {
        if self.g.once_in(2) {
            vec![self.g.one_of(&OTHER_OPERATORS)]
        } else {
            vec![12, self.g.one_of(&OTHER_ESCAPES)]
        }
    }

    pub(super) fn other_entry(&mut self) -> Entry {
        let count = match self.g.below(30) {
            0 => 40 + self.g.below(20),
            1..=4 => 0,
            _ => 1 + self.g.below(3),
        };
        let operands = (0..count).map(|_| self.other_number()).collect();
        let operator = self.other_operator();
        entry(operands, &operator)
    }

    pub(super) fn other_number(&mut self) -> Num {
        Num::Bytes(if self.wrong() {
            match self.g.below(3) {
                0 => numbers::real_malformed(self.g),
                _ => numbers::real_past(self.g),
            }
        } else if self.g.once_in(3) {
            numbers::real(self.g)
        } else {
            numbers::integer(self.g)
        })
    }

    /// An integer in any form.
    pub(super) fn small(&mut self, value: i64) -> Num {
        let form = form(self.g);
        Num::Bytes(numbers::write(value, form))
    }

    /// The operands of an entry that names a part.
    pub(super) fn offset_of(&mut self, part: usize) -> Vec<Num> {
        let form = form(self.g);
        if self.wrong() {
            return self.wrong_offset();
        }
        vec![Num::Place(part, 0, form)]
    }

    /// Operands that are numbers, and refused wherever an offset or a Private is wanted.
    pub(super) fn senseless(&mut self) -> Vec<Num> {
        let form = form(self.g);
        let word = self.g.word();
        let number = match self.g.below(5) {
            0 => self.small(1),
            1 => self.small(-1),
            2 => Num::Bytes(numbers::write(3, Form::Fraction(word))),
            3 => Num::Bytes(numbers::write(i64::from(i32::MAX), form)),
            _ => return vec![self.small(-2), self.small(-1)],
        };
        vec![number]
    }

    /// Offsets that are no place, or another's place, or around the end.
    pub(super) fn wrong_offset(&mut self) -> Vec<Num> {
        let form = form(self.g);
        let any = self.g.below(self.layout.parts.len());
        let word = self.g.word();
        let number = match self.g.below(12) {
            0 => Num::Place(any, 0, Form::Fraction(word)),
            1 => Num::Bytes(numbers::write(-1, form)),
            2 => Num::Bytes(numbers::write(0, Form::Fraction(word))),
            3 => Num::Bytes(numbers::write(i64::from(i32::MAX), form)),
            4 => Num::Bytes(numbers::write(1_000_000_000_000, Form::Real(word))),
            // 1E30: more than any machine word.
            5 => Num::Bytes(vec![30, 0x1b, 0x30, 0xff]),
            6 => Num::Bytes(numbers::real_past(self.g)),
            7 => Num::Bytes(numbers::real_malformed(self.g)),
            8 => {
                let near = self.g.below(5) as i64 - 2;
                Num::Place(any, near, form)
            }
            9 => self.small(0),
            10 => return vec![Num::Place(any, 0, form), Num::Place(any, 0, form)],
            _ => return Vec::new(),
        };
        vec![number]
    }
}
