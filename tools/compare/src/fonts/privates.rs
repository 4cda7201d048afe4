//! The Privates of a made font with their local subroutines, and its FDs.

use super::Maker;
use crate::bodies::Role;
use crate::layout::{Entry, Num, Part, entry};
use crate::numbers::{self, Form, form};

impl Maker<'_> {
    /// FDArray and FDSelect with their entries.
    pub(super) fn fds(&mut self, glyphs: usize, top: &mut Vec<Entry>) {
        let count = match self.g.below(60) {
            0 => 250 + self.g.below(20),
            _ => 1 + self.g.below(5),
        };
        let count = if self.wrong() { 0 } else { count };
        let mut privates: Vec<Vec<Num>> = Vec::new();
        let mut fds = Vec::new();
        for _ in 0..count {
            let mut fd = Vec::new();
            let shared = !privates.is_empty() && (count > 10 || self.g.once_in(3));
            let operands = if shared {
                let k = self.g.below(privates.len());
                Some(privates[k].clone())
            } else {
                self.private(Some(&privates))
            };
            if let Some(operands) = operands {
                privates.push(operands.clone());
                fd.push(entry(operands, &[18]));
            }
            if count < 10 {
                for _ in 0..self.g.below(2) {
                    let other = self.other_entry();
                    let at = self.g.below(fd.len() + 1);
                    fd.insert(at, other);
                }
                self.disturb(&mut fd);
            }
            fds.push(Part::Dict(fd));
        }
        let shape = self.shape();
        let array = self.layout.add(Part::Index(shape, fds));
        let operands = self.offset_of(array);
        top.push(entry(operands, &[12, 36]));
        if self.g.once_in(6) && (count > 0 || self.g.once_in(2)) {
            return;
        }
        let select = self.fd_select(glyphs, count.max(1));
        let part = self.layout.add(Part::Bytes(select));
        let operands = self.offset_of(part);
        top.push(entry(operands, &[12, 37]));
    }

    /// The operands of a Private entry, and the Private with its local subroutines.
    pub(super) fn private(&mut self, others: Option<&Vec<Vec<Num>>>) -> Option<Vec<Num>> {
        if self.g.once_in(if self.plan.is_some() { 15 } else { 7 }) {
            return None;
        }
        let mut dict = Vec::new();
        for _ in 0..self.g.below(3) {
            let other = self.other_entry();
            dict.push(other);
        }
        // The Private, then its subroutines, in the order of the file as often as not.
        let private = self.layout.add(Part::Dict(Vec::new()));
        if !self.g.once_in(if self.plan.is_some() { 12 } else { 3 }) {
            let count = match self.g.below(100) {
                0 => 1230 + self.g.below(20),
                1..=15 => 0,
                _ => 1 + self.g.below(4),
            };
            let count = match self.plan {
                Some(plan) if !self.g.once_in(8) => plan.locals,
                _ => count,
            };
            let bodies = self.bodies(count, Role::Local);
            let shape = self.shape();
            let subrs = self.layout.add(Part::Index(shape, bodies));
            let form = form(self.g);
            let operands = if self.wrong() {
                self.wrong_offset()
            } else {
                vec![Num::Distance(private, subrs, form)]
            };
            dict.push(entry(operands, &[19]));
            if self.g.once_in(8) {
                // An entry that does not count: of another operator, or before.
                let other = self.other_entry();
                dict.push(other);
            }
        }
        self.disturb(&mut dict);
        self.layout.parts[private] = Part::Dict(dict);
        let (mut size_form, mut place_form) = (form(self.g), form(self.g));
        if self.g.once_in(6) {
            size_form = Form::Fraction(self.g.word());
        }
        if self.g.once_in(6) {
            place_form = Form::Fraction(self.g.word());
        }
        let mut size = Num::Length(private, 0, size_form);
        let mut place = Num::Place(private, 0, place_form);
        if self.wrong() {
            let word = self.g.word();
            let negative = Num::Bytes(match self.g.below(3) {
                0 => numbers::write(-1, form(self.g)),
                // -0.25 is below 0, -0 is not.
                1 => vec![30, 0xe0, 0xa2, 0x5f],
                _ => vec![30, 0xe0, 0xff],
            });
            match self.g.below(6) {
                0 => size = negative,
                1 => place = negative,
                2 => size = Num::Length(private, self.g.below(9) as i64 - 4, size_form),
                3 => place = Num::Bytes(numbers::write(1 << 26, Form::Real(word))),
                4 => size = Num::Bytes(vec![30, 0x1b, 0x30, 0xff]),
                _ => return Some(vec![size]),
            }
        }
        if self.g.once_in(30) && others.is_some() {
            // Of no bytes: at the end of the header, say.
            return Some(vec![self.small(0), Num::Place(1, 0, place_form)]);
        }
        Some(vec![size, place])
    }
}
