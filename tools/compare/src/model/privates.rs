//! Privates with their local subroutines, and the FDs of a CID-keyed font, which have one each.

use super::dict::{Dict, operator};
use super::font::words_for;
use super::{MALFORMED, Reader, Step, refuse};
use crate::domain::FD_MATRIX;

/// What the FDs of a font come to.
#[derive(Clone, Copy)]
pub(super) struct Fds {
    pub(super) count: usize,
    pub(super) locals: u64,
    pub(super) local_words: u64,
    pub(super) memory: u64,
}

impl Reader<'_> {
    pub(super) fn fd_array(&mut self, at: u64) -> Step<Fds> {
        if let Some(known) = self.fd_arrays.get(&at) {
            return *known;
        }
        let fds = self.fds(at);
        self.fd_arrays.insert(at, fds);
        fds
    }

    fn fds(&mut self, at: u64) -> Step<Fds> {
        let array = self.index(at, "FDArray INDEX")?;
        let mut fds = Fds {
            count: array.count,
            locals: 0,
            local_words: 0,
            memory: 0,
        };
        for k in 0..array.count {
            let fd = self.dict(array.span(self.bytes, k), "FD DICT")?;
            self.note_entry(&fd, operator::FONT_MATRIX, FD_MATRIX);
            let (locals, memory) =
                self.private_entry(&fd, "Private entry of an FD", "Private of an FD")?;
            fds.locals += locals;
            fds.local_words += words_for(locals);
            fds.memory += 80 + memory;
        }
        Ok(fds)
    }

    /// The Private that a DICT names: how many locals it has. The sign of size and offset counts
    /// before the fraction is dropped.
    pub(super) fn private_entry(
        &mut self,
        dict: &Dict,
        entry: &'static str,
        part: &'static str,
    ) -> Step<(u64, u64)> {
        let Some(operands) = dict.last(operator::PRIVATE) else {
            self.note("Private absent");
            return Ok((0, 0));
        };
        let [size, offset] = operands else {
            return refuse(MALFORMED, entry, "not two numbers", 0);
        };
        if size.power < 0 || offset.power < 0 {
            self.note("Private size or offset with a fraction");
        }
        let (Some(size), Some(at)) = (size.whole_part(), offset.whole_part()) else {
            return refuse(MALFORMED, entry, "size or offset below 0", 0);
        };
        if self.privates.contains_key(&(at, size)) {
            self.note("Private shared");
        }
        if let Some(known) = self.privates.get(&(at, size)) {
            return *known;
        }
        let private = self.private(at, size, part);
        self.privates.insert((at, size), private);
        private
    }

    fn private(&mut self, at: u64, size: u64, part: &'static str) -> Step<(u64, u64)> {
        self.bytes_at(at, size, part, "past the end")?;
        let dict = self.dict(at as usize..(at + size) as usize, part)?;
        match dict.place(operator::SUBRS, part)? {
            None => Ok((0, dict.memory())),
            Some(relative) => {
                self.note("local subroutines");
                let locals = self.index(at.saturating_add(relative), "local subroutine INDEX")?;
                Ok((locals.count as u64, dict.memory() + self.copied(&locals)))
            }
        }
    }
}
