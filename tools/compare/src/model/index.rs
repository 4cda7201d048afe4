//! INDEXes: TN5176, section 5.

use super::{MALFORMED, Reader, Step, TRUNCATED, number, refuse};
use crate::domain::FIRST_OFFSET;
use std::ops::Range;

/// An INDEX: how many items, and where its offsets are.
#[derive(Clone, Copy, Debug)]
pub struct Index {
    pub count: usize,
    offset_size: usize,
    offsets: usize,
    pub(super) end: usize,
}

impl Index {
    fn offset(&self, bytes: &[u8], k: usize) -> usize {
        let at = self.offsets + k * self.offset_size;
        number(&bytes[at..at + self.offset_size]) as usize
    }

    /// Where the k-th item is: offsets count from the byte before the data.
    pub fn span(&self, bytes: &[u8], k: usize) -> Range<usize> {
        let before = self.offsets + (self.count + 1) * self.offset_size - 1;
        before + self.offset(bytes, k)..before + self.offset(bytes, k + 1)
    }
}

impl Reader<'_> {
    /// What the original takes for the items of an INDEX, which it copies.
    pub(super) fn copied(&self, index: &Index) -> u64 {
        if index.count == 0 {
            return 0;
        }
        let data = index.span(self.bytes, 0).start..index.span(self.bytes, index.count - 1).end;
        // A list of places, a list of copies, and the copies, each with what the allocator adds.
        56 * index.count as u64 + 2 * data.len() as u64
    }

    pub(super) fn index(&mut self, at: u64, part: &'static str) -> Step<Index> {
        self.mark(at);
        let count = number(self.bytes_at(at, 2, part, "count ends early")?);
        let at = at as usize;
        let mut index = Index {
            count: count as usize,
            offset_size: 0,
            offsets: at + 3,
            end: at + 2,
        };
        if count == 0 {
            self.note("empty INDEX");
            return Ok(index);
        }
        let size = self.bytes_at(at as u64 + 2, 1, part, "offset size ends early")?[0];
        if !(1..=4).contains(&size) {
            return refuse(MALFORMED, part, "offset size", at + 2);
        }
        index.offset_size = usize::from(size);
        // All offsets are there before any is judged.
        let width = (count + 1) * u64::from(size);
        self.bytes_at(index.offsets as u64, width, part, "offsets end early")?;
        if index.offset(self.bytes, 0) != 1 {
            self.note(FIRST_OFFSET);
            // Document 02, Wish 5: before the pairs.
            if self.wishes.contains(&5) {
                return refuse(MALFORMED, part, FIRST_OFFSET, index.offsets);
            }
        }
        for k in 0..index.count {
            let (start, end) = (index.offset(self.bytes, k), index.offset(self.bytes, k + 1));
            if start == 0 {
                return refuse(MALFORMED, part, "first offset 0", index.offsets);
            }
            if end < start {
                return refuse(MALFORMED, part, "offsets fall", index.offsets);
            }
            index.end = index.span(self.bytes, k).end;
            if index.end > self.bytes.len() {
                return refuse(TRUNCATED, part, "item past the end", index.offsets);
            }
        }
        self.note(
            [
                "offsets of 1",
                "offsets of 2",
                "offsets of 3",
                "offsets of 4",
            ][usize::from(size) - 1],
        );
        if index.count > 255 {
            self.note("INDEX of more than 255 items");
        }
        Ok(index)
    }
}
