//! The subsets of a font.

use crate::ffi;
use crate::font::{Font, room, zeros};
use crate::record::Record;
use crate::refusal::Refusal;

/// The longest subset: document 01, refusal 10.
const LONGEST: usize = 67_108_864;

/// How the subroutines of a subset are pruned.
#[derive(Clone, Copy, Debug, PartialEq, Eq)]
pub enum Way {
    /// Only those reached are there, renumbered.
    Renumbered,
    /// Each that is not reached is a lone return.
    Stubbed,
    /// All are there.
    Copied,
}

/// A subset of a font.
#[derive(Clone, Debug, PartialEq, Eq)]
pub struct Subset {
    /// How its subroutines are pruned.
    pub way: Way,
    /// The bytes of a CFF font.
    pub bytes: Vec<u8>,
}

/// Which entry cuts: whether with the font's encoding, and whether with few work words.
#[derive(Clone, Copy)]
struct Entry {
    encoding: bool,
    small: bool,
}

const USUAL: Entry = Entry {
    encoding: false,
    small: false,
};
const SMALL: Entry = Entry {
    encoding: false,
    small: true,
};

impl Entry {
    /// The same with the font's encoding.
    const fn encoded(self) -> Entry {
        Entry {
            encoding: true,
            ..self
        }
    }
}

impl Font<'_> {
    /// The subset of glyph 0 and the glyphs of the keep list, traced: [`Font::trace`] and then [`Font::subset`].
    pub fn subset_traced(&self, name: &[u8], keep: &[u16]) -> Result<Subset, Refusal> {
        self.subset(name, keep, &self.trace(keep)?)
    }

    /// The subset of glyph 0 and the glyphs of the keep list under a new name. The record says which subroutines they
    /// reach. Work words and output are allocated for the call; W above 1,048,576 is refused by [`Refusal::Work`], and
    /// [`Font::subset_into`] takes as many as the caller lends.
    pub fn subset(&self, name: &[u8], keep: &[u16], record: &Record) -> Result<Subset, Refusal> {
        self.subset_by(USUAL, name, keep, record)
    }

    /// The same with the font's own encoding (document 02, Wish 4): each code whose glyph is kept has that glyph in the subset, and
    /// no other code has any. All 256 codes are one too many ([`Refusal::Pairs`]). A CID-keyed font has no codes: its subset is that
    /// of [`Font::subset`].
    pub fn subset_with_encoding(
        &self,
        name: &[u8],
        keep: &[u16],
        record: &Record,
    ) -> Result<Subset, Refusal> {
        self.subset_by(USUAL.encoded(), name, keep, record)
    }

    /// The subset of [`Font::subset`] with few work words (document 02, Wish 10): [`Font::small_work_words`] of them are allocated.
    pub fn subset_small(
        &self,
        name: &[u8],
        keep: &[u16],
        record: &Record,
    ) -> Result<Subset, Refusal> {
        self.subset_by(SMALL, name, keep, record)
    }

    /// That of [`Font::subset_with_encoding`] with few work words.
    pub fn subset_small_with_encoding(
        &self,
        name: &[u8],
        keep: &[u16],
        record: &Record,
    ) -> Result<Subset, Refusal> {
        self.subset_by(SMALL.encoded(), name, keep, record)
    }

    /// [`Font::subset`] in lent memory: the way, and the length of the subset, which stands in the front of the output. A refusal
    /// leaves the output as it was; the first W work words end as zeros from [`Refusal::Work`] passed on.
    pub fn subset_into(
        &self,
        name: &[u8],
        keep: &[u16],
        record: &Record,
        work: &mut [u32],
        out: &mut [u8],
    ) -> Result<(Way, usize), Refusal> {
        // SAFETY: `out` is lent for the call.
        unsafe { self.cut(USUAL, name, keep, record, work, out.as_mut_ptr(), out.len()) }
    }

    /// [`Font::subset_small`] in lent memory, as [`Font::subset_into`] with [`Font::small_work_words`] for W.
    pub fn subset_small_into(
        &self,
        name: &[u8],
        keep: &[u16],
        record: &Record,
        work: &mut [u32],
        out: &mut [u8],
    ) -> Result<(Way, usize), Refusal> {
        // SAFETY: `out` is lent for the call.
        unsafe { self.cut(SMALL, name, keep, record, work, out.as_mut_ptr(), out.len()) }
    }

    /// A subset by an entry, in memory that is allocated.
    fn subset_by(
        &self,
        entry: Entry,
        name: &[u8],
        keep: &[u16],
        record: &Record,
    ) -> Result<Subset, Refusal> {
        let words = if entry.small {
            self.small_work_words()
        } else {
            self.work_words()
        };
        // Without work words the call is refused in document 01's order, by 9 at the latest.
        let mut work = zeros(words).unwrap_or_default();
        // A subset of all glyphs may be a little longer than its font; where there is no room, it is asked for again with more.
        let len = self.bytes.len();
        let mut wanted = (len + len / 4 + name.len() + 65_536).min(LONGEST);
        loop {
            let mut out = room(wanted).ok_or(Refusal::Output)?;
            // SAFETY: `out` has room for as many bytes, of which the call only writes the first, as many as it answers.
            let answer = unsafe {
                let (at, len) = (out.as_mut_ptr(), out.capacity());
                self.cut(entry, name, keep, record, &mut work, at, len)
            };
            match answer {
                Err(Refusal::Output) if wanted < LONGEST => wanted = (2 * wanted).min(LONGEST),
                Err(refusal) => return Err(refusal),
                Ok((way, length)) => {
                    // SAFETY: the subset stands in the first bytes.
                    unsafe { out.set_len(length) };
                    out.shrink_to_fit();
                    return Ok(Subset { way, bytes: out });
                }
            }
        }
    }

    /// The entry of the font's keying.
    ///
    /// # Safety
    ///
    /// From `out` on as many bytes can be written as `out_len` says, and nothing else that is lent lies there.
    #[allow(clippy::too_many_arguments)]
    unsafe fn cut(
        &self,
        entry: Entry,
        name: &[u8],
        keep: &[u16],
        record: &Record,
        work: &mut [u32],
        out: *mut u8,
        out_len: usize,
    ) -> Result<(Way, usize), Refusal> {
        let (font, font_len) = (self.bytes.as_ptr(), self.bytes.len());
        let (name, name_len) = (name.as_ptr(), name.len());
        let (kept, kept_len) = (keep.as_ptr(), keep.len());
        let (rows, rows_len) = (record.bytes().as_ptr(), record.bytes().len());
        let flag = u8::from(record.is_traced());
        let (words, words_len) = (work.as_mut_ptr(), work.len());
        let mut answer = [0; ffi::ANSWER];
        let (told, told_len) = (answer.as_mut_ptr(), answer.len());
        // SAFETY: the slices are lent for the call, and those for writing do not overlap any other.
        let returned = unsafe {
            if self.is_cid_keyed() {
                let cut = if entry.small {
                    ffi::cff_subset_cid_small
                } else {
                    ffi::cff_subset_cid
                };
                cut(
                    font, font_len, name, name_len, kept, kept_len, rows, rows_len, flag, words,
                    words_len, out, out_len, told, told_len,
                )
            } else {
                let cut = if entry.small {
                    ffi::cff_subset_small
                } else {
                    ffi::cff_subset
                };
                let asked = u8::from(entry.encoding);
                cut(
                    font, font_len, name, name_len, kept, kept_len, rows, rows_len, flag, asked,
                    words, words_len, out, out_len, told, told_len,
                )
            }
        };
        Refusal::check(returned)?;
        let way = match answer[0] {
            0 => Way::Renumbered,
            1 => Way::Stubbed,
            _ => Way::Copied,
        };
        Ok((way, answer[1] as usize))
    }
}
