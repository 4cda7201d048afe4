//! What is asked of single glyphs, and of many names or CIDs with one reading of the font.

use crate::ffi;
use crate::font::{Font, room};
use crate::refusal::Refusal;

/// Room for a name at first: names of real fonts are shorter.
const NAME: usize = 256;

impl Font<'_> {
    /// The name of a glyph: the text of its string id, standard or the font's own. None in a CID-keyed font.
    pub fn glyph_name(&self, glyph: u16) -> Result<Option<Vec<u8>>, Refusal> {
        let (name, _) = self.glyph(glyph)?;
        Ok((!self.is_cid_keyed()).then_some(name))
    }

    /// The CID of a glyph. None in a name-keyed font.
    pub fn glyph_cid(&self, glyph: u16) -> Result<Option<u16>, Refusal> {
        let (_, words) = self.glyph(glyph)?;
        let cid = u16::try_from(words[1]).ok();
        Ok(cid.filter(|_| self.is_cid_keyed()))
    }

    /// The font dictionary of a glyph: its FD in a CID-keyed font, 0 in a name-keyed one.
    pub fn glyph_fd(&self, glyph: u16) -> Result<u8, Refusal> {
        let (_, words) = self.glyph(glyph)?;
        u8::try_from(words[2]).map_err(|_| Refusal::Malformed)
    }

    /// The name, and the words of `cff_glyph`.
    fn glyph(&self, glyph: u16) -> Result<(Vec<u8>, [u64; ffi::GLYPH_WORDS]), Refusal> {
        match self.glyph_in(glyph, NAME) {
            // A longer name is a part of the font, so that there is room for it in as many bytes.
            Err(Refusal::Output) => self.glyph_in(glyph, self.bytes.len()),
            told => told,
        }
    }

    /// The same with room for a name of so many bytes.
    fn glyph_in(
        &self,
        glyph: u16,
        len: usize,
    ) -> Result<(Vec<u8>, [u64; ffi::GLYPH_WORDS]), Refusal> {
        let mut name = room(len).ok_or(Refusal::Output)?;
        let mut words = [0; ffi::GLYPH_WORDS];
        // SAFETY: the slices are lent for the call, which only writes to `name`: its first bytes, as many as it answers.
        let returned = unsafe {
            ffi::cff_glyph(
                self.bytes.as_ptr(),
                self.bytes.len(),
                glyph.into(),
                name.as_mut_ptr(),
                name.capacity(),
                words.as_mut_ptr(),
                words.len(),
            )
        };
        Refusal::check(returned)?;
        // SAFETY: the name stands in the first bytes.
        unsafe { name.set_len(words[3] as usize) };
        name.shrink_to_fit();
        Ok((name, words))
    }

    /// The first glyph of each name, with one reading of the font: what [`Font::find_name`] gives for each.
    pub fn find_names<N: AsRef<[u8]>>(&self, names: &[N]) -> Vec<Option<u16>> {
        let texts = || names.iter().map(AsRef::as_ref);
        let lengths: Result<Vec<u32>, _> = texts().map(|name| name.len().try_into()).collect();
        let Ok(lengths) = lengths else {
            // No font has a name of 4 GiB, and the call has no number for its length.
            return texts().map(|name| self.find_name(name)).collect();
        };
        let together: Vec<u8> = texts().flatten().copied().collect();
        let mut glyphs = vec![ffi::ABSENT as u32; names.len()];
        // SAFETY: the slices are lent for the call, and `glyphs` does not overlap any other.
        unsafe {
            ffi::cff_find_names(
                self.bytes.as_ptr(),
                self.bytes.len(),
                together.as_ptr(),
                together.len(),
                lengths.as_ptr(),
                lengths.len(),
                glyphs.as_mut_ptr(),
                glyphs.len(),
            )
        };
        found(&glyphs)
    }

    /// The first glyph of each CID, with one reading of the font and one pass over its glyphs: what [`Font::find_cid`] gives for each.
    pub fn find_cids(&self, cids: &[u16]) -> Vec<Option<u16>> {
        let mut glyphs = vec![ffi::ABSENT as u32; cids.len()];
        // SAFETY: the slices are lent for the call, and `glyphs` does not overlap any other.
        unsafe {
            ffi::cff_find_cids(
                self.bytes.as_ptr(),
                self.bytes.len(),
                cids.as_ptr(),
                cids.len(),
                glyphs.as_mut_ptr(),
                glyphs.len(),
            )
        };
        found(&glyphs)
    }
}

/// The glyphs that were found. The font was read before, so that finding is not refused; a refusal would leave all absent.
fn found(glyphs: &[u32]) -> Vec<Option<u16>> {
    glyphs
        .iter()
        .map(|glyph| (*glyph).try_into().ok())
        .collect()
}
