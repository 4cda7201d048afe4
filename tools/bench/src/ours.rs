//! The library: read and subset from the bytes, by the Rust binding.

use mogdivash::{Font, Record, ffi};

/// The new name of every subset, ours and theirs.
pub const NAME: &[u8] = b"ABCDEF+Subset";

/// `Font::read`, then `Font::subset`.
pub fn cut(bytes: &[u8], keep: &[u16], record: &Record) -> Vec<u8> {
    let font = Font::read(bytes).expect("a font that is read");
    font.subset(NAME, keep, record).expect("a subset").bytes
}

/// `Font::read`, then `Font::subset_small`.
pub fn small(bytes: &[u8], keep: &[u16], record: &Record) -> Vec<u8> {
    let font = Font::read(bytes).expect("a font that is read");
    let subset = font.subset_small(NAME, keep, record);
    subset.expect("a subset").bytes
}

/// `Font::read`, then `Font::subset_traced`, which traces the glyphs itself.
pub fn traced(bytes: &[u8], keep: &[u16]) -> Vec<u8> {
    let font = Font::read(bytes).expect("a font that is read");
    font.subset_traced(NAME, keep).expect("a subset").bytes
}

/// The same where it may be refused.
pub fn tried(bytes: &[u8], keep: &[u16]) -> Option<Vec<u8>> {
    let font = Font::read(bytes).ok()?;
    Some(font.subset_traced(NAME, keep).ok()?.bytes)
}

/// `cff_read`, then `cff_subset` or `cff_subset_cid` with rows in the order given, which the binding would put in rising order.
pub fn in_order(bytes: &[u8], keep: &[u16], rows: &[u8]) -> Vec<u8> {
    let read = Font::read(bytes).expect("a font that is read");
    let mut work = vec![0_u32; read.work_words() as usize];
    let mut out = vec![0_u8; bytes.len() + bytes.len() / 4 + 65_536];
    let mut answer = [0_u64; ffi::ANSWER];
    let (font, font_len) = (bytes.as_ptr(), bytes.len());
    let (name, name_len) = (NAME.as_ptr(), NAME.len());
    let (kept, kept_len) = (keep.as_ptr(), keep.len());
    let (row, row_len) = (rows.as_ptr(), rows.len());
    let (words, words_len) = (work.as_mut_ptr(), work.len());
    let (to, to_len) = (out.as_mut_ptr(), out.len());
    let (told, told_len) = (answer.as_mut_ptr(), answer.len());
    // SAFETY: the slices are there for the call, and those for writing do not overlap any other.
    let refusal = unsafe {
        if read.is_cid_keyed() {
            ffi::cff_subset_cid(
                font, font_len, name, name_len, kept, kept_len, row, row_len, 1, words, words_len,
                to, to_len, told, told_len,
            )
        } else {
            ffi::cff_subset(
                font, font_len, name, name_len, kept, kept_len, row, row_len, 1, 0, words,
                words_len, to, to_len, told, told_len,
            )
        }
    };
    assert_eq!(refusal, 0, "a subset");
    out.truncate(answer[1] as usize);
    out
}

/// `Font::read`, then `Font::find_names`.
pub fn find(bytes: &[u8], names: &[String]) -> Vec<Option<u16>> {
    let font = Font::read(bytes).expect("a font that is read");
    font.find_names(names)
}
