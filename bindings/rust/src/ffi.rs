//! The C functions, as include/mogdivash.h declares them. A slice is a pointer and the number of its elements.

/// The answer of finding for a glyph that is absent.
pub const ABSENT: u64 = 65536;

/// The words of the answer of reading: glyphs, global subroutines, strings, 1 for a CID-keyed font, W.
pub const COUNTS: usize = 5;

/// The words of the answer of `cff_glyph`: 1 for a CID-keyed font, the CID or string id, the FD, the length of the name.
pub const GLYPH_WORDS: usize = 4;

/// The words of the answer of `cff_item_place`: the place and the length.
pub const PLACE: usize = 2;

/// The words of the answer of subsetting: the way and the length.
pub const ANSWER: usize = 2;

unsafe extern "C" {
    /// Reads every font of the set and answers for the first.
    pub fn cff_read(font: *const u8, font_len: usize, answer: *mut u64, answer_len: usize) -> u8;

    /// Finds the first glyph of a name: its number, or `ABSENT`.
    pub fn cff_find_name(
        font: *const u8,
        font_len: usize,
        name: *const u8,
        name_len: usize,
        answer: *mut u64,
        answer_len: usize,
    ) -> u8;

    /// Finds the first glyph of a CID: its number, or `ABSENT`.
    pub fn cff_find_cid(
        font: *const u8,
        font_len: usize,
        cid: u16,
        answer: *mut u64,
        answer_len: usize,
    ) -> u8;

    /// What is told of a glyph: its name to `name`, and `GLYPH_WORDS` words to `answer`.
    pub fn cff_glyph(
        font: *const u8,
        font_len: usize,
        glyph: u64,
        name: *mut u8,
        name_len: usize,
        answer: *mut u64,
        answer_len: usize,
    ) -> u8;

    /// Finds the first glyph of each name: its number, or `ABSENT`. The names stand one behind the other, with their lengths beside them.
    pub fn cff_find_names(
        font: *const u8,
        font_len: usize,
        names: *const u8,
        names_len: usize,
        lengths: *const u32,
        lengths_len: usize,
        glyphs: *mut u32,
        glyphs_len: usize,
    ) -> u8;

    /// Finds the first glyph of each CID: its number, or `ABSENT`.
    pub fn cff_find_cids(
        font: *const u8,
        font_len: usize,
        cids: *const u16,
        cids_len: usize,
        glyphs: *mut u32,
        glyphs_len: usize,
    ) -> u8;

    /// Copies an item to `out` and its length to `size`.
    pub fn cff_item(
        font: *const u8,
        font_len: usize,
        kind: u8,
        number: u64,
        out: *mut u8,
        out_len: usize,
        size: *mut u64,
        size_len: usize,
    ) -> u8;

    /// Where that item stands in the font's bytes: its place and its length to `answer`.
    pub fn cff_item_place(
        font: *const u8,
        font_len: usize,
        kind: u8,
        number: u64,
        answer: *mut u64,
        answer_len: usize,
    ) -> u8;

    /// The refusal of that lookup, or 0.
    pub fn cff_item_refusal(font: *const u8, font_len: usize, kind: u8, number: u64) -> u8;

    /// The reach record of the kept glyphs: font, kept numbers, record, answer (the flag and the length).
    pub fn cff_trace(
        font: *const u8,
        font_len: usize,
        keep: *const u16,
        keep_len: usize,
        record: *mut u8,
        record_len: usize,
        answer: *mut u64,
        answer_len: usize,
    ) -> u8;

    /// Whether a record, with the flag 1, is accepted: font, kept numbers, record.
    pub fn cff_check_record(
        font: *const u8,
        font_len: usize,
        keep: *const u16,
        keep_len: usize,
        record: *const u8,
        record_len: usize,
    ) -> u8;

    /// The smallest kept glyph but 0 without which the traced subset is renumbered, or [`ABSENT`]: font, new name, kept numbers, work
    /// words, room for the record, answer.
    pub fn cff_blocking_glyph(
        font: *const u8,
        font_len: usize,
        name: *const u8,
        name_len: usize,
        keep: *const u16,
        keep_len: usize,
        work: *mut u32,
        work_len: usize,
        record: *mut u8,
        record_len: usize,
        answer: *mut u64,
        answer_len: usize,
    ) -> u8;

    /// The next short charstring behind `code`, one of them or nothing, to `out`, and its length, 0 for none left, to `size`.
    pub fn cff_next_charstring(
        code: *const u8,
        code_len: usize,
        out: *mut u8,
        out_len: usize,
        size: *mut u64,
        size_len: usize,
    ) -> u8;

    /// The subset of a name-keyed font: font, new name, kept numbers, record, flag, whether with the font's encoding, work words,
    /// output, answer.
    pub fn cff_subset(
        font: *const u8,
        font_len: usize,
        name: *const u8,
        name_len: usize,
        keep: *const u16,
        keep_len: usize,
        record: *const u8,
        record_len: usize,
        traced: u8,
        encoding: u8,
        work: *mut u32,
        work_len: usize,
        out: *mut u8,
        out_len: usize,
        answer: *mut u64,
        answer_len: usize,
    ) -> u8;

    /// The subset of a CID-keyed font.
    pub fn cff_subset_cid(
        font: *const u8,
        font_len: usize,
        name: *const u8,
        name_len: usize,
        keep: *const u16,
        keep_len: usize,
        record: *const u8,
        record_len: usize,
        traced: u8,
        work: *mut u32,
        work_len: usize,
        out: *mut u8,
        out_len: usize,
        answer: *mut u64,
        answer_len: usize,
    ) -> u8;

    /// The subset of a name-keyed font with few work words: as `cff_subset`, with (glyphs + 31) / 32 + W - 2 x glyphs for W.
    pub fn cff_subset_small(
        font: *const u8,
        font_len: usize,
        name: *const u8,
        name_len: usize,
        keep: *const u16,
        keep_len: usize,
        record: *const u8,
        record_len: usize,
        traced: u8,
        encoding: u8,
        work: *mut u32,
        work_len: usize,
        out: *mut u8,
        out_len: usize,
        answer: *mut u64,
        answer_len: usize,
    ) -> u8;

    /// The subset of a CID-keyed font with few work words.
    pub fn cff_subset_cid_small(
        font: *const u8,
        font_len: usize,
        name: *const u8,
        name_len: usize,
        keep: *const u16,
        keep_len: usize,
        record: *const u8,
        record_len: usize,
        traced: u8,
        work: *mut u32,
        work_len: usize,
        out: *mut u8,
        out_len: usize,
        answer: *mut u64,
        answer_len: usize,
    ) -> u8;
}
