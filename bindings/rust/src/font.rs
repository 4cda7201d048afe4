//! A font that was read.

use crate::ffi;
use crate::record::Record;
use crate::refusal::Refusal;

/// The most work words that are allocated: 4 MiB. A font with as many glyphs, global subroutines and local ones of 256 font
/// dictionaries as can be numbered takes 657,406 words; W is larger only where more font dictionaries share their subroutines, by
/// which a font of some kilobytes can ask for half a gigabyte.
const MOST_WORDS: u64 = 1 << 20;

/// The stack of the thread that tries glyphs: the library takes up to 3 MiB for it, and Rust's own threads have 2 MiB.
const TRIAL_STACK: usize = 4 << 20;

/// An item of an INDEX of the font.
#[derive(Clone, Copy, Debug, PartialEq, Eq)]
pub enum Item {
    /// The charstring of a glyph.
    Charstring(u64),
    /// A global subroutine.
    Global(u64),
    /// A string of the String INDEX, by its place there and not by its string id.
    String(u64),
}

/// The first font of a CFF font set, all of which was read.
#[derive(Clone, Copy, Debug)]
pub struct Font<'a> {
    pub(crate) bytes: &'a [u8],
    counts: [u64; ffi::COUNTS],
}

impl<'a> Font<'a> {
    /// Reads every font of the set.
    pub fn read(bytes: &'a [u8]) -> Result<Font<'a>, Refusal> {
        let mut counts = [0; ffi::COUNTS];
        // SAFETY: the slices are lent for the call.
        let returned = unsafe {
            ffi::cff_read(
                bytes.as_ptr(),
                bytes.len(),
                counts.as_mut_ptr(),
                counts.len(),
            )
        };
        Refusal::check(returned)?;
        Ok(Font { bytes, counts })
    }

    /// How many glyphs the font has.
    pub fn glyphs(&self) -> u64 {
        self.counts[0]
    }

    /// How many global subroutines.
    pub fn globals(&self) -> u64 {
        self.counts[1]
    }

    /// How many strings of its own.
    pub fn strings(&self) -> u64 {
        self.counts[2]
    }

    /// Whether its glyphs have CIDs in place of names.
    pub fn is_cid_keyed(&self) -> bool {
        self.counts[3] != 0
    }

    /// W: how many work words a subset takes.
    pub fn work_words(&self) -> u64 {
        self.counts[4]
    }

    /// How many [`Font::subset_small`] takes (document 02, Wish 10): a bit for each glyph in the place of two words, rounded up to words.
    pub fn small_work_words(&self) -> u64 {
        let [glyphs, _, _, _, work] = self.counts;
        glyphs.div_ceil(32) + work - 2 * glyphs
    }

    /// The first glyph of that name; none in a CID-keyed font.
    pub fn find_name(&self, name: &[u8]) -> Option<u16> {
        let mut glyph = [ffi::ABSENT];
        // SAFETY: the slices are lent for the call.
        let returned = unsafe {
            ffi::cff_find_name(
                self.bytes.as_ptr(),
                self.bytes.len(),
                name.as_ptr(),
                name.len(),
                glyph.as_mut_ptr(),
                glyph.len(),
            )
        };
        found(returned, glyph[0])
    }

    /// The first glyph of that CID; none in a name-keyed font.
    pub fn find_cid(&self, cid: u16) -> Option<u16> {
        let mut glyph = [ffi::ABSENT];
        // SAFETY: the slices are lent for the call.
        let returned = unsafe {
            ffi::cff_find_cid(
                self.bytes.as_ptr(),
                self.bytes.len(),
                cid,
                glyph.as_mut_ptr(),
                glyph.len(),
            )
        };
        found(returned, glyph[0])
    }

    /// The bytes of an item: the part of the font's own bytes, which it borrows.
    pub fn item(&self, item: Item) -> Result<&'a [u8], Refusal> {
        let (kind, number) = match item {
            Item::Charstring(number) => (0, number),
            Item::Global(number) => (1, number),
            Item::String(number) => (2, number),
        };
        let mut place = [0; ffi::PLACE];
        // SAFETY: the slices are lent for the call.
        let returned = unsafe {
            ffi::cff_item_place(
                self.bytes.as_ptr(),
                self.bytes.len(),
                kind,
                number,
                place.as_mut_ptr(),
                place.len(),
            )
        };
        Refusal::check(returned)?;
        let [start, len] = place.map(|word| word as usize);
        Ok(&self.bytes[start..start + len])
    }

    /// The reach record of glyph 0 and the glyphs of the keep list. It is [`Record::untraced`] where one of them is not plain
    /// (document 01, 'Plain glyphs').
    pub fn trace(&self, keep: &[u16]) -> Result<Record, Refusal> {
        // Sheets have some hundred rows; where there is no room for a record, it is asked for again with more.
        let mut wanted: usize = 1 << 16;
        loop {
            let mut rows = room(wanted).ok_or(Refusal::Output)?;
            let mut answer = [0; ffi::ANSWER];
            // SAFETY: the slices are lent for the call, which only writes to `rows`: its first bytes, as many as it answers.
            let returned = unsafe {
                ffi::cff_trace(
                    self.bytes.as_ptr(),
                    self.bytes.len(),
                    keep.as_ptr(),
                    keep.len(),
                    rows.as_mut_ptr(),
                    rows.capacity(),
                    answer.as_mut_ptr(),
                    answer.len(),
                )
            };
            match Refusal::check(returned) {
                Err(Refusal::Output) => wanted = wanted.checked_mul(4).ok_or(Refusal::Output)?,
                Err(refusal) => return Err(refusal),
                Ok(()) => {
                    // SAFETY: the record stands in the first bytes.
                    unsafe { rows.set_len(answer[1] as usize) };
                    rows.shrink_to_fit();
                    return Ok(Record::answered(answer[0] != 0, rows));
                }
            }
        }
    }

    /// Whether a record of another tracer is accepted for glyph 0 and the glyphs of the keep list: each of them is plain, the record
    /// lists all that they meet, and each subroutine that it lists exists, those of font dictionaries not in use aside. Its rows are
    /// taken as traced. [`Refusal::NotAccepted`] where it is not; with one that is, [`Font::subset`] keeps every kept glyph.
    pub fn check_record(&self, keep: &[u16], record: &Record) -> Result<(), Refusal> {
        let rows = record.bytes();
        // SAFETY: the slices are lent for the call, which writes to none.
        Refusal::check(unsafe {
            ffi::cff_check_record(
                self.bytes.as_ptr(),
                self.bytes.len(),
                keep.as_ptr(),
                keep.len(),
                rows.as_ptr(),
                rows.len(),
            )
        })
    }

    /// Which glyph costs the small file (document 02, Wish 12): where the traced subset of the keep list is [`Way::Stubbed`], the smallest
    /// kept glyph but 0 such that the list without it, traced anew, is [`Way::Renumbered`]; none where the way is another, or where no
    /// single glyph does this. Each kept glyph that is tried costs a trace and the measure of a subset. Room for the record is allocated
    /// for the call, and the work is done by a thread with a stack of its own; [`Refusal::Output`] also where none is to be had.
    pub fn blocking_glyph(&self, name: &[u8], keep: &[u16]) -> Result<Option<u16>, Refusal> {
        std::thread::scope(|scope| {
            let thread = std::thread::Builder::new().stack_size(TRIAL_STACK);
            let spawned = thread.spawn_scoped(scope, || self.blocking_here(name, keep));
            let joined = spawned.map_err(|_| Refusal::Output)?.join();
            joined.unwrap_or(Err(Refusal::Output))
        })
    }

    /// The same on this thread.
    fn blocking_here(&self, name: &[u8], keep: &[u16]) -> Result<Option<u16>, Refusal> {
        let mut work = zeros(self.work_words()).unwrap_or_default();
        let mut wanted: usize = 1 << 16;
        loop {
            let mut rows = room(wanted).ok_or(Refusal::Output)?;
            rows.resize(wanted, 0);
            let mut answer = [0; 1];
            // SAFETY: the slices are lent for the call, and those for writing do not overlap any other.
            let returned = unsafe {
                ffi::cff_blocking_glyph(
                    self.bytes.as_ptr(),
                    self.bytes.len(),
                    name.as_ptr(),
                    name.len(),
                    keep.as_ptr(),
                    keep.len(),
                    work.as_mut_ptr(),
                    work.len(),
                    rows.as_mut_ptr(),
                    rows.len(),
                    answer.as_mut_ptr(),
                    answer.len(),
                )
            };
            match Refusal::check(returned) {
                Err(Refusal::Output) => wanted = wanted.checked_mul(4).ok_or(Refusal::Output)?,
                Err(refusal) => return Err(refusal),
                Ok(()) => return Ok(u16::try_from(answer[0]).ok()),
            }
        }
    }
}

/// An empty list with room for so many bytes, if that is to be had.
pub(crate) fn room(len: usize) -> Option<Vec<u8>> {
    let mut bytes = Vec::new();
    bytes.try_reserve_exact(len).ok()?;
    Some(bytes)
}

/// So many work words, unless they are more than are allocated or to be had.
pub(crate) fn zeros(len: u64) -> Option<Vec<u32>> {
    if len > MOST_WORDS {
        return None;
    }
    let len = usize::try_from(len).ok()?;
    let mut words = Vec::new();
    words.try_reserve_exact(len).ok()?;
    words.resize(len, 0);
    Some(words)
}

/// The glyph that finding answered. The font was read before, so that finding is not refused.
fn found(returned: u8, glyph: u64) -> Option<u16> {
    if returned != 0 {
        return None;
    }
    u16::try_from(glyph).ok()
}
