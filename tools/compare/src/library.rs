//! The library under test by its C interface (bindings/rust, `ffi`).

use crate::cut::{Cut, Lent, WORDS};
use crate::model::Font;
use crate::trace;
use mogdivash::ffi;

/// Memory to write to: its first `lent` elements are lent, those behind them must stay as they are.
pub struct Room<'a, T> {
    pub all: &'a mut [T],
    pub lent: usize,
}

impl<T> Room<'_, T> {
    fn at(&mut self) -> *mut T {
        self.all.as_mut_ptr()
    }
}

/// Font, kind and number, bytes, their length.
pub type ItemFn = fn(&[u8], (u8, u64), &mut Room<'_, u8>, &mut Room<'_, u64>) -> u8;

/// Font, what is asked by the entry of that keying, what is lent.
pub type SubsetFn = fn(&[u8], &Cut, &mut Rooms<'_>) -> u8;

/// Font, keep list, record, its answer.
pub type TraceFn = fn(&[u8], &[u16], &mut Room<'_, u8>, &mut Room<'_, u64>) -> u8;

/// The functions of the crate `capi`, or others in their place: each returns 0 or a refusal.
#[derive(Clone, Copy)]
pub struct Library {
    /// Font, counts.
    pub read: fn(&[u8], &mut Room<'_, u64>) -> u8,
    /// Font, name, glyph.
    pub find_name: fn(&[u8], &[u8], &mut Room<'_, u64>) -> u8,
    /// Font, CID, glyph.
    pub find_cid: fn(&[u8], u16, &mut Room<'_, u64>) -> u8,
    pub item: ItemFn,
    /// Font, kind and number.
    pub item_refusal: fn(&[u8], (u8, u64)) -> u8,
    pub subset: SubsetFn,
    /// How many work words that asks for.
    pub work: fn(&Font) -> u64,
    pub trace: TraceFn,
}

/// What a call of subsetting may write to.
pub struct Rooms<'a> {
    pub work: Room<'a, u32>,
    pub out: Room<'a, u8>,
    /// Way and length.
    pub answer: Room<'a, u64>,
}

/// What a call of subsetting did: its answer (way and bytes), and how many of the work words, from the first, are zeros
/// where the others are as found.
pub struct Subsetted {
    pub answer: Answer<(u64, Vec<u8>)>,
    pub zeros: usize,
}

/// Elements behind what is lent, which must stay as they are.
const BEYOND: usize = 8;

/// What `find_name` and `find_cid` give for a glyph that is absent.
pub const ABSENT: u64 = ffi::ABSENT;

/// The refusal where fewer words or bytes are lent than the answer has.
pub const NO_ROOM: u8 = 11;

/// What reading answers.
#[derive(Clone, Copy, Debug, PartialEq, Eq)]
pub struct Counts {
    pub glyphs: u64,
    pub globals: u64,
    pub strings: u64,
    pub cid_keyed: u64,
    pub work: u64,
}

/// An answer, or the refusal's number.
pub type Answer<T> = Result<T, u8>;

/// Fills lent memory before a call, so that a write shows.
const WORD: u64 = 0xa5a5_5a5a_a5a5_5a5a;
const BYTE: u8 = 0xa5;

/// A call that wrote where it must not.
pub type Checked<T> = Result<Answer<T>, String>;

/// The words of an answer of reading, and of another.
pub const COUNTS: usize = ffi::COUNTS;
pub const ONE: usize = 1;

impl Library {
    /// Lends `lent` words of `COUNTS`.
    pub fn read(&self, font: &[u8], lent: usize) -> Checked<Counts> {
        let mut out = [WORD; COUNTS];
        let all = &mut out;
        let refusal = (self.read)(font, &mut Room { all, lent });
        if refusal != 0 {
            return untouched(refusal, &out);
        }
        let [glyphs, globals, strings, cid_keyed, work] = out;
        Ok(Ok(Counts {
            glyphs,
            globals,
            strings,
            cid_keyed,
            work,
        }))
    }

    /// Lends `lent` words of one.
    pub fn find_name(&self, font: &[u8], name: &[u8], lent: usize) -> Checked<u64> {
        found(lent, |glyph| (self.find_name)(font, name, glyph))
    }

    /// Lends `lent` words of one.
    pub fn find_cid(&self, font: &[u8], cid: u16, lent: usize) -> Checked<u64> {
        found(lent, |glyph| (self.find_cid)(font, cid, glyph))
    }

    /// The item, with `room` bytes lent, and some more that must stay as they are, and `lent` words of one.
    pub fn item(&self, font: &[u8], item: (u8, u64), room: usize, lent: usize) -> Checked<Vec<u8>> {
        let mut out = vec![BYTE; room + BEYOND];
        let mut length = [WORD; ONE];
        let mut bytes = Room {
            all: &mut out,
            lent: room,
        };
        let all = &mut length;
        let refusal = (self.item)(font, item, &mut bytes, &mut Room { all, lent });
        if refusal != 0 {
            if out.iter().any(|&b| b != BYTE) {
                return Err(format!("refusal {refusal} wrote bytes"));
            }
            return untouched(refusal, &length);
        }
        let [given] = length;
        if given > room as u64 {
            return Err(format!("an item of {given} bytes, with {room} lent"));
        }
        if out[given as usize..].iter().any(|&b| b != BYTE) {
            return Err("bytes past the item were written".to_string());
        }
        out.truncate(given as usize);
        Ok(Ok(out))
    }

    /// A subset. The message says where the call wrote that it must not.
    pub fn subset(&self, font: &[u8], cut: &Cut, lent: Lent) -> Result<Subsetted, String> {
        let mut work: Vec<u32> = (0..lent.work + BEYOND).map(found_word).collect();
        let mut out = vec![BYTE; lent.room + BEYOND];
        let mut answer = [WORD; WORDS + 1];
        let mut rooms = Rooms {
            work: Room {
                all: &mut work,
                lent: lent.work,
            },
            out: Room {
                all: &mut out,
                lent: lent.room,
            },
            answer: Room {
                all: &mut answer,
                lent: lent.words,
            },
        };
        let refusal = (self.subset)(font, cut, &mut rooms);
        let zeros = work.iter().take_while(|&&w| w == 0).count();
        if let Some(k) = (zeros..work.len()).find(|&k| work[k] != found_word(k)) {
            return Err(format!(
                "work word {k} is {:08x}, {zeros} before it 0",
                work[k]
            ));
        }
        if zeros > lent.work {
            return Err("work words past those lent were written".to_string());
        }
        let answer = if refusal == 0 {
            let [way, length, beyond] = answer;
            if beyond != WORD {
                return Err("a third word of the answer was written".to_string());
            }
            if length > lent.room as u64 {
                return Err(format!(
                    "a subset of {length} bytes, with {} lent",
                    lent.room
                ));
            }
            if out[length as usize..].iter().any(|&b| b != BYTE) {
                return Err("bytes past the subset were written".to_string());
            }
            out.truncate(length as usize);
            Ok((way, out))
        } else {
            if out.iter().any(|&b| b != BYTE) {
                return Err(format!("refusal {refusal} wrote bytes"));
            }
            untouched(refusal, &answer)?
        };
        Ok(Subsetted { answer, zeros })
    }

    /// A record and its flag. The message says where the call wrote that it must not.
    pub fn trace(&self, font: &[u8], keep: &[u16], lent: trace::Lent) -> Checked<(u64, Vec<u8>)> {
        let mut out: Vec<u8> = (0..lent.room + BEYOND).map(found_byte).collect();
        let mut answer = [WORD; trace::WORDS + 1];
        let mut record = Room {
            all: &mut out,
            lent: lent.room,
        };
        let all = &mut answer;
        let lent_words = lent.words;
        let refusal = (self.trace)(
            font,
            keep,
            &mut record,
            &mut Room {
                all,
                lent: lent_words,
            },
        );
        let from = if refusal == 0 { answer[1] } else { 0 };
        if from > lent.room as u64 {
            return Err(format!("a record of {from} bytes, with {} lent", lent.room));
        }
        let from = from as usize;
        if let Some(k) = (from..out.len()).find(|&k| out[k] != found_byte(k)) {
            return Err(format!(
                "number {refusal}, a record of {from} bytes: byte {k} was written"
            ));
        }
        if refusal != 0 {
            return untouched(refusal, &answer);
        }
        if answer[2] != WORD {
            return Err("a third word of the answer was written".to_string());
        }
        out.truncate(from);
        Ok(Ok((answer[0], out)))
    }
}

/// What a byte of a record's slice holds before a call: another than its neighbours'.
fn found_byte(k: usize) -> u8 {
    BYTE ^ (k % 251) as u8
}

/// What a work word holds before a call: not 0, and another in each place.
fn found_word(k: usize) -> u32 {
    0xa5a5_0001_u32.wrapping_add(k as u32).max(1)
}

/// The one word of an answer, of which `lent` are lent.
fn found(lent: usize, call: impl FnOnce(&mut Room<'_, u64>) -> u8) -> Checked<u64> {
    let mut word = [WORD; ONE];
    let all = &mut word;
    let refusal = call(&mut Room { all, lent });
    if refusal != 0 {
        return untouched(refusal, &word);
    }
    Ok(Ok(word[0]))
}

fn untouched<T>(refusal: u8, out: &[u64]) -> Checked<T> {
    if out.iter().any(|&w| w != WORD) {
        return Err(format!("refusal {refusal} wrote an answer"));
    }
    Ok(Err(refusal))
}

/// The library that is linked.
pub fn library() -> Library {
    // SAFETY of the calls: each slice is there for the call, and at least as long as it is said to be.
    Library {
        read: |font, counts| unsafe {
            ffi::cff_read(font.as_ptr(), font.len(), counts.at(), counts.lent)
        },
        find_name: |font, name, glyph| unsafe {
            let (at, length) = (font.as_ptr(), font.len());
            ffi::cff_find_name(
                at,
                length,
                name.as_ptr(),
                name.len(),
                glyph.at(),
                glyph.lent,
            )
        },
        find_cid: |font, cid, glyph| unsafe {
            ffi::cff_find_cid(font.as_ptr(), font.len(), cid, glyph.at(), glyph.lent)
        },
        item: |font, (kind, number), out, size| unsafe {
            let (at, length) = (font.as_ptr(), font.len());
            let (out, room) = (out.at(), out.lent);
            ffi::cff_item(at, length, kind, number, out, room, size.at(), size.lent)
        },
        item_refusal: |font, (kind, number)| unsafe {
            ffi::cff_item_refusal(font.as_ptr(), font.len(), kind, number)
        },
        subset,
        work: Font::work,
        trace: |font, keep, record, answer| unsafe {
            ffi::cff_trace(
                font.as_ptr(),
                font.len(),
                keep.as_ptr(),
                keep.len(),
                record.at(),
                record.lent,
                answer.at(),
                answer.lent,
            )
        },
    }
}

/// The same with its small calls in the place of the others: document 02, Wish 10.
pub fn small() -> Library {
    Library {
        subset: |font, cut, rooms| subset_by(true, font, cut, rooms),
        work: Font::small_work,
        ..library()
    }
}

fn subset(font: &[u8], cut: &Cut, rooms: &mut Rooms<'_>) -> u8 {
    subset_by(false, font, cut, rooms)
}

/// The entry of the keying, that with few work words or the other.
fn subset_by(small: bool, font: &[u8], cut: &Cut, rooms: &mut Rooms<'_>) -> u8 {
    let Rooms { work, out, answer } = rooms;
    let (at, length) = (font.as_ptr(), font.len());
    let (name, name_length) = (cut.name.as_ptr(), cut.name.len());
    let (keep, kept) = (cut.keep.as_ptr(), cut.keep.len());
    let (record, record_length) = (cut.record.as_ptr(), cut.record.len());
    let (flag, encoding) = (cut.flag, cut.encoding);
    let (words, lent, bytes, room) = (work.at(), work.lent, out.at(), out.lent);
    let (told, told_length) = (answer.at(), answer.lent);
    // SAFETY: as above.
    unsafe {
        if cut.cid_keyed {
            let call = match small {
                true => ffi::cff_subset_cid_small,
                false => ffi::cff_subset_cid,
            };
            call(
                at,
                length,
                name,
                name_length,
                keep,
                kept,
                record,
                record_length,
                flag,
                words,
                lent,
                bytes,
                room,
                told,
                told_length,
            )
        } else {
            let call = match small {
                true => ffi::cff_subset_small,
                false => ffi::cff_subset,
            };
            call(
                at,
                length,
                name,
                name_length,
                keep,
                kept,
                record,
                record_length,
                flag,
                encoding,
                words,
                lent,
                bytes,
                room,
                told,
                told_length,
            )
        }
    }
}
