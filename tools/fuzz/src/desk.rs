//! The C functions called with lent memory that is guarded, and what each promises of it: include/mogdivash.h.

use crate::lent::{Lent, Side};
use made_fonts::generator::Generator;
use mogdivash::ffi;

pub const WORK: u8 = 9;
pub const OUTPUT: u8 = 11;

/// What is asked of subsetting.
#[derive(Clone, Copy)]
pub struct Cut {
    pub cid_keyed: bool,
    pub traced: u8,
    pub encoding: u8,
    /// By the call with few work words.
    pub small: bool,
}

/// A call's number, and what it answered where that is 0.
pub type Told<T> = Result<T, u8>;

/// The message says where a call wrote that it must not.
pub type Checked<T> = Result<T, String>;

/// All that is lent, and the chance that places it.
pub struct Desk {
    pub g: Generator,
    pub font: Lent<u8>,
    pub name: Lent<u8>,
    pub keep: Lent<u16>,
    pub record: Lent<u8>,
    pub work: Lent<u32>,
    pub out: Lent<u8>,
    pub words: Lent<u64>,
    /// C functions called.
    pub calls: u64,
}

impl Desk {
    pub fn new() -> Desk {
        Desk {
            g: Generator::new(0),
            font: Lent::new(),
            name: Lent::new(),
            keep: Lent::new(),
            record: Lent::new(),
            work: Lent::new(),
            out: Lent::new(),
            words: Lent::new(),
            calls: 0,
        }
    }

    pub fn side(&mut self) -> Side {
        self.g.one_of(&[Side::Behind, Side::Behind, Side::Before])
    }

    pub fn set_font(&mut self, font: &[u8]) {
        let side = self.side();
        self.font.copy(font, side).seal();
        self.font.as_null();
    }

    pub fn set_name(&mut self, name: &[u8]) {
        let side = self.side();
        self.name.copy(name, side).as_null();
    }

    pub fn set_keep(&mut self, keep: &[u16]) {
        let side = self.side();
        self.keep.copy(keep, side).as_null();
    }

    pub fn set_record(&mut self, record: &[u8]) {
        let side = self.side();
        self.record.copy(record, side).as_null();
    }

    fn lend_words(&mut self, words: usize) {
        let side = self.side();
        self.words.lend(words, side).as_null();
        self.calls += 1;
    }

    fn lend_out(&mut self, room: usize) {
        let side = self.side();
        self.out.lend(room, side).as_null();
    }

    fn lend_work(&mut self, words: usize) {
        let side = self.side();
        self.work.lend(words, side).as_null();
    }

    /// So many words of an answer, none of a refusal.
    fn answered(&mut self, number: u8, words: usize) -> Checked<Told<Vec<u64>>> {
        let words = if number == 0 { words } else { 0 };
        self.words.untouched_from(words, "the answer")?;
        match number {
            0 => Ok(Ok(self.words.slice()[..words].to_vec())),
            _ => Ok(Err(number)),
        }
    }

    pub fn read(&mut self, words: usize) -> Checked<Told<Vec<u64>>> {
        self.lend_words(words);
        let (font, words) = (&self.font, &self.words);
        // SAFETY of this and the next calls: each pointer comes with the number of its elements, which are there; those to write to
        // do not overlap the others.
        let number = unsafe { ffi::cff_read(font.ptr(), font.len(), words.ptr_mut(), words.len()) };
        self.answered(number, ffi::COUNTS)
    }

    pub fn find_name(&mut self, words: usize) -> Checked<Told<u64>> {
        self.lend_words(words);
        let (font, name, words) = (&self.font, &self.name, &self.words);
        let number = unsafe {
            ffi::cff_find_name(
                font.ptr(),
                font.len(),
                name.ptr(),
                name.len(),
                words.ptr_mut(),
                words.len(),
            )
        };
        Ok(self.answered(number, 1)?.map(|found| found[0]))
    }

    pub fn find_cid(&mut self, cid: u16, words: usize) -> Checked<Told<u64>> {
        self.lend_words(words);
        let (font, words) = (&self.font, &self.words);
        let number =
            unsafe { ffi::cff_find_cid(font.ptr(), font.len(), cid, words.ptr_mut(), words.len()) };
        Ok(self.answered(number, 1)?.map(|found| found[0]))
    }

    /// Words and bytes of which the last word says how many were written.
    fn written(&mut self, number: u8, words: usize) -> Checked<Told<(Vec<u64>, Vec<u8>)>> {
        let told = self.answered(number, words)?;
        let length = told.as_ref().map_or(0, |told| told[words - 1] as usize);
        self.out.untouched_from(length, "the output")?;
        Ok(told.map(|told| (told, self.out.slice()[..length].to_vec())))
    }

    pub fn item(&mut self, item: (u8, u64), room: usize, words: usize) -> Checked<Told<Vec<u8>>> {
        self.lend_words(words);
        self.lend_out(room);
        let (font, out, words) = (&self.font, &self.out, &self.words);
        let number = unsafe {
            ffi::cff_item(
                font.ptr(),
                font.len(),
                item.0,
                item.1,
                out.ptr_mut(),
                out.len(),
                words.ptr_mut(),
                words.len(),
            )
        };
        Ok(self.written(number, 1)?.map(|(_, bytes)| bytes))
    }

    pub fn item_refusal(&mut self, (kind, number): (u8, u64)) -> u8 {
        self.calls += 1;
        unsafe { ffi::cff_item_refusal(self.font.ptr(), self.font.len(), kind, number) }
    }

    pub fn trace(&mut self, room: usize, words: usize) -> Checked<Told<(u64, Vec<u8>)>> {
        self.lend_words(words);
        self.lend_out(room);
        let (font, keep, out, words) = (&self.font, &self.keep, &self.out, &self.words);
        let number = unsafe {
            ffi::cff_trace(
                font.ptr(),
                font.len(),
                keep.ptr(),
                keep.len(),
                out.ptr_mut(),
                out.len(),
                words.ptr_mut(),
                words.len(),
            )
        };
        Ok(self.written(number, 2)?.map(|(told, rows)| (told[0], rows)))
    }

    pub fn check_record(&mut self) -> u8 {
        self.calls += 1;
        let (font, keep, record) = (&self.font, &self.keep, &self.record);
        unsafe {
            ffi::cff_check_record(
                font.ptr(),
                font.len(),
                keep.ptr(),
                keep.len(),
                record.ptr(),
                record.len(),
            )
        }
    }

    /// The first `zeros` work words are 0, and the others as they were found.
    fn zeroed(&mut self, zeros: usize) -> Checked<()> {
        self.work.untouched_from(zeros, "the work words")?;
        if self.work.slice()[..zeros].iter().any(|&word| word != 0) {
            return Err("a work word is not 0".to_string());
        }
        Ok(())
    }

    /// The way and the subset; W of the font and of the call.
    pub fn subset(
        &mut self,
        cut: Cut,
        w: usize,
        (work, room, words): (usize, usize, usize),
    ) -> Checked<Told<(u64, Vec<u8>)>> {
        self.lend_words(words);
        self.lend_out(room);
        self.lend_work(work);
        let number = self.call_subset(cut);
        let late = matches!(number, 0 | 10 | OUTPUT | 12 | 13);
        self.zeroed(if late { w } else { 0 })
            .map_err(|e| format!("number {number}: {e}"))?;
        Ok(self
            .written(number, 2)?
            .map(|(told, bytes)| (told[0], bytes)))
    }

    fn call_subset(&self, cut: Cut) -> u8 {
        let (font, name, keep, record) = (&self.font, &self.name, &self.keep, &self.record);
        let (work, out, words) = (&self.work, &self.out, &self.words);
        unsafe {
            if cut.cid_keyed {
                let call = match cut.small {
                    true => ffi::cff_subset_cid_small,
                    false => ffi::cff_subset_cid,
                };
                call(
                    font.ptr(),
                    font.len(),
                    name.ptr(),
                    name.len(),
                    keep.ptr(),
                    keep.len(),
                    record.ptr(),
                    record.len(),
                    cut.traced,
                    work.ptr_mut(),
                    work.len(),
                    out.ptr_mut(),
                    out.len(),
                    words.ptr_mut(),
                    words.len(),
                )
            } else {
                let call = match cut.small {
                    true => ffi::cff_subset_small,
                    false => ffi::cff_subset,
                };
                call(
                    font.ptr(),
                    font.len(),
                    name.ptr(),
                    name.len(),
                    keep.ptr(),
                    keep.len(),
                    record.ptr(),
                    record.len(),
                    cut.traced,
                    cut.encoding,
                    work.ptr_mut(),
                    work.len(),
                    out.ptr_mut(),
                    out.len(),
                    words.ptr_mut(),
                    words.len(),
                )
            }
        }
    }

    /// The glyph; W of the font, and how long its traced record is.
    pub fn blocking(
        &mut self,
        w: usize,
        traced: usize,
        (work, room, words): (usize, usize, usize),
    ) -> Checked<Told<u64>> {
        self.lend_words(words);
        self.lend_out(room);
        self.lend_work(work);
        let number = self.call_blocking();
        // The first of the two refusals by 11 comes before the work words are used, the last behind them.
        let late = matches!(number, 0 | 10 | 12) || number == OUTPUT && room >= traced;
        self.zeroed(if late { w } else { 0 })
            .map_err(|e| format!("number {number}: {e}"))?;
        let zeros = if late { room } else { 0 };
        self.out.untouched_from(zeros, "the record")?;
        if self.out.slice()[..zeros].iter().any(|&byte| byte != 0) {
            return Err("a byte of the record is not 0".to_string());
        }
        Ok(self.answered(number, 1)?.map(|told| told[0]))
    }

    fn call_blocking(&self) -> u8 {
        let (font, name, keep) = (&self.font, &self.name, &self.keep);
        let (work, out, words) = (&self.work, &self.out, &self.words);
        unsafe {
            ffi::cff_blocking_glyph(
                font.ptr(),
                font.len(),
                name.ptr(),
                name.len(),
                keep.ptr(),
                keep.len(),
                work.ptr_mut(),
                work.len(),
                out.ptr_mut(),
                out.len(),
                words.ptr_mut(),
                words.len(),
            )
        }
    }

    /// The next short charstring behind the name, empty where none is left.
    pub fn next_charstring(&mut self, room: usize, words: usize) -> Checked<Told<Vec<u8>>> {
        self.lend_words(words);
        self.lend_out(room);
        let (code, out, words) = (&self.name, &self.out, &self.words);
        let number = unsafe {
            ffi::cff_next_charstring(
                code.ptr(),
                code.len(),
                out.ptr_mut(),
                out.len(),
                words.ptr_mut(),
                words.len(),
            )
        };
        Ok(self.written(number, 1)?.map(|(_, bytes)| bytes))
    }
}
