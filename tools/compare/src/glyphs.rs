//! What is asked of single glyphs, and of many names or CIDs with one reading, compared: names, CIDs and FDs with the original's, and
//! the glyphs of many with those that finding gives one by one, of the original, the model and the library.

use crate::cases::{Case, mixed};
use crate::cff::CffProgram;
use crate::compare::{MEMORY, cids, item_numbers, names};
use crate::domain::{self, Call, NONE, WISHES};
use crate::generator::Generator;
use crate::hex;
use crate::library::{ABSENT, Library, NO_ROOM, ONE};
use crate::model::{self, Font, NO_SUCH_ITEM};
use crate::original::{self, Outcome};
use mogdivash::ffi;
use std::collections::BTreeMap;
use std::fmt::Write as _;

/// The refusal of lengths that go past the names.
const TRUNCATED: u8 = 1;

/// Glyphs that are asked of a font with more, and names or CIDs.
const ASKED: usize = 60;

/// What the lent memory holds before a call.
const BYTE: u8 = 0xa5;
const WORD: u64 = 0x5a5a_5a5a_5a5a_5a5a;
const HALF: u32 = 0x5a5a_5a5a;

/// What a call answers: the name and the words, or a refusal.
type Told = Result<(Vec<u8>, [u64; ffi::GLYPH_WORDS]), u8>;

#[derive(Default)]
pub struct Tally {
    pub fonts: u64,
    pub read: u64,
    pub with_original: u64,
    /// Calls by entry and answer.
    calls: BTreeMap<(&'static str, &'static str), u64>,
    pub differences: u64,
    first: Vec<String>,
}

impl Tally {
    fn call(&mut self, entry: &'static str, returned: u8) {
        let answer = match returned {
            0 => "answered",
            NO_SUCH_ITEM => "no such glyph",
            NO_ROOM => "no room",
            _ => "refused",
        };
        *self.calls.entry((entry, answer)).or_default() += 1;
    }

    fn differ(&mut self, case: &Case, seed: u64, message: &str) {
        self.differences += 1;
        if self.first.len() < 10 {
            let short = &case.font[..case.font.len().min(2000)];
            self.first.push(format!(
                "{}: {message}\n  {}\n",
                case.label(seed),
                hex(short)
            ));
        }
    }

    pub fn report(&self) -> String {
        let mut out = String::new();
        let calls: u64 = self.calls.values().sum();
        let _ = writeln!(
            out,
            "{} fonts, {} read, {} of them by the original too; {calls} calls",
            self.fonts, self.read, self.with_original
        );
        for ((entry, answer), n) in &self.calls {
            let _ = writeln!(out, "  {entry}, {answer}: {n}");
        }
        let _ = writeln!(out, "differences: {}", self.differences);
        self.first.iter().for_each(|d| out.push_str(d));
        out
    }
}

/// `cff_glyph` with so many bytes and words lent; None where memory was written that it should not have been.
fn glyph(font: &[u8], number: u64, bytes: usize, words: usize) -> (u8, Option<Told>) {
    let mut name = vec![BYTE; bytes + 8];
    let mut answer = vec![WORD; words + 2];
    // SAFETY: the slices are lent for the call, the two for writing without their ends.
    let returned = unsafe {
        ffi::cff_glyph(
            font.as_ptr(),
            font.len(),
            number,
            name.as_mut_ptr(),
            bytes,
            answer.as_mut_ptr(),
            words,
        )
    };
    let told = if returned == 0 { 4.min(words) } else { 0 };
    let len = if told == 4 { answer[3] as usize } else { 0 };
    let kept = len <= bytes
        && name[len..].iter().all(|&b| b == BYTE)
        && answer[told..].iter().all(|&w| w == WORD);
    let answer = match returned {
        0 if told == 4 => Ok((
            name[..len].to_vec(),
            [answer[0], answer[1], answer[2], answer[3]],
        )),
        n => Err(n),
    };
    (returned, kept.then_some(answer))
}

/// The words of a call that finds many: the number returned, and the glyphs; None where more was written.
fn found(
    count: usize,
    room: usize,
    call: impl FnOnce(*mut u32, usize) -> u8,
) -> (u8, Option<Vec<u32>>) {
    let mut glyphs = vec![HALF; room + 4];
    let returned = call(glyphs.as_mut_ptr(), room);
    let told = if returned == 0 { count.min(room) } else { 0 };
    let kept = glyphs[told..].iter().all(|&g| g == HALF);
    glyphs.truncate(told);
    (returned, kept.then_some(glyphs))
}

fn find_names(font: &[u8], names: &[u8], lengths: &[u32], room: usize) -> (u8, Option<Vec<u32>>) {
    found(lengths.len(), room, |glyphs, lent| {
        // SAFETY: the slices are lent for the call; `glyphs` has as many words and more.
        unsafe {
            ffi::cff_find_names(
                font.as_ptr(),
                font.len(),
                names.as_ptr(),
                names.len(),
                lengths.as_ptr(),
                lengths.len(),
                glyphs,
                lent,
            )
        }
    })
}

fn find_cids(font: &[u8], cids: &[u16], room: usize) -> (u8, Option<Vec<u32>>) {
    found(cids.len(), room, |glyphs, lent| {
        // SAFETY: as above.
        unsafe {
            ffi::cff_find_cids(
                font.as_ptr(),
                font.len(),
                cids.as_ptr(),
                cids.len(),
                glyphs,
                lent,
            )
        }
    })
}

/// `cff_item_place` with so many words lent: what it returned, and the words; None where it wrote more.
fn place(font: &[u8], kind: u8, number: u64, words: usize) -> (u8, Option<Vec<u64>>) {
    let mut answer = vec![WORD; words + 2];
    // SAFETY: the slices are lent for the call.
    let returned = unsafe {
        let (at, len) = (font.as_ptr(), font.len());
        ffi::cff_item_place(at, len, kind, number, answer.as_mut_ptr(), words)
    };
    let told = if returned == 0 {
        ffi::PLACE.min(words)
    } else {
        0
    };
    let kept = answer[told..].iter().all(|&w| w == WORD);
    answer.truncate(told);
    (returned, kept.then_some(answer))
}

struct Compared<'a> {
    library: &'a Library,
    case: &'a Case,
    seed: u64,
    read: Result<&'a Font, u8>,
    program: Option<&'a CffProgram>,
    tally: &'a mut Tally,
}

pub fn compare(library: &Library, case: &Case, seed: u64, tally: &mut Tally) {
    let before = model::read(&case.font, NONE);
    let reading = model::read(&case.font, WISHES);
    let asked = domain::inside(Call::Read, &before, WISHES) && before.memory <= MEMORY;
    let outcome = asked.then(|| original::read(&case.font));
    let program = match &outcome {
        Some(Outcome::Program(program)) => Some(program),
        _ => None,
    };
    let read = reading.font.as_ref().map_err(|r| r.number);
    tally.fonts += 1;
    tally.read += u64::from(read.is_ok());
    tally.with_original += u64::from(read.is_ok() && program.is_some());
    let mut g = Generator::new(mixed(seed ^ 0x6c79_7068, case.number as u64));
    let mut compared = Compared {
        library,
        case,
        seed,
        read,
        program,
        tally,
    };
    compared.glyphs(&mut g);
    compared.names(&mut g);
    compared.cids(&mut g);
    compared.places(&mut g);
}

impl Compared<'_> {
    fn same<T: PartialEq + std::fmt::Debug>(&mut self, what: &str, want: &T, got: &T) {
        if want != got {
            let message = format!("{what}: wanted {want:?}, got {got:?}");
            self.tally.differ(self.case, self.seed, &message);
        }
    }

    /// What is told of a glyph, by the original where it read the font; of one that it did not read, keying and id by the model.
    fn wanted(&self, number: u64) -> Told {
        let font = self.read?;
        let index = usize::try_from(number)
            .ok()
            .filter(|&k| k < font.charset.len());
        let index = index.ok_or(NO_SUCH_ITEM)?;
        let (glyph, id) = (index as u16, font.charset[index]);
        let (id, name, fd) = match self.program {
            Some(program) => (
                program.charset()[index],
                program.glyph_name(glyph).unwrap_or(b""),
                program.fd_index(glyph).unwrap_or(0),
            ),
            None if font.cid_keyed => (id, &b""[..], 0),
            None => (id, font.text(&self.case.font, id), 0),
        };
        let keying = u64::from(font.cid_keyed);
        let words = [keying, id.into(), fd.into(), name.len() as u64];
        Ok((name.to_vec(), words))
    }

    fn glyphs(&mut self, g: &mut Generator) {
        let count = self.read.map_or(1, |font| font.charset.len() as u64);
        let mut numbers: Vec<u64> = if count <= ASKED as u64 {
            (0..count).collect()
        } else {
            (0..ASKED).map(|_| g.word() % count).collect()
        };
        numbers.extend([
            count - 1,
            count,
            count + 65_536,
            count + (1 << 32),
            u64::MAX,
        ]);
        for number in numbers {
            let mut want = self.wanted(number);
            let len = want.as_ref().map_or(0, |(name, _)| name.len());
            let (returned, mut got) =
                glyph(&self.case.font, number, len + g.below(3), ffi::GLYPH_WORDS);
            self.tally.call("glyph", returned);
            // Without the original's word the FD of a CID-keyed font is not compared.
            if let (None, Ok((_, words)), Some(Ok((_, told)))) = (self.program, &mut want, &mut got)
            {
                told[2] = words[2];
            }
            self.same(&format!("glyph {number}"), &Some(want.clone()), &got);
            let refusal = want.err().unwrap_or(NO_ROOM);
            let (returned, got) = glyph(&self.case.font, number, len, g.below(ffi::GLYPH_WORDS));
            self.tally.call("glyph", returned);
            self.same("glyph with few words", &Some(Err(refusal)), &got);
            if len > 0 {
                let (returned, got) = glyph(&self.case.font, number, len - 1, ffi::GLYPH_WORDS);
                self.tally.call("glyph", returned);
                self.same("glyph with few bytes", &Some(Err(refusal)), &got);
            }
        }
    }

    fn names(&mut self, g: &mut Generator) {
        let font = &self.case.font;
        let mut asked: Vec<Vec<u8>> = names(g, self.read.ok(), font);
        if let Ok(read) = self.read {
            let some = read.charset.len().min(ASKED);
            asked.extend((0..some).map(|_| {
                let id = read.charset[g.below(read.charset.len())];
                read.text(font, id).to_vec()
            }));
        }
        let together = asked.concat();
        let lengths: Vec<u32> = asked.iter().map(|name| name.len() as u32).collect();
        let (returned, got) = find_names(font, &together, &lengths, asked.len() + g.below(3));
        self.tally.call("find_names", returned);
        self.same("find_names", &self.read.err().unwrap_or(0), &returned);
        let want: Vec<u32> = match self.read {
            Err(_) => Vec::new(),
            Ok(read) => {
                let find = |name: &Vec<u8>| read.find_name(font, name);
                asked
                    .iter()
                    .map(|name| find(name).map_or(65_536, u32::from))
                    .collect()
            }
        };
        self.same("find_names", &Some(want.clone()), &got);
        if self.read.is_ok() {
            for (name, want) in asked.iter().zip(&want) {
                let one = self.library.find_name(font, name, ONE);
                self.same("find_name of one", &Ok(Ok(u64::from(*want))), &one);
                if let Some(program) = self.program {
                    let theirs = program.gid(name).map_or(ABSENT, u64::from);
                    self.same("the original's gid", &theirs, &u64::from(*want));
                }
            }
        }
        let refusal = self.read.err().unwrap_or(NO_ROOM);
        let (returned, got) = find_names(font, &together, &lengths, g.below(asked.len()));
        self.tally.call("find_names", returned);
        self.same(
            "find_names with little room",
            &(refusal, Some(Vec::new())),
            &(returned, got),
        );
        let mut longer = lengths;
        let last = longer.len() - 1;
        longer[g.below(last)] += 1 + if g.once_in(2) { u32::MAX / 2 } else { 0 };
        let refusal = self.read.err().unwrap_or(TRUNCATED);
        let (returned, got) = find_names(font, &together, &longer, g.below(2 * asked.len()));
        self.tally.call("find_names", returned);
        self.same(
            "find_names with longer names",
            &(refusal, Some(Vec::new())),
            &(returned, got),
        );
    }

    fn cids(&mut self, g: &mut Generator) {
        let font = &self.case.font;
        let mut asked = cids(g, self.read.ok());
        if let Ok(read) = self.read {
            let some = read.charset.len().min(ASKED);
            asked.extend((0..some).map(|_| read.charset[g.below(read.charset.len())]));
        }
        let (returned, got) = find_cids(font, &asked, asked.len() + g.below(3));
        self.tally.call("find_cids", returned);
        self.same("find_cids", &self.read.err().unwrap_or(0), &returned);
        let want: Vec<u32> = match self.read {
            Err(_) => Vec::new(),
            Ok(read) => {
                let find = |&cid: &u16| read.find_cid(cid).map_or(65_536, u32::from);
                asked.iter().map(find).collect()
            }
        };
        self.same("find_cids", &Some(want.clone()), &got);
        if self.read.is_ok() {
            for (&cid, &want) in asked.iter().zip(&want) {
                let one = self.library.find_cid(font, cid, ONE);
                self.same("find_cid of one", &Ok(Ok(u64::from(want))), &one);
                if let Some(program) = self.program {
                    let theirs = program.gid_of_cid(cid).map_or(ABSENT, u64::from);
                    self.same("the original's gid_of_cid", &theirs, &u64::from(want));
                }
            }
        }
        let refusal = self.read.err().unwrap_or(NO_ROOM);
        let (returned, got) = find_cids(font, &asked, g.below(asked.len()));
        self.tally.call("find_cids", returned);
        self.same(
            "find_cids with little room",
            &(refusal, Some(Vec::new())),
            &(returned, got),
        );
    }

    /// Where items stand: all of a small INDEX, and numbers around every boundary; the item is the original's.
    fn places(&mut self, g: &mut Generator) {
        let font = &self.case.font;
        for kind in 0..5u8 {
            let count = self.read.map_or(0, |f| f.index(kind).count as u64);
            for number in item_numbers(g, count) {
                let want = match self.read {
                    Ok(_) if kind > 2 => Err(NO_SUCH_ITEM),
                    read => read.and_then(|f| f.item(font, kind, number)),
                };
                if let (Some(program), Ok(span)) = (self.program, &want) {
                    let theirs = original::item(program, kind, number);
                    self.same("the original's item", &theirs, &Some(&font[span.clone()]));
                }
                let words = |span: &std::ops::Range<usize>| {
                    (0, Some(vec![span.start as u64, span.len() as u64]))
                };
                let refused = |number: &u8| (*number, Some(Vec::new()));
                let got = place(font, kind, number, ffi::PLACE + g.below(2));
                self.tally.call("item_place", got.0);
                let wanted = want.as_ref().map_or_else(refused, words);
                self.same(&format!("item_place {kind} {number}"), &wanted, &got);
                let refusal = want.err().unwrap_or(NO_ROOM);
                let got = place(font, kind, number, g.below(ffi::PLACE));
                self.tally.call("item_place", got.0);
                self.same("item_place with few words", &refused(&refusal), &got);
            }
        }
    }
}
