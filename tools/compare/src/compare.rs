//! One font compared: the library against the original, and a model of document 01 against both.

use crate::cases::{Case, mixed};
use crate::cff::{CffProgram, STANDARD_STRINGS};
use crate::domain::{self, Call, NONE, WISHES};
use crate::generator::Generator;
use crate::library::{ABSENT, Answer, COUNTS, Checked, Counts, Library, NO_ROOM, ONE};
use crate::model::{self, Font, NO_SUCH_ITEM, PAST_LIMITS, Refused, TOO_LONG};
use crate::original::{self, Outcome};
use crate::program::FontError;
use crate::tally::{Difference, Tally};
use std::fmt::Debug;

/// The original is not asked where it would take more memory than this, in bytes.
pub const MEMORY: u64 = 1 << 29;

/// Names, and CIDs, for each font.
const NAMES: usize = 20;

/// Messages kept of one font.
const MESSAGES: usize = 4;

struct Compared<'a> {
    library: &'a Library,
    font: &'a [u8],
    /// What the library is to answer.
    read: Result<&'a Font, u8>,
    /// What the original is to answer: the same inside the domain, document 01's outside.
    theirs: Result<&'a Font, u8>,
    program: Option<CffProgram>,
    tally: &'a mut Tally,
    messages: Vec<String>,
}

pub fn compare(library: &Library, case: &Case, seed: u64, tally: &mut Tally) {
    let before = model::read(&case.font, NONE);
    let reading = model::read(&case.font, WISHES);
    let inside = domain::inside(Call::Read, &before, WISHES);
    let theirs = if inside { &reading } else { &before };
    tally.font(case, &reading, inside);
    let mut compared = Compared {
        library,
        font: &case.font,
        read: reading.font.as_ref().map_err(|r| r.number),
        theirs: theirs.font.as_ref().map_err(|r| r.number),
        program: None,
        tally,
        messages: Vec::new(),
    };
    if compared.theirs.err() == Some(TOO_LONG) {
        // Added by document 01; the original has no such rule.
    } else if theirs.memory > MEMORY {
        compared.tally.heavy += 1;
    } else {
        compared.original(theirs.font.as_ref().err(), case, seed);
    }
    if !inside && compared.program.is_some() {
        compared.tally.outside_read += 1;
    }
    compared.entries(seed, case.number as u64);
    let mut messages = compared.messages;
    if !messages.is_empty() {
        if let Err(refused) = &reading.font {
            messages.push(format!("model: {refused:?}"));
        }
        tally.difference(Difference {
            place: (case.file.clone(), case.number),
            case: case.label(seed),
            messages,
            font: case.font.clone(),
        });
    }
}

impl Compared<'_> {
    fn report(&mut self, message: impl FnOnce() -> String) {
        if self.messages.len() < MESSAGES {
            self.messages.push(message());
        }
    }

    /// The model of what the original is to answer against the original.
    fn original(&mut self, refused: Option<&Refused>, case: &Case, seed: u64) {
        let outcome = original::read(self.font);
        if let Outcome::Panicked(message) = &outcome {
            self.tally.panics += 1;
            self.report(|| format!("the original panics: {message}"));
        }
        match (refused, outcome) {
            (Some(r), _) if r.number == PAST_LIMITS => {
                if self.comes_by(r.at) {
                    self.tally.confirmed += 1;
                } else {
                    self.tally.unconfirmed.push(case.label(seed));
                }
            }
            (Some(r), Outcome::Refused(error)) => {
                if original::number(&error) != r.number {
                    self.report(|| format!("the model refuses by {r:?}, the original: {error}"));
                }
            }
            (None, Outcome::Program(program)) => {
                if let Some(what) = self.unlike(&program) {
                    self.report(|| format!("the model and the original differ in {what}"));
                }
                self.program = Some(program);
            }
            (Some(r), Outcome::Program(_)) => {
                self.report(|| format!("the model refuses by {r:?}, the original reads the font"));
            }
            (None, Outcome::Refused(error)) => {
                self.report(|| format!("the model reads the font, the original: {error}"));
            }
            (_, Outcome::Panicked(_)) => {}
        }
    }

    /// Whether a real past the limits stands where the original's parse comes by: with a reserved
    /// nibble at its start the original must say that this real is malformed. (It may say another
    /// thing where the same byte is read as a part of something else.)
    fn comes_by(&self, at: usize) -> bool {
        let mut copy = self.font.to_vec();
        copy[at] = 0xdf;
        matches!(
            original::read(&copy),
            Outcome::Refused(FontError::Malformed("real operand"))
        )
    }

    /// Where the model's font and the original's differ.
    fn unlike(&self, program: &CffProgram) -> Option<String> {
        let Ok(font) = self.theirs else { return None };
        if font.cid_keyed != program.is_cid_keyed() {
            return Some("keying".to_string());
        }
        if font.charset != program.charset() {
            return Some("charset".to_string());
        }
        if font.locals != original::locals(program) {
            return Some("local subroutines".to_string());
        }
        for kind in 0..3 {
            let index = font.index(kind);
            for k in 0..index.count + 1 {
                let mine = font.item(self.font, kind, k as u64).ok();
                let mine = mine.map(|span| &self.font[span]);
                if mine != original::item(program, kind, k as u64) {
                    return Some(format!("item {k} of kind {kind}"));
                }
            }
        }
        None
    }

    /// The library's entries, each with its answers.
    fn entries(&mut self, seed: u64, number: u64) {
        let mut g = Generator::new(mixed(seed ^ 0x5851_f42d_4c95_7f2d, number));
        let want = self.read.map(counts);
        let got = self.library.read(self.font, COUNTS);
        self.tally.call("read", &want);
        self.same("read", &want, got);

        let names = names(&mut g, self.theirs.ok(), self.font);
        for name in names {
            let find =
                |f: &Font| -> u64 { f.find_name(self.font, &name).map_or(ABSENT, u64::from) };
            let want = self.read.map(find);
            if let (Some(program), Ok(font)) = (&self.program, self.theirs) {
                let model = find(font);
                let theirs = program.gid(&name).map_or(ABSENT, u64::from);
                if theirs != model {
                    self.report(|| {
                        format!("name {name:02x?}: model {model:?}, original {theirs:?}")
                    });
                }
            }
            let got = self.library.find_name(self.font, &name, ONE);
            self.tally.found("find_name", &want);
            self.same_of("find_name", &name, &want, got);
        }

        for cid in cids(&mut g, self.theirs.ok()) {
            let find = |f: &Font| -> u64 { f.find_cid(cid).map_or(ABSENT, u64::from) };
            let want = self.read.map(find);
            if let (Some(program), Ok(font)) = (&self.program, self.theirs) {
                let model = find(font);
                let theirs = program.gid_of_cid(cid).map_or(ABSENT, u64::from);
                if theirs != model {
                    self.report(|| format!("CID {cid}: model {model:?}, original {theirs:?}"));
                }
            }
            let got = self.library.find_cid(self.font, cid, ONE);
            self.tally.found("find_cid", &want);
            self.same_of("find_cid", &cid, &want, got);
        }

        for kind in 0..3u8 {
            let count = self.theirs.map_or(0, |f| f.index(kind).count as u64);
            for number in item_numbers(&mut g, count) {
                let item = |f: &Font| f.item(self.font, kind, number);
                let want = self
                    .read
                    .and_then(item)
                    .map(|span| self.font[span].to_vec());
                if let (Some(program), Ok(font)) = (&self.program, self.theirs) {
                    let model = item(font).map(|span| &self.font[span]);
                    if original::item(program, kind, number).ok_or(NO_SUCH_ITEM) != model {
                        self.report(|| format!("item {number} of kind {kind}: model and original"));
                    }
                }
                let room = want.as_ref().map_or(4, Vec::len);
                let got = self.library.item(self.font, (kind, number), room, ONE);
                self.tally
                    .call(["charstring", "global", "string"][usize::from(kind)], &want);
                self.same_of("item", &(kind, number), &want, got);
                let refusal = want.err().unwrap_or(0);
                let got = (self.library.item_refusal)(self.font, (kind, number));
                self.tally.call(
                    "item_refusal",
                    &if refusal == 0 { Ok(()) } else { Err(refusal) },
                );
                if got != refusal {
                    self.report(|| {
                        format!("item_refusal {kind} {number}: wanted {refusal}, library {got}")
                    });
                }
            }
        }
        self.without_room(&mut g);
    }

    /// Too few words or bytes lent, which is refused last; and a kind of items that there is not.
    fn without_room(&mut self, g: &mut Generator) {
        let refusal = self.read.err().unwrap_or(NO_ROOM);
        let words = g.below(COUNTS);
        let got = self.library.read(self.font, words);
        self.same_of("read with words", &words, &Err(refusal), got);
        let got = self.library.find_name(self.font, b".notdef", 0);
        self.same("find_name without a word", &Err(refusal), got);
        let got = self.library.find_cid(self.font, 0, 0);
        self.same("find_cid without a word", &Err(refusal), got);
        self.tally.roomless += 3;

        let kind = g.below(3) as u8;
        let count = self.read.map_or(0, |f| f.index(kind).count as u64);
        let number = g.word() % (count + 1);
        let item = self.read.and_then(|f| f.item(self.font, kind, number));
        let refusal = item.as_ref().map_or_else(|&r| r, |_| NO_ROOM);
        let length = item.as_ref().map_or(4, |span| span.len());
        let got = self.library.item(self.font, (kind, number), length, 0);
        self.same_of("item without a word", &(kind, number), &Err(refusal), got);
        self.tally.roomless += 1;
        if length > 0 {
            let got = self
                .library
                .item(self.font, (kind, number), length - 1, ONE);
            self.same_of("item without room", &(kind, number), &Err(refusal), got);
            self.tally.roomless += 1;
        }

        let kind = 3 + g.below(253) as u8;
        let refusal = self.read.err().unwrap_or(NO_SUCH_ITEM);
        let got = self.library.item(self.font, (kind, number), length, ONE);
        self.same_of("item of no kind", &(kind, number), &Err(refusal), got);
        let got = (self.library.item_refusal)(self.font, (kind, number));
        self.same_of(
            "item_refusal of no kind",
            &(kind, number),
            &Ok(refusal),
            Ok(Ok(got)),
        );
        self.tally.roomless += 2;
    }

    fn same<T: PartialEq + Debug>(&mut self, entry: &str, want: &Answer<T>, got: Checked<T>) {
        self.same_of(entry, &(), want, got);
    }

    fn same_of<I: Debug, T: PartialEq + Debug>(
        &mut self,
        entry: &str,
        input: &I,
        want: &Answer<T>,
        got: Checked<T>,
    ) {
        match got {
            Err(fault) => self.report(|| format!("{entry} {input:02x?}: {fault}")),
            Ok(got) if got != *want => {
                self.report(|| {
                    format!("{entry} {input:02x?}: wanted {want:02x?}, library {got:02x?}")
                });
            }
            Ok(_) => {}
        }
    }
}

pub fn counts(font: &Font) -> Counts {
    Counts {
        glyphs: font.charstrings.count as u64,
        globals: font.globals.count as u64,
        strings: font.strings.count as u64,
        cid_keyed: u64::from(font.cid_keyed),
        work: font.work(),
    }
}

/// Names to find: of the font's glyphs, near to them, standard ones, its strings, any others.
pub fn names(g: &mut Generator, font: Option<&Font>, bytes: &[u8]) -> Vec<Vec<u8>> {
    let mut names = vec![Vec::new(), b".notdef".to_vec()];
    while names.len() < NAMES {
        let name = match (font, g.below(8)) {
            (Some(f), 0..=3) => {
                let glyph = match g.below(4) {
                    0 => f.charset.len() - 1,
                    _ => g.below(f.charset.len()),
                };
                let mut name = f.text(bytes, f.charset[glyph]).to_vec();
                match g.below(10) {
                    0 => name.push(b'a'),
                    1 => {
                        name.pop();
                    }
                    2 if !name.is_empty() => {
                        let k = g.below(name.len());
                        name[k] ^= 1 << g.below(8);
                    }
                    _ => {}
                }
                name
            }
            (Some(f), 4) if f.strings.count > 0 => {
                let k = g.below(f.strings.count);
                bytes[f.strings.span(bytes, k)].to_vec()
            }
            (_, 5) => {
                let n = if g.once_in(4) { 300 } else { g.below(6) };
                g.bytes(n)
            }
            _ => STANDARD_STRINGS[g.below(STANDARD_STRINGS.len())]
                .as_bytes()
                .to_vec(),
        };
        names.push(name);
    }
    names
}

/// CIDs to find: of the font's glyphs, next to them, the smallest and the largest, any others.
pub fn cids(g: &mut Generator, font: Option<&Font>) -> Vec<u16> {
    let mut cids = vec![0, 1, 65535];
    while cids.len() < NAMES {
        let cid = match (font, g.below(6)) {
            (Some(f), 0..=3) => {
                let id = match g.below(4) {
                    0 => f.charset[f.charset.len() - 1],
                    _ => f.charset[g.below(f.charset.len())],
                };
                match g.below(6) {
                    0 => id.wrapping_add(1),
                    1 => id.wrapping_sub(1),
                    _ => id,
                }
            }
            (_, 4) => g.below(600) as u16,
            _ => g.word() as u16,
        };
        cids.push(cid);
    }
    cids
}

/// Numbers around every boundary of an INDEX of `count` items, those whose low half or low word
/// is an item's among them.
pub fn item_numbers(g: &mut Generator, count: u64) -> Vec<u64> {
    let mut numbers = vec![
        0,
        1,
        255,
        256,
        65535,
        65536,
        65536 + count.saturating_sub(1),
        1 << 32,
        (1 << 32) + count.saturating_sub(1),
        u64::MAX,
    ];
    if count <= 12 {
        numbers.extend(0..count + 2);
    } else {
        numbers.extend(count - 2..count + 2);
        numbers.extend((0..4).map(|_| g.word() % count));
    }
    numbers.sort_unstable();
    numbers.dedup();
    numbers
}
