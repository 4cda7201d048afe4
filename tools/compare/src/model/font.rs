//! One font of a set: the parts that its top DICT names.

use super::dict::{Dict, operator};
use super::{Index, MALFORMED, NO_SUCH_ITEM, Reader, Step, UNSUPPORTED, refuse};
use crate::cff::STANDARD_STRINGS;
use crate::domain::{self, PAINT_TYPE, STROKE_WIDTH, STROKED};
use std::collections::BTreeSet;
use std::ops::Range;

/// The first font of the bytes.
#[derive(Clone, Debug)]
pub struct Font {
    pub charstrings: Index,
    pub globals: Index,
    pub strings: Index,
    pub cid_keyed: bool,
    /// The string id, or the CID, of each glyph.
    pub charset: Vec<u16>,
    /// Locals of all FDs together; of the one Private in a name-keyed font.
    pub locals: u64,
    /// The words of a bit for each local, rounded up for each FD: document 02, Wish 7.
    pub local_words: u64,
    /// Whether the last PaintType entry of the top DICT is one number other than 0: document 02, Wish 11.
    pub stroked: bool,
    /// The Encoding entry of a name-keyed font: `STANDARD`, `EXPERT`, or where its own encoding stands.
    pub encoding: u64,
}

/// Numbers of the predefined encodings, TN5176, section 12.
pub const STANDARD: u64 = 0;
pub const EXPERT: u64 = 1;

/// The words that hold a bit for each of some subroutines or glyphs: document 02, Wishes 7 and 10.
pub fn words_for(count: u64) -> u64 {
    count.div_ceil(32)
}

impl Font {
    pub fn work(&self) -> u64 {
        2 * self.charstrings.count as u64 + words_for(self.globals.count as u64) + self.local_words
    }

    /// That of the calls with few work words: document 02, Wish 10.
    pub fn small_work(&self) -> u64 {
        let glyphs = self.charstrings.count as u64;
        words_for(glyphs) + words_for(self.globals.count as u64) + self.local_words
    }

    pub fn text<'a>(&self, bytes: &'a [u8], id: u16) -> &'a [u8] {
        text(bytes, &self.strings, id)
    }

    pub fn find_name(&self, bytes: &[u8], name: &[u8]) -> Option<u16> {
        if self.cid_keyed {
            return None;
        }
        let found = |&id: &u16| self.text(bytes, id) == name;
        self.charset.iter().position(found).map(|k| k as u16)
    }

    pub fn find_cid(&self, cid: u16) -> Option<u16> {
        if !self.cid_keyed {
            return None;
        }
        self.charset
            .iter()
            .position(|&c| c == cid)
            .map(|k| k as u16)
    }

    /// The glyph that finding gives for the name of a string id, or for a CID.
    pub fn first(&self, bytes: &[u8], id: u16) -> Option<u16> {
        if self.cid_keyed {
            self.find_cid(id)
        } else {
            self.find_name(bytes, self.text(bytes, id))
        }
    }

    /// The INDEX of an item's kind.
    pub fn index(&self, kind: u8) -> &Index {
        match kind {
            0 => &self.charstrings,
            1 => &self.globals,
            _ => &self.strings,
        }
    }

    pub fn item(&self, bytes: &[u8], kind: u8, number: u64) -> Result<Range<usize>, u8> {
        let index = self.index(kind);
        if number < index.count as u64 {
            Ok(index.span(bytes, number as usize))
        } else {
            Err(NO_SUCH_ITEM)
        }
    }
}

/// The text of a string id: a standard string, one of the font's, or the empty one.
fn text<'a>(bytes: &'a [u8], strings: &Index, id: u16) -> &'a [u8] {
    let id = usize::from(id);
    if id < STANDARD_STRINGS.len() {
        return STANDARD_STRINGS[id].as_bytes();
    }
    let own = id - STANDARD_STRINGS.len();
    if own < strings.count {
        return &bytes[strings.span(bytes, own)];
    }
    b""
}

impl Reader<'_> {
    pub(super) fn font(&mut self, top: Range<usize>, strings: Index, globals: Index) -> Step<Font> {
        let top = self.dict(top, "top DICT")?;
        self.memory += top.memory();
        let stroked = top.number(operator::PAINT_TYPE).is_some_and(|n| !n.is(0));
        if self.fonts == 1 {
            self.note_entry(&top, operator::PAINT_TYPE, PAINT_TYPE);
            if stroked {
                self.note(STROKED);
            }
            self.note_entry(&top, operator::STROKE_WIDTH, STROKE_WIDTH);
        }
        if top
            .number(operator::CHARSTRING_TYPE)
            .is_some_and(|t| !t.is(2))
        {
            return refuse(UNSUPPORTED, "top DICT", "charstring type", 0);
        }
        if top.number(operator::CHARSTRING_TYPE).is_some() {
            self.note("charstring type given");
        }
        let Some(at) = top.place(operator::CHARSTRINGS, "CharStrings entry")? else {
            return refuse(MALFORMED, "CharStrings entry", "absent", 0);
        };
        let charstrings = self.index(at, "CharStrings INDEX")?;
        let glyphs = charstrings.count;
        self.memory += self.copied(&charstrings) + 160 * glyphs as u64;
        if glyphs == 0 {
            return refuse(MALFORMED, "CharStrings INDEX", "no glyph", 0);
        }
        let charset = match top.place(operator::CHARSET, "charset entry")?.unwrap_or(0) {
            0 => {
                self.note("charset predefined or absent");
                (0..glyphs as u16).collect()
            }
            1 | 2 => return refuse(UNSUPPORTED, "charset entry", "Expert charset", 0),
            at => self.charset(at, glyphs)?,
        };
        let cid_keyed = top.last(operator::ROS).is_some();
        self.note_ids(&charset, cid_keyed, strings);
        let mut encoding = STANDARD;
        let (locals, local_words) = if cid_keyed {
            let Some(at) = top.place(operator::FD_ARRAY, "FDArray entry")? else {
                return refuse(MALFORMED, "FDArray entry", "absent", 0);
            };
            let fds = self.fd_array(at)?;
            self.memory += fds.memory;
            if fds.count == 0 {
                return refuse(MALFORMED, "FDArray INDEX", "no FD", 0);
            }
            let highest = match top.place(operator::FD_SELECT, "FDSelect entry")? {
                None => {
                    self.note("FDSelect absent");
                    0
                }
                Some(at) => self.highest_fd(at, glyphs)?,
            };
            if highest >= fds.count {
                return refuse(MALFORMED, "FDSelect", "FD past the array", 0);
            }
            self.note(if fds.count > 256 {
                "FD array of more than 256"
            } else if fds.count > 1 {
                "FD array of 2 to 256"
            } else {
                "FD array of 1"
            });
            (fds.locals, fds.local_words)
        } else {
            let (locals, memory) = self.private_entry(&top, "Private entry", "Private")?;
            self.memory += memory;
            let entry = top.place(operator::ENCODING, "Encoding entry")?;
            encoding = entry.unwrap_or(STANDARD);
            match encoding {
                STANDARD => {}
                EXPERT => {
                    self.note(domain::EXPERT);
                    // Document 02, Wish 4: it is read.
                    if !self.wishes.contains(&4) {
                        return refuse(UNSUPPORTED, "Encoding entry", domain::EXPERT, 0);
                    }
                }
                at => self.encoding(at)?,
            }
            (locals, words_for(locals))
        };
        Ok(Font {
            charstrings,
            globals,
            strings,
            cid_keyed,
            charset,
            locals,
            local_words,
            stroked,
            encoding,
        })
    }

    /// Notes that a DICT has an entry, whatever its operands are.
    pub(super) fn note_entry(&mut self, dict: &Dict, operator: u16, what: &'static str) {
        if dict.last(operator).is_some() {
            self.note(what);
        }
    }

    fn note_ids(&mut self, ids: &[u16], cid_keyed: bool, strings: Index) {
        let different = ids.iter().collect::<BTreeSet<_>>().len();
        if cid_keyed {
            if different < ids.len() {
                self.note("CID twice");
            }
            return;
        }
        if different < ids.len() {
            self.note("string id twice");
        }
        let past = STANDARD_STRINGS.len() + strings.count;
        if ids.iter().any(|&id| usize::from(id) >= past) {
            self.note("string id past the strings");
        }
        let texts: BTreeSet<_> = ids
            .iter()
            .map(|&id| text(self.bytes, &strings, id))
            .collect();
        if texts.len() < different {
            self.note("one name by two string ids");
        }
    }
}
