//! One call of subsetting, and what document 01 says that it answers.

use crate::cff::{CffProgram, STANDARD_STRINGS, op, write};
use crate::domain::{NONE, Wishes};
use crate::hooked::{self, Given};
use crate::model::{EXPERT, Font, LONGEST, MALFORMED, NO_SUCH_ITEM, TOO_LONG, UNSUPPORTED};
use crate::{cut_model, original, record};
use std::collections::BTreeSet;

pub const NOT_FOUND: u8 = 7;
pub const RECORD: u8 = 8;
pub const WORK: u8 = 9;
pub const SUBSET_TOO_LONG: u8 = 10;
pub const NO_ROOM: u8 = 11;
pub const STRING_IDS: u8 = 12;
pub const PAIRS: u8 = 13;

/// The longest new name, and the largest new string id.
pub const LONGEST_NAME: usize = 65_535;
pub const LARGEST_ID: usize = 64_999;

/// The top DICT's six string entries.
const TOP_STRINGS: [u16; 6] = [
    op::VERSION,
    op::NOTICE,
    op::COPYRIGHT,
    op::FULL_NAME,
    op::FAMILY_NAME,
    op::WEIGHT,
];

/// What is asked of a font.
#[derive(Clone, Debug)]
pub struct Cut {
    /// By which entry.
    pub cid_keyed: bool,
    pub name: Vec<u8>,
    pub keep: Vec<u16>,
    pub record: Vec<u8>,
    pub flag: u8,
    /// What the record is.
    pub record_kind: &'static str,
    /// Whether the font's encoding is asked for: not by 0, and not of `cff_subset_cid`. Document 02, Wish 4.
    pub encoding: u8,
}

/// What is lent to a call.
#[derive(Clone, Copy, Debug)]
pub struct Lent {
    pub work: usize,
    pub room: usize,
    /// Words for the answer.
    pub words: usize,
}

/// The words of an answer.
pub const WORDS: usize = 2;

/// A subset and its way.
#[derive(Clone, Debug, PartialEq, Eq)]
pub struct Subset {
    pub way: u8,
    pub bytes: Vec<u8>,
}

/// What a cut comes to before anything is lent.
pub enum Outcome {
    /// Refused before the work words are counted.
    Early(u8),
    /// Work words, and then a subset or refusal 12, 13 or 10.
    Ready(u64, Result<Subset, u8>),
    /// The original panics, or the model has no subset.
    Panicked(String),
}

/// A call's answer, and how many of the work words end as zeros.
pub struct Answer<'a> {
    pub subset: Result<&'a Subset, u8>,
    pub zeros: u64,
}

impl Outcome {
    /// The same of a call that asks for so many work words.
    pub fn asking(self, work: u64) -> Outcome {
        match self {
            Outcome::Ready(_, subset) => Outcome::Ready(work, subset),
            other => other,
        }
    }

    /// What a call answers with so much lent.
    pub fn answer(&self, lent: Lent) -> Answer<'_> {
        match self {
            Outcome::Early(number) => Answer {
                subset: Err(*number),
                zeros: 0,
            },
            Outcome::Ready(work, _) if (lent.work as u64) < *work => Answer {
                subset: Err(WORK),
                zeros: 0,
            },
            Outcome::Ready(work, subset) => Answer {
                zeros: *work,
                subset: match subset {
                    Err(number) => Err(*number),
                    Ok(s) if s.bytes.len() > lent.room || lent.words < WORDS => Err(NO_ROOM),
                    Ok(s) => Ok(s),
                },
            },
            Outcome::Panicked(message) => panic!("{message}"),
        }
    }
}

/// The glyphs kept: glyph 0 and those listed.
pub fn glyphs(keep: &[u16]) -> BTreeSet<u16> {
    keep.iter().copied().chain([0]).collect()
}

/// The cut of a font that is read, or refused by this number; the program where the original reads it. The subset is the
/// original's.
pub fn cut(
    bytes: &[u8],
    read: Result<&Font, u8>,
    program: Option<&CffProgram>,
    cut: &Cut,
) -> Outcome {
    outcome(bytes, read, program, cut, NONE, |_| {
        let program = program.expect("a font that both read");
        if own_strings(program, cut) + STANDARD_STRINGS.len() > LARGEST_ID + 1 {
            return Ok(Err(STRING_IDS));
        }
        original::caught(|| Ok(written(program, cut)))
    })
}

/// The same by wishes, the subset being the model's: outside the domain of the comparison with the original, which then need not
/// read the font.
pub fn by_model(
    bytes: &[u8],
    read: Result<&Font, u8>,
    program: Option<&CffProgram>,
    cut: &Cut,
    wishes: Wishes,
) -> Outcome {
    outcome(bytes, read, program, cut, wishes, |font| {
        cut_model::cut(bytes, font, cut, wishes).ok_or("the model gives none".to_string())
    })
}

fn outcome(
    bytes: &[u8],
    read: Result<&Font, u8>,
    program: Option<&CffProgram>,
    cut: &Cut,
    wishes: Wishes,
    subset: impl FnOnce(&Font) -> Result<Result<Subset, u8>, String>,
) -> Outcome {
    let font = match read {
        Err(number) => return Outcome::Early(number),
        Ok(font) => font,
    };
    if let Some(number) = early(bytes, font, program, cut, wishes) {
        return Outcome::Early(number);
    }
    let subset = match subset(font) {
        Err(message) => return Outcome::Panicked(message),
        Ok(Ok(s)) if s.bytes.len() > LONGEST => Err(SUBSET_TOO_LONG),
        Ok(answer) => answer,
    };
    Outcome::Ready(font.work(), subset)
}

/// The refusals from wrong keying to a malformed record, in their order.
fn early(
    bytes: &[u8],
    font: &Font,
    program: Option<&CffProgram>,
    cut: &Cut,
    wishes: Wishes,
) -> Option<u8> {
    if font.cid_keyed != cut.cid_keyed {
        return Some(UNSUPPORTED);
    }
    // Document 02, Wish 11: directly after the keying.
    if wishes.contains(&11) && font.stroked {
        return Some(UNSUPPORTED);
    }
    // Wish 4: the Expert encoding is refused as before where it is not asked for.
    if font.encoding == EXPERT && cut.encoding == 0 {
        return Some(UNSUPPORTED);
    }
    let has_ros = || match program {
        Some(program) => program.ros().is_some(),
        None => cut_model::has_ros(bytes, font),
    };
    if font.cid_keyed && !has_ros() {
        return Some(MALFORMED);
    }
    if cut.name.len() > LONGEST_NAME {
        return Some(TOO_LONG);
    }
    if cut
        .keep
        .iter()
        .any(|&k| usize::from(k) >= font.charset.len())
    {
        return Some(NO_SUCH_ITEM);
    }
    let is_found = |&k: &u16| match program {
        Some(program) => found(bytes, font, program, k),
        None => font.first(bytes, font.charset[usize::from(k)]) == Some(k),
    };
    if !cut.keep.iter().all(is_found) {
        return Some(NOT_FOUND);
    }
    if !record::sound(&cut.record, cut.flag, font.cid_keyed) {
        return Some(RECORD);
    }
    None
}

/// Whether finding gives this glyph for its own name or CID. The model looks through the charset, which is long for a long
/// one; there the original's table answers.
pub fn found(bytes: &[u8], font: &Font, program: &CffProgram, glyph: u16) -> bool {
    let id = font.charset[usize::from(glyph)];
    let first = if font.cid_keyed {
        program.gid_of_cid(id)
    } else if font.charset.len() < 1000 {
        font.find_name(bytes, font.text(bytes, id))
    } else {
        program.gid(font.text(bytes, id))
    };
    first == Some(glyph)
}

/// How many strings of its own the subset has.
fn own_strings(program: &CffProgram, cut: &Cut) -> usize {
    let mut texts: BTreeSet<&[u8]> = BTreeSet::new();
    let ros = program.ros();
    if let Some(ros) = &ros {
        texts.insert(&ros.registry);
        texts.insert(&ros.ordering);
    }
    texts.extend(
        TOP_STRINGS
            .iter()
            .filter_map(|&entry| program.top_string(entry)),
    );
    if !cut.cid_keyed {
        texts.extend(
            glyphs(&cut.keep)
                .iter()
                .filter_map(|&k| program.glyph_name(k)),
        );
    }
    for standard in STANDARD_STRINGS {
        texts.remove(standard.as_bytes());
    }
    texts.len()
}

/// The original's subset by the record: the copy of its writer with the record in the place of its trace. A record that is
/// the original's own must give what the original gives.
fn written(program: &CffProgram, cut: &Cut) -> Subset {
    let kept = glyphs(&cut.keep);
    let given = || match cut.flag {
        0 => Given::Failed,
        _ => Given::Rows(record::rows(&cut.record)),
    };
    let way = hooked::with(given(), || hooked::write::way(program, &kept));
    let bytes = hooked::with(given(), || {
        if cut.cid_keyed {
            hooked::write::subset_cid(program, &cut.name, &cids(program, &kept))
        } else {
            hooked::write::subset(program, &cut.name, &names(program, &kept))
        }
    });
    let bytes = bytes.expect("a subset of the right keying");
    if cut.record_kind == OWN {
        let theirs = if cut.cid_keyed {
            write::subset_cid(program, &cut.name, &cids(program, &kept))
        } else {
            write::subset(program, &cut.name, &names(program, &kept))
        };
        assert!(
            theirs.is_ok_and(|t| t == bytes),
            "the copy differs from the original"
        );
    }
    Subset { way, bytes }
}

/// The record is what the original's trace gives.
pub const OWN: &str = "the original's trace";

fn names(program: &CffProgram, kept: &BTreeSet<u16>) -> BTreeSet<Vec<u8>> {
    let name = |&k| program.glyph_name(k).map(<[u8]>::to_vec);
    kept.iter().filter_map(name).collect()
}

fn cids(program: &CffProgram, kept: &BTreeSet<u16>) -> BTreeSet<u16> {
    kept.iter()
        .map(|&k| program.charset()[usize::from(k)])
        .collect()
}
