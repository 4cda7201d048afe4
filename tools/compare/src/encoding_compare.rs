//! Subsets with the font's encoding compared (document 02, Wish 4): the library against the model; the codes of the subset, as the
//! original and the model read it, against those of the font.

use crate::cases::{Case, mixed};
use crate::cff::CffProgram;
use crate::compare::MEMORY;
use crate::cut::{self, Cut, Outcome};
use crate::cut_compare::{self, Opened, agrees, differ, lents, modelled};
use crate::cut_model_codes::{self as codes, By};
use crate::cut_tally::CutTally;
use crate::domain::{NONE, WISHES};
use crate::generator::Generator;
use crate::library::Library;
use crate::model::{self, EXPERT, Font, STANDARD};
use crate::original;
use std::collections::{BTreeMap, BTreeSet};

/// What the encodings have of which a subset was given, and what else is counted.
#[derive(Default)]
pub struct Notes {
    counts: BTreeMap<&'static str, u64>,
}

impl Notes {
    fn add(&mut self, what: &'static str, n: u64) {
        *self.counts.entry(what).or_default() += n;
    }

    pub fn report(&self) -> String {
        let line = |(what, n): (&&str, &u64)| format!("{n:10} {what}\n");
        let lines: String = self.counts.iter().map(line).collect();
        format!("\nEncodings that were asked for\n{lines}")
    }
}

/// Names of glyphs by code.
type Names = Vec<Option<Vec<u8>>>;

pub fn compare(
    library: &Library,
    case: &Case,
    seed: u64,
    tally: &mut CutTally,
    notes: &mut Notes,
    asks: &cut_compare::Asks<'_>,
) {
    let before = model::read(&case.font, NONE);
    if before.memory > MEMORY {
        return;
    }
    let reading = model::read(&case.font, WISHES);
    let read = reading.font.as_ref().map_err(|r| r.number);
    let program = program(&case.font);
    let opened = Opened {
        bytes: &case.font,
        read,
        program: program.as_ref(),
    };
    if let (Ok(font), original::Outcome::Program(program)) = (read, original::read(&case.font)) {
        let message = unlike(&case.font, font, &program, notes);
        if let Some(message) = message {
            let cut = nothing_asked();
            differ(case, seed, &cut, "nothing", message, tally);
        }
    }
    let file = case.file.bytes().fold(4, |n, b| mixed(n, u64::from(b)));
    let mut g = Generator::new(mixed(seed ^ file, case.number as u64));
    for cut in asks(&mut g, &opened) {
        let cut = Cut {
            encoding: g.one_of(&[1, 1, 1, 2, 128, 255]),
            ..cut
        };
        if read.is_ok_and(|font| !modelled(font, &cut)) {
            notes.add("cuts not asked, for their size", 1);
            continue;
        }
        let outcome = cut::by_model(&case.font, read, opened.program, &cut, WISHES);
        if let Outcome::Panicked(message) = &outcome {
            differ(case, seed, &cut, "nothing", message.clone(), tally);
            continue;
        }
        let outcome = outcome.asking(read.map_or(0, library.work));
        for lent in lents(&mut g, &outcome) {
            let want = outcome.answer(lent);
            tally.call((case.kind, case.state), &cut, &want);
            if let Err(message) = agrees(library, &case.font, &cut, lent, &want) {
                differ(case, seed, &cut, &format!("{lent:?}"), message, tally);
            }
        }
        if let (Outcome::Ready(_, answer), Ok(font)) = (&outcome, read)
            && !font.cid_keyed
        {
            note(&case.font, font, &cut, notes);
            match answer {
                Err(_) => notes.add("cuts refused by 12, 13 or 10", 1),
                Ok(subset) => {
                    if let Err(message) = kept(&case.font, font, &cut, &subset.bytes, notes) {
                        differ(case, seed, &cut, "nothing", message, tally);
                    }
                }
            }
        }
    }
}

fn nothing_asked() -> Cut {
    Cut {
        cid_keyed: false,
        name: Vec::new(),
        keep: Vec::new(),
        record: Vec::new(),
        flag: 0,
        record_kind: "no rows",
        encoding: 0,
    }
}

/// The original's program of a font; of one with the Expert encoding, which it refuses, that of the font without its Encoding
/// entries. It helps to make cuts and says nothing of codes.
fn program(bytes: &[u8]) -> Option<CffProgram> {
    let without = || model::without_encoding(bytes);
    for font in [Some(bytes.to_vec()), without()].into_iter().flatten() {
        if let original::Outcome::Program(program) = original::read(&font) {
            return Some(program);
        }
    }
    None
}

/// Where the model's codes of a font and the original's differ, supplements being taken by their ids, as the original does. The
/// original leaves codes with `.notdef` in the standard encoding without a glyph.
fn unlike(bytes: &[u8], font: &Font, program: &CffProgram, notes: &mut Notes) -> Option<String> {
    if font.cid_keyed || program.is_cid_keyed() {
        return None;
    }
    notes.add("fonts whose codes the original gives as the model does", 1);
    let mine = codes::of(bytes, font, By::Id);
    if font.encoding > EXPERT && mine != codes::of(bytes, font, By::String) {
        notes.add("fonts with a supplement that only its string names", 1);
    }
    differing(font.encoding, &mine, &program.encoding())
        .map(|code| format!("code {code}: the model and the original differ in the font"))
}

/// The first code for which two maps differ.
fn differing<T: PartialEq>(
    encoding: u64,
    mine: &[Option<T>],
    theirs: &[Option<T>],
) -> Option<usize> {
    let ids = codes::predefined(encoding);
    let told = |code: &usize| encoding != STANDARD || ids[*code] != 0;
    let unlike = |code: &usize| {
        if told(code) {
            mine[*code] != theirs[*code]
        } else {
            theirs[*code].is_some()
        }
    };
    (0..codes::CODES).find(unlike)
}

/// Whether each code whose glyph is kept has the glyph of its name in the subset, and no other code has any.
fn kept(
    bytes: &[u8],
    font: &Font,
    cut: &Cut,
    subset: &[u8],
    notes: &mut Notes,
) -> Result<(), String> {
    let kept: BTreeSet<u16> = cut::glyphs(&cut.keep);
    let name = |glyph: u16| font.text(bytes, font.charset[usize::from(glyph)]).to_vec();
    let wanted: Names = codes::of(bytes, font, By::String)
        .into_iter()
        .map(|glyph| glyph.filter(|g| kept.contains(g)).map(name))
        .collect();
    notes.add(
        "codes with a kept glyph",
        wanted.iter().flatten().count() as u64,
    );
    let reading = model::read(subset, WISHES);
    let Ok(cut_font) = &reading.font else {
        return Err("the model does not read the subset".to_string());
    };
    let name = |glyph: u16| {
        cut_font
            .text(subset, cut_font.charset[usize::from(glyph)])
            .to_vec()
    };
    let got: Names = codes::of(subset, cut_font, By::String)
        .into_iter()
        .map(|glyph| glyph.map(name))
        .collect();
    if let Some(code) = (0..codes::CODES).find(|&c| wanted[c] != got[c]) {
        return Err(format!(
            "code {code} of the subset by the model: {:?}, wanted {:?}",
            got[code], wanted[code]
        ));
    }
    match original::read(subset) {
        original::Outcome::Program(program) => {
            let theirs: Names = program
                .encoding()
                .iter()
                .map(|glyph| glyph.and_then(|g| program.glyph_name(g).map(<[u8]>::to_vec)))
                .collect();
            if let Some(code) = differing(font.encoding, &wanted, &theirs) {
                return Err(format!(
                    "code {code} of the subset by the original: {:?}",
                    theirs[code]
                ));
            }
            notes.add("subsets whose codes the original gives", 1);
        }
        _ if font.encoding == EXPERT => notes.add("subsets with the Expert encoding", 1),
        _ => return Err("the original does not read the subset".to_string()),
    }
    Ok(())
}

/// What a font's encoding has.
fn note(bytes: &[u8], font: &Font, cut: &Cut, notes: &mut Notes) {
    match font.encoding {
        STANDARD => return notes.add("cuts, Standard", 1),
        EXPERT => return notes.add("cuts, Expert", 1),
        _ => {}
    }
    let table = &bytes[font.encoding as usize..];
    let (format, count) = (table[0], usize::from(table[1]));
    notes.add(
        ["cuts, format 0", "cuts, format 1"][usize::from(format & 1)],
        1,
    );
    if format & 0x80 != 0 {
        notes.add("cuts, supplements", 1);
    }
    if format & 1 == 1
        && table[2..2 + 2 * count]
            .chunks(2)
            .any(|r| usize::from(r[0]) + usize::from(r[1]) > 255)
    {
        notes.add("cuts, a range past 255", 1);
    }
    let namings = codes::namings(bytes, font, By::String);
    let mut seen: BTreeMap<usize, u16> = BTreeMap::new();
    let (mut twice, mut past, mut absent, mut beyond, mut first) =
        (false, false, false, false, false);
    let strings = 391 + font.strings.count;
    for naming in &namings {
        match naming.glyph {
            Some(glyph) => {
                twice |= seen.insert(naming.code, glyph).is_some_and(|g| g != glyph);
                first |= glyph == 0;
            }
            None if naming.id.is_none() => past = true,
            None => absent = true,
        }
        beyond |= naming.id.is_some_and(|id| usize::from(id) >= strings);
    }
    let kept = cut::glyphs(&cut.keep);
    let pairs = seen.values().filter(|g| kept.contains(g)).count();
    for (has, what) in [
        (twice, "cuts, a code of two glyphs"),
        (past, "cuts, a number past the font"),
        (absent, "cuts, a supplement of no glyph"),
        (beyond, "cuts, a supplement's id past the strings"),
        (first, "cuts, glyph 0 by a supplement"),
        (seen.len() > pairs, "cuts, a code whose glyph is not kept"),
        (pairs == 0, "cuts, no pair"),
        (pairs == 255, "cuts, 255 pairs"),
        (pairs == 256, "cuts, 256 pairs"),
    ] {
        notes.add(what, u64::from(has));
    }
}
