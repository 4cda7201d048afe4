//! The glyphs that the words of the command line select.

use crate::args::Keep;
use crate::cmap::Cmap;
use crate::failure::Failure;
use crate::output;
use crate::warn;
use mogdivash::Font;
use std::collections::{BTreeMap, BTreeSet};
use std::path::Path;

/// Glyphs, each with the words by which it was selected first.
pub type Selection = BTreeMap<u16, String>;

/// A font and its file.
#[derive(Clone, Copy)]
pub struct Source<'a> {
    pub font: Font<'a>,
    pub file: &'a [u8],
    pub path: &'a Path,
}

pub fn select(source: &Source, keep: &[Keep]) -> Result<Selection, Failure> {
    let mut all = Selection::new();
    for part in keep {
        match part {
            Keep::Text(text) => letters(source, text, &mut all)?,
            Keep::TextFile(path) => letters(source, &text_of(path)?, &mut all)?,
            Keep::Glyphs(glyphs) => numbered(source, glyphs, &mut all)?,
            Keep::Names(names) => named(source, names, &mut all)?,
            Keep::Cids(cids) => by_cid(source, cids, &mut all)?,
        }
    }
    Ok(all)
}

fn text_of(path: &Path) -> Result<String, Failure> {
    let text = String::from_utf8(output::file_bytes(path)?);
    text.map_err(|_| Failure::work(format!("{}: not UTF-8", path.display())))
}

/// A character as a reader sees it and by its number.
fn shown(letter: char) -> String {
    format!("{letter:?} (U+{:04X})", letter as u32)
}

/// The glyphs of a text. Control characters, ends of lines among them, and the mark at the start of a file have none.
fn letters(source: &Source, text: &str, all: &mut Selection) -> Result<(), Failure> {
    let name = source.path.display();
    let cmap = Cmap::of_file(source.file).ok_or_else(|| {
        Failure::work(format!(
            "{name}: text needs an OpenType file with a table cmap; for another use --glyphs, --names or --cids"
        ))
    })?;
    let letters: BTreeSet<char> = text
        .chars()
        .filter(|letter| !letter.is_control() && *letter != '\u{feff}')
        .collect();
    let mut missing = Vec::new();
    for &letter in &letters {
        match cmap.glyph(letter) {
            Some(glyph) => {
                all.entry(glyph).or_insert_with(|| shown(letter));
            }
            None => missing.push(shown(letter)),
        }
    }
    if !missing.is_empty() {
        warn(&format!("{name} has no glyph for {}", missing.join(", ")));
    }
    if missing.len() == letters.len() && !letters.is_empty() {
        return Err(Failure::work(format!("{name} has no glyph of the text")));
    }
    Ok(())
}

fn numbered(source: &Source, glyphs: &[u16], all: &mut Selection) -> Result<(), Failure> {
    let count = source.font.glyphs();
    for &glyph in glyphs {
        if u64::from(glyph) >= count {
            let name = source.path.display();
            return Err(Failure::work(format!(
                "{name}: no glyph {glyph}: there are {count}, from 0 on"
            )));
        }
        all.entry(glyph).or_insert_with(|| format!("glyph {glyph}"));
    }
    Ok(())
}

fn named(source: &Source, names: &[String], all: &mut Selection) -> Result<(), Failure> {
    if source.font.is_cid_keyed() {
        let name = source.path.display();
        return Err(Failure::work(format!(
            "{name}: a CID-keyed font has no names of glyphs: use --cids"
        )));
    }
    for (name, glyph) in names.iter().zip(source.font.find_names(names)) {
        let glyph = glyph.ok_or_else(|| absent(source, name))?;
        all.entry(glyph).or_insert_with(|| name.clone());
    }
    Ok(())
}

fn by_cid(source: &Source, cids: &[u16], all: &mut Selection) -> Result<(), Failure> {
    if !source.font.is_cid_keyed() {
        let name = source.path.display();
        return Err(Failure::work(format!(
            "{name}: a name-keyed font has no CIDs: use --names"
        )));
    }
    for (cid, glyph) in cids.iter().zip(source.font.find_cids(cids)) {
        let shown = format!("CID {cid}");
        let glyph = glyph.ok_or_else(|| absent(source, &shown))?;
        all.entry(glyph).or_insert(shown);
    }
    Ok(())
}

fn absent(source: &Source, what: &str) -> Failure {
    Failure::work(format!("{}: no glyph {what}", source.path.display()))
}
