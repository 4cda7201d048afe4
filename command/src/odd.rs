//! Warnings of kept glyphs: of those that are not plain (document 01, 'Plain glyphs'), of which nothing is promised and for whose sake
//! all subroutines are copied, and of those for which a call is refused by 7.

use crate::composed;
use crate::failure::Failure;
use crate::selection::{Selection, Source};
use crate::warn;
use mogdivash::{Font, Item, Refusal};

/// So many are named; each costs some traces of a part of the glyphs.
const MOST: usize = 16;

/// What was found of glyphs of which one at least is not plain.
#[derive(Debug, PartialEq)]
enum Odd {
    /// Glyph 0, with which each trace begins: of the others it is not known.
    Zero,
    /// These, all or the first of them.
    Glyphs(Vec<u16>),
}

/// The glyphs of a list that are not plain, where the list was traced with flag 0.
fn odd(font: &Font, keep: &[u16]) -> Result<Odd, Refusal> {
    if !font.trace(&[])?.is_traced() {
        return Ok(Odd::Zero);
    }
    let mut found = Vec::new();
    let plain = |part: &[u16]| Ok(font.trace(part)?.is_traced());
    search(&plain, keep, &mut found)?;
    Ok(Odd::Glyphs(found))
}

/// The glyphs of a list for which `good` does not hold, where it holds of a list if it does of each glyph: the list is halved until
/// one glyph is left.
fn search(
    good: &impl Fn(&[u16]) -> Result<bool, Refusal>,
    part: &[u16],
    found: &mut Vec<u16>,
) -> Result<(), Refusal> {
    if found.len() >= MOST || good(part)? {
        return Ok(());
    }
    if let [glyph] = part {
        found.push(*glyph);
        return Ok(());
    }
    let (left, right) = part.split_at(part.len() / 2);
    search(good, left, found)?;
    search(good, right, found)
}

/// Glyphs by the words that selected them.
fn shown(kept: &Selection, glyphs: &[u16]) -> String {
    let words: Vec<&str> = glyphs.iter().map(|glyph| kept[glyph].as_str()).collect();
    let more = match words.len() {
        MOST => " and perhaps others",
        _ => "",
    };
    format!("{}{more}", words.join(", "))
}

/// Names the kept glyphs for which a call is refused by 7: another glyph before them has their name or CID.
pub fn warn_of_unfound(font: &Font, kept: &Selection, keep: &[u16]) {
    let mut found = Vec::new();
    let good = |part: &[u16]| Ok(!matches!(font.trace(part), Err(Refusal::NotFound)));
    if search(&good, keep, &mut found).is_ok() && !found.is_empty() {
        let shown = shown(kept, &found);
        warn(&format!("an earlier glyph has the name or CID of: {shown}"));
    }
}

/// Names the kept glyphs that are not plain, and of those composed of others the parts, which must be kept too.
pub fn warn_of(source: &Source, kept: &Selection, keep: &[u16]) -> Result<(), Failure> {
    let font = &source.font;
    let odd = odd(font, keep).map_err(|refusal| Failure::refused(source.path, refusal))?;
    let glyphs = match odd {
        Odd::Zero => {
            warn(
                "glyph 0 is not plain: nothing is known of the others, and a subset has all subroutines",
            );
            return Ok(());
        }
        Odd::Glyphs(glyphs) => glyphs,
    };
    let shown = shown(kept, &glyphs);
    warn(&format!(
        "not plain: {shown}: nothing is promised of these, and a subset with them has all subroutines"
    ));
    for glyph in glyphs {
        warn_of_parts(font, kept, glyph);
    }
    Ok(())
}

fn warn_of_parts(font: &Font, kept: &Selection, glyph: u16) {
    let charstring = font.item(Item::Charstring(glyph.into()));
    let Some(parts) = charstring.ok().and_then(composed::parts) else {
        return;
    };
    let is_kept = |name: &str| {
        let part = font.find_name(name.as_bytes());
        part.is_some_and(|part| kept.contains_key(&part))
    };
    let missing: Vec<&str> = parts.into_iter().filter(|name| !is_kept(name)).collect();
    let [base, accent] = parts;
    let advice = match missing.as_slice() {
        [] => "both are kept".to_owned(),
        missing => format!("keep too: --names {}", missing.join(",")),
    };
    let name = &kept[&glyph];
    warn(&format!(
        "{name} is composed of {base} and {accent}; {advice}"
    ));
}
