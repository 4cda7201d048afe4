//! The glyphs to keep: a result sheet's letters, or all.

use crate::cff::CffProgram;

/// Names of the glyphs of a result sheet: letters, digits and signs, 75 in all.
pub fn names() -> Vec<String> {
    let letters = ('A'..='Z').chain('a'..='z').map(String::from);
    let words = "zero one two three four five six seven eight nine space period comma hyphen colon parenleft parenright \
                 quoteright slash plus aacute eacute odieresis";
    letters.chain(words.split(' ').map(String::from)).collect()
}

/// Whether finding gives this glyph, so that it can be kept.
fn found(program: &CffProgram, glyph: u16) -> bool {
    if program.is_cid_keyed() {
        program.gid_of_cid(program.charset()[usize::from(glyph)]) == Some(glyph)
    } else {
        program
            .glyph_name(glyph)
            .is_some_and(|name| program.gid(name) == Some(glyph))
    }
}

/// The sheet's letters by name; of a CID-keyed font 75 glyphs spread over it.
pub fn letters(program: &CffProgram) -> Vec<u16> {
    let keep: Vec<u16> = if program.is_cid_keyed() {
        let glyphs = program.charset().len();
        let step = (glyphs / 75).max(1);
        (1..glyphs)
            .step_by(step)
            .take(75)
            .map(|k| k as u16)
            .collect()
    } else {
        names()
            .iter()
            .filter_map(|name| program.gid(name.as_bytes()))
            .collect()
    };
    keep.into_iter().filter(|&k| found(program, k)).collect()
}

/// Every glyph that finding gives.
pub fn all(program: &CffProgram) -> Vec<u16> {
    (0..program.charset().len() as u16)
        .filter(|&k| found(program, k))
        .collect()
}
