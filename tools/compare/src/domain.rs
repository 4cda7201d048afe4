//! Where the library is compared with the original. Document 02 changes the answers to some fonts. They leave the domain of the
//! comparison, and there the model is the reference: it follows each wish by a switch.
//!
//! Inside, the library, the model with its switches on and the original must agree. Outside, the library must agree with the
//! model with its switches on, and the original with the model that has them off, which is document 01's.

use crate::cut::Cut;
use crate::model::{self, Reading};

/// Wishes of document 02 by their numbers: the switches of a model that are on.
pub type Wishes = &'static [u8];

/// The model of document 01.
pub const NONE: Wishes = &[];

/// The model of the library: the wishes that it follows.
pub const WISHES: Wishes = &[2, 4, 5, 11];

/// What is asked of a font: what reading gives, items and finding among it, or a subset.
#[derive(Clone, Copy, Debug, PartialEq, Eq)]
pub enum Call {
    Read,
    Subset,
}

/// What the model notes of fonts that a wish speaks of. PaintType and StrokeWidth are those of the first font's top DICT, and
/// stroked is a PaintType of one number other than 0.
pub const FIRST_OFFSET: &str = "first offset other than 1";
pub const PAINT_TYPE: &str = "PaintType";
pub const STROKED: &str = "stroked";
pub const STROKE_WIDTH: &str = "StrokeWidth";
pub const FD_MATRIX: &str = "FontMatrix in an FD";
pub const EXPERT: &str = "Expert encoding";

/// Whether a font is in the domain of the comparison with the original, when these wishes are followed. The reading is
/// document 01's.
pub fn inside(call: Call, reading: &Reading, wishes: Wishes) -> bool {
    let has = |note: &str| reading.notes.contains(note);
    // Wish 5, 'An INDEX begins at 1': "Fonts that break this leave the domain of the comparison with the Rust." Only an INDEX
    // that is read counts, with its offsets there, and its first one is looked at before its pairs.
    let begins_elsewhere = wishes.contains(&5) && has(FIRST_OFFSET);
    // Wish 11, 'Stroked fonts retired': "Comparison with the Rust keeps to fonts that have neither entry." Reading is as it was.
    let strokes =
        wishes.contains(&11) && call == Call::Subset && (has(PAINT_TYPE) || has(STROKE_WIDTH));
    // Wish 4, 'Keep the club's own codes': reading takes the Expert encoding, which the Rust does not. A subset of one font that does not
    // ask for it is refused by the Rust's number all the same; in a set another font may be the one that is refused.
    let expert = wishes.contains(&4) && has(EXPERT);
    !begins_elsewhere && !strokes && !expert
}

/// Whether a cut of a font in the domain is in it too. Wish 2, 'Letter size in CID fonts': "the Rust is the reference for fonts whose
/// used FDs have no FontMatrix".
pub fn inside_too(font: &[u8], reading: &Reading, cut: &Cut, wishes: Wishes) -> bool {
    let glyphs = match &reading.font {
        Ok(font) if wishes.contains(&2) && reading.notes.contains(FD_MATRIX) => font.charset.len(),
        _ => return true,
    };
    let Some(parts) = model::parts(font, glyphs) else {
        return true;
    };
    let sized = |&glyph: &u16| {
        let fd = parts.select.get(usize::from(glyph));
        fd.is_some_and(|&fd| matches!(parts.matrices.get(usize::from(fd)), Some(Some(_))))
    };
    !cut.keep.iter().chain([&0]).any(sized)
}

/// Notes with the wish that speaks of them. Few stored cases have one, so that a wish changes few lines.
const SPOKEN_OF: [(u8, &str); 6] = [
    (5, FIRST_OFFSET),
    (11, PAINT_TYPE),
    (11, STROKED),
    (11, STROKE_WIDTH),
    (2, FD_MATRIX),
    (4, EXPERT),
];

/// How much wishes have to say of a font.
pub enum Spoken {
    Nothing,
    /// One wish, of these notes.
    Once(String),
    Twice,
}

/// What wishes have to say of a font. The reading is document 01's; a font that it refuses is refused by Wishes 2 and 11 too.
pub fn spoken_of(reading: &Reading) -> Spoken {
    let says = |wish: u8| reading.font.is_ok() || [4, 5].contains(&wish);
    let said: Vec<(u8, &str)> = SPOKEN_OF
        .into_iter()
        .filter(|&(wish, note)| says(wish) && reading.notes.contains(note))
        .collect();
    let notes: Vec<&str> = said.iter().map(|s| s.1).collect();
    match said.first() {
        None => Spoken::Nothing,
        Some(first) if said.iter().all(|s| s.0 == first.0) => Spoken::Once(notes.join(", ")),
        Some(_) => Spoken::Twice,
    }
}
