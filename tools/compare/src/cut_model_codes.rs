//! The glyphs of codes, for the model of subsetting: TN5176, section 12 and appendix B, and document 02, Wish 4.

use crate::model::{EXPERT, Font, STANDARD};

/// How many codes there are.
pub const CODES: usize = 256;

/// A code of a glyph, the string id that a predefined encoding has for it, and how many follow each other in both.
type Run = (u8, u16, u8);

/// The predefined encodings. The other codes have id 0, `.notdef`.
const STANDARD_RUNS: [Run; 14] = [
    (32, 1, 95),
    (161, 96, 15),
    (177, 111, 4),
    (182, 115, 8),
    (191, 123, 1),
    (193, 124, 8),
    (202, 132, 2),
    (205, 134, 4),
    (225, 138, 1),
    (227, 139, 1),
    (232, 140, 4),
    (241, 144, 1),
    (245, 145, 1),
    (248, 146, 4),
];
const EXPERT_RUNS: [Run; 31] = [
    (32, 1, 1),
    (33, 229, 2),
    (36, 231, 8),
    (44, 13, 3),
    (47, 99, 1),
    (48, 239, 10),
    (58, 27, 2),
    (60, 249, 4),
    (65, 253, 5),
    (73, 258, 1),
    (76, 259, 4),
    (82, 263, 3),
    (86, 266, 1),
    (87, 109, 2),
    (89, 267, 3),
    (93, 270, 34),
    (161, 304, 3),
    (166, 307, 5),
    (172, 312, 1),
    (175, 313, 1),
    (178, 314, 2),
    (182, 316, 3),
    (188, 158, 1),
    (189, 155, 1),
    (190, 163, 1),
    (191, 319, 7),
    (200, 326, 1),
    (201, 150, 1),
    (202, 164, 1),
    (203, 169, 1),
    (204, 327, 52),
];

/// The string id of each code in a predefined encoding.
pub fn predefined(encoding: u64) -> [u16; CODES] {
    let runs: &[Run] = if encoding == EXPERT {
        &EXPERT_RUNS
    } else {
        &STANDARD_RUNS
    };
    let mut ids = [0; CODES];
    for &(code, id, count) in runs {
        for k in 0..count {
            ids[usize::from(code + k)] = id + u16::from(k);
        }
    }
    ids
}

/// How a supplement names its glyph: document 02 says by its string, the original by the string id.
#[derive(Clone, Copy, Debug, PartialEq, Eq)]
pub enum By {
    String,
    Id,
}

/// A code, and the glyph that it is given: none past the font, and none for a name that no glyph has.
pub struct Naming {
    pub code: usize,
    pub glyph: Option<u16>,
    /// The supplement's string id.
    pub id: Option<u16>,
}

/// What a font's own encoding says, in its order; codes above 255 are not among it.
pub fn namings(bytes: &[u8], font: &Font, by: By) -> Vec<Naming> {
    let table = &bytes[font.encoding as usize..];
    let (format, count) = (table[0], usize::from(table[1]));
    let mut out = Vec::new();
    let mut number = |code: usize, glyph: usize| {
        if code < CODES {
            let there = glyph < font.charset.len();
            out.push(Naming {
                code,
                glyph: there.then_some(glyph as u16),
                id: None,
            });
        }
    };
    let unit = usize::from(format & 0x7f) + 1;
    let rows = &table[2..2 + count * unit];
    let mut next = 1;
    for row in rows.chunks(unit) {
        let left = row.get(1).map_or(0, |&n| usize::from(n));
        for k in 0..=left {
            number(usize::from(row[0]) + k, next);
            next += 1;
        }
    }
    if format & 0x80 != 0 {
        let table = &table[2 + count * unit..];
        for row in table[1..][..3 * usize::from(table[0])].chunks(3) {
            let id = u16::from_be_bytes([row[1], row[2]]);
            let glyph = match by {
                By::String => font.first(bytes, id),
                By::Id => font.charset.iter().position(|&s| s == id).map(|k| k as u16),
            };
            out.push(Naming {
                code: usize::from(row[0]),
                glyph,
                id: Some(id),
            });
        }
    }
    out
}

/// The glyph of each code of a name-keyed font.
pub fn of(bytes: &[u8], font: &Font, by: By) -> Vec<Option<u16>> {
    if [STANDARD, EXPERT].contains(&font.encoding) {
        let glyph = |id| font.first(bytes, id);
        return predefined(font.encoding).into_iter().map(glyph).collect();
    }
    let mut codes = vec![None; CODES];
    for naming in namings(bytes, font, by) {
        if naming.glyph.is_some() {
            codes[naming.code] = naming.glyph;
        }
    }
    codes
}
