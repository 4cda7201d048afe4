//! What the calls are given: files, keep lists, names, records. All come from a seed and a number.

use crate::otf;
use made_fonts::cases::mixed;
use made_fonts::generator::Generator;
use made_fonts::{blocking_cases, damage, fonts, model};

/// Inputs of a family: one made font and its damaged copies, with other keep lists, names and records each.
pub const FAMILY: u64 = 10;

/// The bytes of a row of a record.
pub const ROW: usize = 10;

/// A made font, as it is, and where its parts start.
pub struct Family {
    number: u64,
    font: Vec<u8>,
    marks: Vec<usize>,
}

impl Family {
    pub fn new(seed: u64, number: u64) -> Family {
        let mut g = Generator::new(mixed(seed ^ 0x51ab_83fe_0c74_66d9, number));
        let font = made(&mut g);
        let marks = match g.below(3) {
            0 => model::read(&font, made_fonts::domain::NONE).marks,
            _ => Vec::new(),
        };
        Family {
            number,
            font,
            marks,
        }
    }

    /// The family of an input, made anew where it is another.
    pub fn of_input(kept: Option<Family>, seed: u64, input: u64) -> Family {
        let number = input / FAMILY;
        kept.filter(|family| family.number == number)
            .unwrap_or_else(|| Family::new(seed, number))
    }

    /// The file of an input: a font or a damaged copy, bare or in an OpenType file.
    pub fn file(&self, g: &mut Generator) -> Vec<u8> {
        let mut font = self.font.clone();
        for _ in 0..[0, 0, 0, 1, 1, 2][g.below(6)] {
            font = damage::damaged(g, &font, &self.marks).1;
        }
        if g.once_in(3) {
            font = otf::file(g, &font);
        }
        if g.once_in(200) {
            let n = g.below(80);
            font = g.bytes(n);
        }
        font
    }
}

/// A font of one of the kinds that tools/compare makes.
fn made(g: &mut Generator) -> Vec<u8> {
    match g.below(10) {
        0 => fonts::make(g).bytes,
        1 | 2 => fonts::make_coded(g).bytes,
        3 | 4 => {
            let mut some = blocking_cases::fonts(g.word());
            let skipped = g.below(8);
            some.nth(skipped).expect("fonts without an end").bytes
        }
        _ => fonts::make_to_cut(g).bytes,
    }
}

/// Numbers of glyphs to keep: none, some, all, with repeats, and now and then past the font.
pub fn keep(g: &mut Generator, glyphs: u64) -> Vec<u16> {
    let glyphs = glyphs.clamp(1, 65_536) as usize;
    let count = match g.below(10) {
        0 => 0,
        1 => 1,
        2 => glyphs.min(40) + g.below(4),
        _ => 1 + g.below(glyphs.min(12)),
    };
    let mut keep: Vec<u16> = (0..count).map(|_| g.below(glyphs) as u16).collect();
    match g.below(12) {
        0 => keep.sort_unstable(),
        1 => keep.extend(0..glyphs.min(300) as u16),
        2 => keep.extend(keep.clone()),
        _ => {}
    }
    if g.once_in(20) {
        let past = g.one_of(&[glyphs, glyphs + 1, 65_535]).min(65_535) as u16;
        let at = g.below(keep.len() + 1);
        keep.insert(at, past);
    }
    keep
}

/// A new name: short, none, around 255 bytes, or around the longest.
pub fn name(g: &mut Generator) -> Vec<u8> {
    let n = match g.below(400) {
        0 => 65_535,
        1 => 65_536 + g.below(2),
        2..=9 => 253 + g.below(5),
        10..=40 => 0,
        _ => 1 + g.below(20),
    };
    (0..n).map(|k| b'A' + (k % 26) as u8).collect()
}

/// A record and its flag, made of what was traced: as it is, in another order, with rows left out, twice or of another kind, cut off,
/// or any bytes.
pub fn record(g: &mut Generator, traced: &[u8], flag: u8) -> (Vec<u8>, u8) {
    let mut rows: Vec<Vec<u8>> = traced.chunks(ROW).map(<[u8]>::to_vec).collect();
    match g.below(16) {
        0..=5 => return (traced.to_vec(), flag),
        6 | 7 => shuffle(g, &mut rows),
        8 if !rows.is_empty() => {
            rows.remove(g.below(rows.len()));
        }
        9 if !rows.is_empty() => {
            let again = rows[g.below(rows.len())].clone();
            rows.push(again);
        }
        10 => {
            for _ in 0..1 + g.below(4) {
                let row = row(g);
                let at = g.below(rows.len() + 1);
                rows.insert(at, row);
            }
        }
        11 if !rows.is_empty() => {
            let at = g.below(rows.len());
            rows[at][g.below(ROW)] ^= 1 << g.below(8);
        }
        12 => {
            let mut bytes = rows.concat();
            bytes.truncate(g.below(bytes.len() + 1));
            return (bytes, flag);
        }
        13 => {
            let n = g.below(45);
            return (g.bytes(n), g.below(3) as u8);
        }
        14 => return (Vec::new(), g.one_of(&[0, 1, 2, 255])),
        _ => return (rows.concat(), g.one_of(&[0, 1, 2, 255])),
    }
    (rows.concat(), 1)
}

fn shuffle<T>(g: &mut Generator, list: &mut [T]) {
    for k in (1..list.len()).rev() {
        let l = g.below(k + 1);
        list.swap(k, l);
    }
}

/// A row that is nearly always well-formed.
fn row(g: &mut Generator) -> Vec<u8> {
    let kind = g.one_of(&[0, 0, 1, 1, 2, 3, 4, 5]);
    let fd = if g.once_in(4) { g.below(4) as u8 } else { 0 };
    let number = g.one_of(&[0, 1, 2, 3, 5, 106, 107, 255, 1238, 65_535]) as u16;
    let (offset, length) = match kind {
        0 | 1 => (0, 0),
        _ => (g.below(30) as u32, g.one_of(&[0, 1, 2, 3, 12, 65_535])),
    };
    let mut row = vec![kind, fd];
    row.extend(number.to_be_bytes());
    row.extend(offset.to_be_bytes());
    row.extend((length as u16).to_be_bytes());
    row
}

/// How many elements are lent where so many are needed: none, one, one less, as many, one more, or others.
pub fn lent(g: &mut Generator, needed: usize) -> usize {
    match g.below(10) {
        0 => 0,
        1 => 1,
        2 | 3 => needed.saturating_sub(1),
        4..=6 => needed,
        7 => needed + 1,
        8 => g.below(needed + 1),
        _ => needed + g.below(100),
    }
}

/// What is given to `next_charstring`: nothing, a short charstring as a rule, or any bytes.
pub fn charstring(g: &mut Generator) -> Vec<u8> {
    match g.below(6) {
        0 => Vec::new(),
        1 => {
            let n = g.below(7);
            g.bytes(n)
        }
        _ => {
            let n = g.below(4);
            let mut code: Vec<u8> = (0..n)
                .map(|_| g.one_of(&[22, 21, 4, 32, 139, 246, 247, 254, 28, 12, 34, 255, 1, 19]))
                .collect();
            code.push(14);
            code
        }
    }
}
