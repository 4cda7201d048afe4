//! OpenType files around a font: a directory, the table `CFF `, a table `cmap` of formats 4 and 12, others; some damaged.

use made_fonts::damage;
use made_fonts::generator::Generator;

/// The letters that made files have glyphs for, from glyph 1 on.
pub const LETTERS: [char; 12] = [
    'A',
    'B',
    'C',
    'a',
    'b',
    'e',
    'é',
    'Ж',
    '0',
    '€',
    '\u{1f600}',
    '\u{10ffff}',
];

fn words(words: &[u16]) -> Vec<u8> {
    words.iter().flat_map(|word| word.to_be_bytes()).collect()
}

/// Format 4: a segment for each letter of the first plane, and the last one, which must be there.
fn segments(g: &mut Generator) -> Vec<u8> {
    let mut letters: Vec<(u16, u16)> = Vec::new();
    for (k, &letter) in LETTERS.iter().enumerate() {
        if let Ok(code) = u16::try_from(letter as u32) {
            letters.push((code, k as u16 + 1));
        }
    }
    letters.sort_unstable();
    let n = letters.len() as u16 + 1;
    let mut out = words(&[4, 16 + 8 * n, 0, 2 * n, 0, 0, 0]);
    let codes: Vec<u16> = letters
        .iter()
        .map(|&(code, _)| code)
        .chain([65_535])
        .collect();
    out.extend(words(&codes));
    out.extend([0, 0]);
    out.extend(words(&codes));
    let deltas: Vec<u16> = letters
        .iter()
        .map(|&(code, glyph)| glyph.wrapping_sub(code))
        .chain([1])
        .collect();
    out.extend(words(&deltas));
    let offsets: Vec<u16> = (0..n)
        .map(|_| if g.once_in(12) { g.below(40) as u16 } else { 0 })
        .collect();
    out.extend(words(&offsets));
    out
}

/// Format 12: a group for each letter.
fn groups(g: &mut Generator) -> Vec<u8> {
    let mut out = words(&[12, 0]);
    let mut letters: Vec<(u32, u32)> = LETTERS
        .iter()
        .map(|&letter| letter as u32)
        .zip(1..)
        .collect();
    letters.sort_unstable();
    out.extend((16 + 12 * letters.len() as u32).to_be_bytes());
    out.extend([0; 4]);
    out.extend((letters.len() as u32).to_be_bytes());
    for (code, glyph) in letters {
        let last = if g.once_in(20) { u32::MAX } else { code };
        for number in [code, last, glyph] {
            out.extend(number.to_be_bytes());
        }
    }
    out
}

fn cmap(g: &mut Generator) -> Vec<u8> {
    let tables = match g.below(4) {
        0 => vec![segments(g)],
        1 => vec![groups(g)],
        _ => vec![segments(g), groups(g)],
    };
    let mut out = words(&[0, tables.len() as u16]);
    let mut at = 4 + 8 * tables.len() as u32;
    for table in &tables {
        let (platform, encoding) = g.one_of(&[(0, 3), (0, 4), (3, 1), (3, 10), (1, 0)]);
        out.extend(words(&[platform, encoding]));
        out.extend(at.to_be_bytes());
        at += table.len() as u32;
    }
    out.extend(tables.concat());
    out
}

/// A file around a font, seldom without one, its directory or its `cmap` damaged now and then.
pub fn file(g: &mut Generator, font: &[u8]) -> Vec<u8> {
    let mut tables = vec![(*b"CFF ", font.to_vec()), (*b"cmap", cmap(g))];
    for tag in [*b"head", *b"CFF2", *b"CFF "] {
        if g.once_in(6) {
            let n = g.below(9);
            tables.push((tag, g.bytes(n)));
        }
    }
    if g.once_in(30) {
        tables.remove(0);
    }
    if g.once_in(4) {
        tables.reverse();
    }
    if g.once_in(5) {
        let at = tables.iter().position(|(tag, _)| tag == b"cmap");
        let at = at.expect("a table cmap");
        tables[at].1 = damage::damaged(g, &tables[at].1, &[0, 4, 12, 20]).1;
    }
    let mut out = b"OTTO".to_vec();
    out.extend(words(&[tables.len() as u16, 0, 0, 0]));
    let mut at = 12 + 16 * tables.len() as u32;
    for (tag, table) in &tables {
        out.extend(tag);
        out.extend([0; 4]);
        out.extend(at.to_be_bytes());
        out.extend((table.len() as u32).to_be_bytes());
        at += table.len() as u32;
    }
    let directory = out.len();
    for (_, table) in tables {
        out.extend(table);
    }
    if g.once_in(10) {
        let at = g.below(directory);
        out[at] = g.byte();
    }
    if g.once_in(30) {
        out.truncate(g.below(out.len()));
    }
    out
}
