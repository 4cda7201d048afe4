//! Small fonts for tests: one with subroutines and masks, one with codes of its own, one with CIDs in any order.
#![allow(dead_code)]

use mogdivash::Row;

/// An INDEX with offsets of one byte.
pub fn index(items: &[&[u8]]) -> Vec<u8> {
    let mut out = (items.len() as u16).to_be_bytes().to_vec();
    if items.is_empty() {
        return out;
    }
    out.extend([1, 1]);
    let mut offset = 1;
    for item in items {
        offset += item.len() as u8;
        out.push(offset);
    }
    out.extend(items.concat());
    out
}

/// An INDEX with offsets of four bytes.
pub fn long_index(items: &[Vec<u8>]) -> Vec<u8> {
    let mut out = (items.len() as u16).to_be_bytes().to_vec();
    out.push(4);
    let mut offset: u32 = 1;
    out.extend(offset.to_be_bytes());
    for item in items {
        offset += item.len() as u32;
        out.extend(offset.to_be_bytes());
    }
    out.extend(items.concat());
    out
}

/// The five-byte form of a DICT's integer.
pub fn number(value: usize) -> Vec<u8> {
    let mut out = vec![29];
    out.extend((value as u32).to_be_bytes());
    out
}

/// The bytes of operators, and of the operands that call subroutines 0 and 1 of a few.
pub const CALL_LOCAL: u8 = 10;
const CALL_GLOBAL: u8 = 29;
pub const RETURN: u8 = 11;
pub const ENDCHAR: u8 = 14;
const VSTEMHM: u8 = 23;
pub const HINTMASK: u8 = 19;
pub const FIRST: u8 = 139 - 107;
const SECOND: u8 = FIRST + 1;

/// A font. Glyph 1 has a stem and a mask and calls the second local subroutine, which has two stems more and a mask, and calls the global
/// one. Glyph 2 calls a subroutine that there is not. Glyph 3 is empty. Glyph 4 has the name of glyph 1.
pub fn font() -> Vec<u8> {
    let charstrings = index(&[
        &[ENDCHAR],
        &[
            139, 140, VSTEMHM, HINTMASK, 0x80, SECOND, CALL_LOCAL, ENDCHAR,
        ],
        &[139, CALL_LOCAL, ENDCHAR],
        &[],
        &[ENDCHAR],
    ]);
    let locals = index(&[
        &[RETURN],
        &[
            139,
            140,
            139,
            140,
            HINTMASK,
            0xe0,
            FIRST,
            CALL_GLOBAL,
            RETURN,
        ],
    ]);
    let globals = index(&[&[RETURN]]);
    // Format 0: A, B, C, A by their standard string ids.
    let charset = [0, 0, 34, 0, 35, 0, 36, 0, 34];
    let top = |charset, charstrings, private| {
        [
            number(charset),
            vec![15],
            number(charstrings),
            vec![17],
            number(6),
            number(private),
            vec![18],
        ]
        .concat()
    };
    let front = |top: &[u8]| {
        [
            vec![1, 0, 4, 4],
            index(&[b"A"]),
            index(&[top]),
            index(&[]),
            globals.clone(),
        ]
        .concat()
    };
    let start = front(&top(0, 0, 0)).len();
    let charstrings_at = start + charset.len();
    let private_at = charstrings_at + charstrings.len();
    [
        front(&top(start, charstrings_at, private_at)),
        charset.to_vec(),
        charstrings,
        // The local subroutines stand behind the six bytes of the Private DICT.
        [number(6), vec![19]].concat(),
        locals,
    ]
    .concat()
}

/// What glyph 1 meets.
pub fn rows() -> [Row; 4] {
    [
        Row::Local { fd: 0, number: 1 },
        Row::Global { number: 0 },
        Row::GlyphMask {
            glyph: 1,
            offset: 3,
            length: 1,
        },
        Row::LocalMask {
            fd: 0,
            number: 1,
            offset: 4,
            length: 1,
        },
    ]
}

/// A font of glyph 0 and glyphs with these string ids, with this Encoding: a number, or the bytes of its own.
pub fn coded(ids: &[u16], encoding: Result<u8, &[u8]>) -> Vec<u8> {
    let mut charset = vec![0];
    charset.extend(ids.iter().flat_map(|id| id.to_be_bytes()));
    let table = encoding.err().unwrap_or(&[]);
    // The header, a name, a top DICT of three offsets of five bytes, no strings and no subroutines.
    let mut out = vec![1, 0, 4, 1, 0, 1, 1, 1, 2, b'F', 0, 1, 1, 1, 19];
    let at = out.len() as u32 + 18 + 4;
    let behind = at + charset.len() as u32;
    let named = encoding.map_or(behind, u32::from);
    for (offset, operator) in [(at, 15), (named, 16), (behind + table.len() as u32, 17)] {
        out.push(29);
        out.extend(offset.to_be_bytes());
        out.push(operator);
    }
    out.extend([0, 0, 0, 0]);
    out.extend(charset);
    out.extend(table);
    // Each charstring is an endchar.
    let glyphs = ids.len() as u8 + 1;
    out.extend([0, glyphs, 1]);
    out.extend(1..=glyphs + 1);
    out.extend(vec![14; usize::from(glyphs)]);
    out
}

/// A CID-keyed font: glyph 0, and a glyph for each CID. The first half of the glyphs has FD 0, the others FD 1. Every third glyph calls the
/// second of the two local subroutines.
pub fn cid_keyed(cids: &[u16]) -> Vec<u8> {
    let glyphs = cids.len() + 1;
    let charstring = |k: usize| match k % 3 {
        0 => vec![SECOND, CALL_LOCAL, ENDCHAR],
        _ => vec![ENDCHAR],
    };
    let charstrings = long_index(&(0..glyphs).map(charstring).collect::<Vec<_>>());
    let mut charset = vec![0];
    charset.extend(cids.iter().flat_map(|cid| cid.to_be_bytes()));
    // Format 3: two ranges.
    let [half, end] = [glyphs / 2, glyphs].map(|k| (k as u16).to_be_bytes());
    let select = [3, 0, 2, 0, 0, 0, half[0], half[1], 1, end[0], end[1]];
    let locals = index(&[&[RETURN], &[139, RETURN]]);
    let private = [[number(6), vec![19]].concat(), locals].concat();
    let top = |charset, charstrings, array, select| {
        let parts = [
            (charset, &[15][..]),
            (charstrings, &[17]),
            (array, &[12, 36]),
            (select, &[12, 37]),
        ];
        let entry = |(at, operator): &(usize, &[u8])| [number(*at), operator.to_vec()].concat();
        let entries: Vec<u8> = parts.iter().flat_map(entry).collect();
        [vec![139, 139, 139, 12, 30], entries].concat()
    };
    let fd = |private: usize| [number(6), number(private), vec![18]].concat();
    let fds = |at: usize| index(&[&fd(at), &fd(at + private.len())]);
    let front = |top: &[u8]| [vec![1, 0, 4, 4], index(&[b"A"]), index(&[top]), vec![0; 4]].concat();
    let charset_at = front(&top(0, 0, 0, 0)).len();
    let charstrings_at = charset_at + charset.len();
    let array_at = charstrings_at + charstrings.len();
    let select_at = array_at + fds(0).len();
    [
        front(&top(charset_at, charstrings_at, array_at, select_at)),
        charset,
        charstrings,
        fds(select_at + select.len()),
        select.to_vec(),
        private.clone(),
        private,
    ]
    .concat()
}
