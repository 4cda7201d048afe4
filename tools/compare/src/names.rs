//! Name-keyed fonts with given names, and names that share one hash of the library's (crates/found, `Hash`), as a font made to take
//! long would have them.

use std::collections::HashMap;

/// The library's hash of a name.
fn hash(name: &[u8]) -> u32 {
    name.iter().fold(0, |h: u32, &b| {
        h.wrapping_add(u32::from(b)).wrapping_mul(16_777_619)
    })
}

/// The k-th of some words of six printable characters.
fn word(k: u64) -> Vec<u8> {
    let mut rest = k.wrapping_mul(0x9e37_79b9_7f4a_7c15) >> 16;
    (0..6)
        .map(|_| {
            let character = b'!' + (rest % 94) as u8;
            rest /= 94;
            character
        })
        .collect()
}

/// Two words of one length and one hash: either may stand for the other in any name.
fn twins() -> [Vec<u8>; 2] {
    let mut seen = HashMap::new();
    for k in 0..10_000_000 {
        let new = word(k);
        if let Some(old) = seen.insert(hash(&new), new.clone())
            && old != new
        {
            return [old, new];
        }
    }
    panic!("no two of ten million words share a hash")
}

/// Names of sixteen words, each one of two that share a hash.
pub fn alike(count: usize) -> Vec<Vec<u8>> {
    let twins = twins();
    (0..count)
        .map(|k| {
            (0..16)
                .flat_map(|bit| twins[k >> bit & 1].clone())
                .collect()
        })
        .collect()
}

/// An INDEX.
fn index(items: &[&[u8]]) -> Vec<u8> {
    let mut out = (items.len() as u16).to_be_bytes().to_vec();
    let mut end = 1_u32;
    out.push(4);
    out.extend(end.to_be_bytes());
    for item in items {
        end += item.len() as u32;
        out.extend(end.to_be_bytes());
    }
    out.extend(items.concat());
    out
}

/// The first string id of a font's own strings.
pub const FIRST: u16 = 391;

/// A name-keyed font with these strings: glyph 0, and a glyph for each string id.
pub fn font_with(strings: &[Vec<u8>], ids: &[u16]) -> Vec<u8> {
    let top = |charset: usize, charstrings: usize| {
        let mut out = vec![29];
        out.extend((charset as u32).to_be_bytes());
        out.extend([15, 29]);
        out.extend((charstrings as u32).to_be_bytes());
        out.push(17);
        out
    };
    let strings: Vec<&[u8]> = strings.iter().map(Vec::as_slice).collect();
    let front = |top: &[u8]| {
        let globals = [0, 0];
        [
            &[1, 0, 4, 4],
            &index(&[b"Made"])[..],
            &index(&[top]),
            &index(&strings),
            &globals,
        ]
        .concat()
    };
    let place = front(&top(0, 0)).len();
    let mut charset = vec![0];
    charset.extend(ids.iter().flat_map(|id| id.to_be_bytes()));
    let charstrings = index(&vec![&[14_u8][..]; ids.len() + 1]);
    let top = top(place, place + charset.len());
    [front(&top), charset, charstrings].concat()
}

/// A name-keyed font: glyph 0, and a glyph for each name.
pub fn font(names: &[Vec<u8>]) -> Vec<u8> {
    let ids: Vec<u16> = (0..names.len() as u16).map(|k| FIRST + k).collect();
    font_with(names, &ids)
}

/// A name-keyed font of so many glyphs beside glyph 0: all but the last share one string of as many bytes.
pub fn shared(glyphs: usize) -> Vec<u8> {
    let mut ids = vec![FIRST; glyphs - 1];
    ids.push(FIRST + 1);
    font_with(&[vec![b'a'; glyphs], vec![b'b']], &ids)
}
