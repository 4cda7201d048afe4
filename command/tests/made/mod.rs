//! Small fonts and files for the tests.

/// An INDEX of up to 255 bytes (TN5176, section 5).
fn index(items: &[&[u8]]) -> Vec<u8> {
    let mut bytes = (items.len() as u16).to_be_bytes().to_vec();
    if items.is_empty() {
        return bytes;
    }
    bytes.push(1);
    let mut offset = 1;
    bytes.push(offset);
    for item in items {
        offset += item.len() as u8;
        bytes.push(offset);
    }
    bytes.extend(items.concat());
    bytes
}

/// A whole number of a DICT in five bytes.
fn operand(value: usize) -> Vec<u8> {
    let mut bytes = vec![29];
    bytes.extend((value as u32).to_be_bytes());
    bytes
}

fn top_dict(charset: usize, charstrings: usize) -> Vec<u8> {
    let dict = [&operand(charset)[..], &[15], &operand(charstrings), &[17]].concat();
    index(&[&dict])
}

/// A font of four glyphs: .notdef, e, acute, and eacute, which is composed of these two.
pub fn font() -> Vec<u8> {
    named([70, 125, 207])
}

/// The same with other string ids.
pub fn named(ids: [u8; 3]) -> Vec<u8> {
    let head = [&[1, 0, 4, 1][..], &index(&[b"Made"])].concat();
    let charset = head.len() + top_dict(0, 0).len() + 4;
    // format 0: a string id for each glyph but the first
    let ids = [0, 0, ids[0], 0, ids[1], 0, ids[2]];
    let composed = [139, 139, 240, 247, 86, 14];
    let glyphs = index(&[&[14], &[14], &[14], &composed]);
    let parts = [
        &head[..],
        &top_dict(charset, charset + ids.len()),
        &[0, 0, 0, 0],
        &ids,
        &glyphs,
    ];
    parts.concat()
}

/// A table cmap of format 4 that gives e to é the glyphs 1 and 3.
fn cmap() -> Vec<u8> {
    let words: [u16; 24] = [
        0, 1, 3, 1, 0, 12, // one subtable, behind this
        4, 36, 0, 6, 0, 0, 0, // three segments
        0x65, 0xe9, 0xffff, 0, // last characters
        0x65, 0xe9, 0xffff, // first characters
        0xff9c, 0xff1a, 1, 0, // deltas; the first offset
    ];
    let mut bytes: Vec<u8> = words.iter().flat_map(|word| word.to_be_bytes()).collect();
    bytes.extend([0; 4]);
    bytes
}

/// An OpenType file of these tables.
pub fn file(tables: &[(&[u8; 4], Vec<u8>)]) -> Vec<u8> {
    let mut file = b"OTTO".to_vec();
    file.extend((tables.len() as u16).to_be_bytes());
    file.extend([0; 6]);
    let mut at = 12 + 16 * tables.len();
    for (tag, table) in tables {
        file.extend(*tag);
        file.extend([0; 4]);
        file.extend((at as u32).to_be_bytes());
        file.extend((table.len() as u32).to_be_bytes());
        at += table.len();
    }
    file.extend(tables.iter().flat_map(|(_, table)| table.clone()));
    file
}

/// The font as an OpenType file.
pub fn otf() -> Vec<u8> {
    file(&[(b"CFF ", font()), (b"cmap", cmap())])
}
