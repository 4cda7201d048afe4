use super::*;

fn be(values: &[u32], n: usize) -> Vec<u8> {
    let bytes = values.iter().map(|value| value.to_be_bytes());
    bytes.flat_map(|four| four[4 - n..].to_vec()).collect()
}

/// A table with subtables (platform, encoding, bytes).
fn table_of(parts: &[(u32, u32, Vec<u8>)]) -> Vec<u8> {
    let mut table = be(&[0, parts.len() as u32], 2);
    let mut at = 4 + 8 * parts.len();
    for (platform, encoding, bytes) in parts {
        table.extend(be(&[*platform, *encoding], 2));
        table.extend(be(&[at as u32], 4));
        at += bytes.len();
    }
    table.extend(parts.iter().flat_map(|part| part.2.clone()));
    table
}

/// Format 12 with groups (first, last, glyph).
fn groups(groups: &[[u32; 3]]) -> Vec<u8> {
    let mut bytes = be(&[12, 0], 2);
    bytes.extend(be(
        &[16 + 12 * groups.len() as u32, 0, groups.len() as u32],
        4,
    ));
    bytes.extend(groups.iter().flat_map(|group| be(group, 4)));
    bytes
}

/// Format 4 with segments (first, last, delta, offset) and the array behind them.
fn segments(segments: &[[u32; 4]], array: &[u32]) -> Vec<u8> {
    let n = segments.len() as u32;
    let mut bytes = be(
        &[4, 16 + 8 * n + 2 * array.len() as u32, 0, 2 * n, 0, 0, 0],
        2,
    );
    bytes.extend(segments.iter().flat_map(|s| be(&[s[1]], 2)));
    bytes.extend([0, 0]);
    for field in [0, 2, 3] {
        bytes.extend(segments.iter().flat_map(|s| be(&[s[field]], 2)));
    }
    bytes.extend(be(array, 2));
    bytes
}

fn glyph(table: &[u8], letter: char) -> Option<u16> {
    Cmap { table }.glyph(letter)
}

/// A to C by delta, a to c by the array (b has none), and the segment that ends a table.
fn latin() -> Vec<u8> {
    segments(
        &[
            [65, 67, 65536 - 60, 0],
            [97, 99, 2, 4],
            [0xffff, 0xffff, 1, 0],
        ],
        &[40, 0, 42],
    )
}

#[test]
fn format_4() {
    let table = table_of(&[(3, 1, latin())]);
    assert_eq!(glyph(&table, 'A'), Some(5));
    assert_eq!(glyph(&table, 'C'), Some(7));
    assert_eq!(glyph(&table, 'D'), None);
    assert_eq!(glyph(&table, 'a'), Some(42));
    assert_eq!(glyph(&table, 'b'), None);
    assert_eq!(glyph(&table, 'c'), Some(44));
    assert_eq!(glyph(&table, '\u{10041}'), None);
}

#[test]
fn format_12() {
    let table = table_of(&[(0, 4, groups(&[[65, 70, 9], [0x1f600, 0x1f601, 300]]))]);
    assert_eq!(glyph(&table, 'F'), Some(14));
    assert_eq!(glyph(&table, '😁'), Some(301));
    assert_eq!(glyph(&table, 'G'), None);
}

/// Format 12 before format 4, wherever they stand; of other platforms none.
#[test]
fn which_subtable() {
    let table = table_of(&[(3, 1, latin()), (3, 10, groups(&[[65, 65, 9]]))]);
    assert_eq!(glyph(&table, 'A'), Some(9));
    assert_eq!(glyph(&table, 'B'), Some(6));
    assert_eq!(
        glyph(&table_of(&[(1, 0, latin()), (3, 0, latin())]), 'A'),
        None
    );
}

/// A glyph past 16 bits is none, and neither is glyph 0.
#[test]
fn no_glyph() {
    let table = table_of(&[(0, 4, groups(&[[65, 66, 65535], [67, 67, 0]]))]);
    assert_eq!(glyph(&table, 'A'), Some(65535));
    assert_eq!(glyph(&table, 'B'), None);
    assert_eq!(glyph(&table, 'C'), None);
}

/// Cut anywhere, and with each byte set to others: an answer or none, and no fault.
#[test]
fn damaged_tables() {
    let whole = table_of(&[
        (3, 1, latin()),
        (3, 10, groups(&[[65, 70, 9], [97, 0xffff_ffff, 1]])),
    ]);
    let mut tried = 0;
    for letter in ['A', 'c', 'é', '\u{10ffff}'] {
        for end in 0..whole.len() {
            glyph(&whole[..end], letter);
            tried += 1;
        }
        for at in 0..whole.len() {
            for value in [0, 1, 0x7f, 0x80, 0xff] {
                let mut damaged = whole.clone();
                damaged[at] = value;
                glyph(&damaged, letter);
                tried += 1;
            }
        }
    }
    assert!(tried > 2000);
}

/// A directory of one row for the table, behind which it stands.
fn file(tag: &[u8; 4], start: u32, table: &[u8]) -> Vec<u8> {
    let mut file = b"OTTO\0\x01\0\0\0\0\0\0".to_vec();
    file.extend(tag);
    file.extend(be(&[0, start, table.len() as u32], 4));
    file.extend(table);
    file
}

#[test]
fn tables_of_a_file() {
    let table = table_of(&[(3, 1, latin())]);
    let whole = file(b"cmap", 28, &table);
    assert_eq!(Cmap::of_file(&whole).unwrap().glyph('A'), Some(5));
    assert!(Cmap::of_file(&file(b"cmap", 29, &table)).is_none());
    assert!(Cmap::of_file(&file(b"cmap", 0xffff_ffff, &table)).is_none());
    assert!(Cmap::of_file(&file(b"CFF ", 28, &table)).is_none());
    assert!(Cmap::of_file(b"\x01\0\x04\x01").is_none());
    for end in 0..whole.len() {
        assert!(Cmap::of_file(&whole[..end]).is_none());
    }
}
