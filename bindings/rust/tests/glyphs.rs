//! Names, CIDs and font dictionaries of glyphs, and many names or CIDs found with one reading.

mod small_font;

use mogdivash::{Font, Refusal};
use std::fs;

/// A CID-keyed font of three glyphs: CID 5 twice, FD 1 for both; two font dictionaries without entries.
const CID_FONT: [u8; 59] = [
    1, 0, 4, 1, 0, 1, 1, 1, 2, 0x58, 0, 1, 1, 1, 0x10, 0x8b, 0x8b, 0x8b, 0x0c, 0x1e, 0xad, 0x0f,
    0xb6, 0x11, 0xc0, 0x0c, 0x24, 0xb2, 0x0c, 0x25, 0, 0, 0, 0, 0, 0, 5, 0, 5, 0, 0, 1, 1, 0, 3, 1,
    1, 2, 3, 4, 14, 14, 14, 0, 2, 1, 1, 1, 1,
];

#[test]
fn a_name_keyed_font() {
    let bytes = small_font::font();
    let font = Font::read(&bytes).unwrap();
    assert_eq!(font.glyph_name(0).unwrap().unwrap(), b".notdef");
    let names: Vec<Vec<u8>> = (0..font.glyphs() as u16)
        .map(|glyph| font.glyph_name(glyph).unwrap().unwrap())
        .collect();
    // Glyph 4 has the name of glyph 1.
    assert_eq!(names[1], names[4]);
    assert_eq!(
        font.find_names(&names),
        [Some(0), Some(1), Some(2), Some(3), Some(1)]
    );
    assert_eq!(font.find_names(&["", "no such name"]), [None, None]);
    assert_eq!(font.find_names::<&[u8]>(&[]), []);
    assert_eq!(font.find_cids(&[0, 1]), [None, None]);
    assert_eq!(font.glyph_cid(1), Ok(None));
    assert_eq!(font.glyph_fd(1), Ok(0));
    assert_eq!(font.glyph_name(5), Err(Refusal::NoSuchNumber));
}

#[test]
fn a_cid_keyed_font() {
    let font = Font::read(&CID_FONT).unwrap();
    let cids: Vec<Option<u16>> = (0..3).map(|glyph| font.glyph_cid(glyph).unwrap()).collect();
    assert_eq!(cids, [Some(0), Some(5), Some(5)]);
    let fds: Vec<u8> = (0..3).map(|glyph| font.glyph_fd(glyph).unwrap()).collect();
    assert_eq!(fds, [0, 1, 1]);
    assert_eq!(font.glyph_name(1), Ok(None));
    assert_eq!(
        font.find_cids(&[5, 1, 0, 5]),
        [Some(1), None, Some(0), Some(1)]
    );
    assert_eq!(font.find_names(&["space"]), [None]);
    assert_eq!(font.glyph_fd(3), Err(Refusal::NoSuchNumber));
}

/// A name of more bytes than there is room for at first.
#[test]
fn a_long_name() {
    let text = vec![b'n'; 300];
    let mut strings = vec![0, 1, 2, 0, 1, 1, 45];
    strings.extend(&text);
    // Header, name, a top DICT with charset and CharStrings behind the strings and no globals.
    let mut bytes = vec![1, 0, 4, 1, 0, 1, 1, 1, 2, 0x58, 0, 1, 1, 1, 9];
    let behind = bytes.len() + 8 + strings.len() + 2;
    for (operator, place) in [(15, behind), (17, behind + 3)] {
        bytes.extend([28, (place >> 8) as u8, place as u8, operator]);
    }
    bytes.extend(&strings);
    bytes.extend([0, 0, 0, 1, 135, 0, 2, 1, 1, 2, 3, 14, 14]);
    let font = Font::read(&bytes).unwrap();
    assert_eq!(font.glyph_name(1).unwrap().as_deref(), Some(&text[..]));
    assert_eq!(
        font.find_names(&[&text[..], b".notdef"]),
        [Some(1), Some(0)]
    );
}

/// The fonts of the stored cases: many at once are what each is alone, and a glyph is found by its name or CID, or an earlier one is.
#[test]
fn stored_fonts() {
    let path = format!(
        "{}/../../crates/replay/data/cff",
        env!("CARGO_MANIFEST_DIR")
    );
    let text = fs::read_to_string(path).expect("the stored cases");
    let mut asked = 0;
    for line in text.lines() {
        let input = line.split(' ').nth(1).expect("KIND INPUT ANSWER");
        let digits = input.trim_start_matches('-');
        let byte = |k| u8::from_str_radix(&digits[k..k + 2], 16).expect("hexadecimal");
        let bytes: Vec<u8> = (0..digits.len()).step_by(2).map(byte).collect();
        let length = usize::from(bytes[0]) << 8 | usize::from(bytes[1]);
        let Ok(font) = Font::read(&bytes[2..2 + length]) else {
            continue;
        };
        let glyphs = font.glyphs().min(100) as u16;
        let found = if font.is_cid_keyed() {
            let cids: Vec<u16> = (0..glyphs)
                .map(|glyph| font.glyph_cid(glyph).unwrap().unwrap())
                .collect();
            let found = font.find_cids(&cids);
            let alone: Vec<_> = cids.iter().map(|cid| font.find_cid(*cid)).collect();
            assert_eq!(found, alone);
            found
        } else {
            let names: Vec<Vec<u8>> = (0..glyphs)
                .map(|glyph| font.glyph_name(glyph).unwrap().unwrap())
                .collect();
            let found = font.find_names(&names);
            let alone: Vec<_> = names.iter().map(|name| font.find_name(name)).collect();
            assert_eq!(found, alone);
            found
        };
        for (glyph, found) in (0..glyphs).zip(found) {
            assert!(found.is_some_and(|found| found <= glyph));
        }
        asked += 1;
    }
    assert!(asked > 100, "{asked} fonts");
}
