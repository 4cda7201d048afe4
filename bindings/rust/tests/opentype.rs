//! A font in an OpenType file, as it comes (document 02, Wish 9).

use mogdivash::{Font, Item, Refusal};

/// Document 01's font of two glyphs.
const FONT: [u8; 29] = [
    1, 0, 4, 1, 0, 1, 1, 1, 2, 0x58, 0, 1, 1, 1, 3, 0xa0, 0x11, 0, 0, 0, 0, 0, 2, 1, 1, 2, 3, 0x0e,
    0x0e,
];

/// A file whose directory has one row of that tag, with the font behind it.
fn file(tag: &[u8; 4]) -> Vec<u8> {
    let mut file = b"OTTO\0\x01\0\x10\0\0\0\0".to_vec();
    file.extend(tag);
    file.extend([0; 4]);
    file.extend(30_u32.to_be_bytes());
    file.extend((FONT.len() as u32).to_be_bytes());
    file.extend([0xaa, 0xbb]);
    file.extend(FONT);
    file
}

#[test]
fn a_file_is_read_as_its_table() {
    let (whole, bare) = (file(b"CFF "), FONT);
    let (whole, bare) = (Font::read(&whole).unwrap(), Font::read(&bare).unwrap());
    assert_eq!(whole.glyphs(), 2);
    assert_eq!(whole.work_words(), bare.work_words());
    assert_eq!(whole.find_name(b"space"), Some(1));
    assert_eq!(whole.item(Item::Charstring(1)).unwrap(), [0x0e]);
    let (whole, bare) = (
        whole.subset_traced(b"A", &[1]).unwrap(),
        bare.subset_traced(b"A", &[1]).unwrap(),
    );
    assert_eq!(whole.bytes, bare.bytes);
}

#[test]
fn a_file_without_the_table() {
    assert_eq!(Font::read(&file(b"CFF2")).unwrap_err(), Refusal::NoTable);
    assert_eq!(Refusal::NoTable.number(), 15);
    let file = file(b"CFF ");
    assert_eq!(Font::read(&file[..58]).unwrap_err(), Refusal::Truncated);
    assert_eq!(Font::read(&file[..27]).unwrap_err(), Refusal::Truncated);
    assert_eq!(Font::read(b"OTT").unwrap_err(), Refusal::Truncated);
}
