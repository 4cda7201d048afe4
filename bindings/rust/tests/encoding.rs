//! Subsets with the font's own codes: document 02, Wish 4.

mod small_font;

use mogdivash::{Font, Record, Refusal};
use small_font::coded as font;

/// What stands in the subset behind its charset.
fn coded(font: &Font<'_>, keep: &[u16]) -> Vec<u8> {
    let record = Record::untraced();
    let subset = font
        .subset_with_encoding(b"A", keep, &record)
        .expect("a subset");
    let plain = font.subset(b"A", keep, &record).expect("a subset");
    // The entry's six bytes more, and the encoding.
    let more = subset.bytes.len() - plain.bytes.len() - 6;
    let at = subset
        .bytes
        .windows(3)
        .position(|bytes| bytes[..2] == [0x80, 0])
        .expect("an encoding");
    subset.bytes[at..at + more].to_vec()
}

#[test]
fn codes_of_kept_glyphs() {
    let bytes = font(&[34, 35], Err(&[0, 2, 7, 3]));
    let font = Font::read(&bytes).expect("a font");
    assert_eq!(coded(&font, &[1]), [0x80, 0, 1, 7, 0, 34]);
    assert_eq!(coded(&font, &[1, 2]), [0x80, 0, 2, 3, 0, 35, 7, 0, 34]);
    assert_eq!(coded(&font, &[]), [0x80, 0, 0]);
}

#[test]
fn too_many_codes() {
    let mut all = vec![0x80, 1, 0, 255];
    for code in 1..=255 {
        all.extend([code, 0, 34]);
    }
    let bytes = font(&[34], Err(&all));
    let font = Font::read(&bytes).expect("a font");
    let record = Record::untraced();
    let refused = font.subset_with_encoding(b"A", &[1], &record);
    assert_eq!(refused.unwrap_err(), Refusal::Pairs);
    assert!(font.subset(b"A", &[1], &record).is_ok());
    assert!(font.subset_with_encoding(b"A", &[], &record).is_ok());
}

#[test]
fn predefined_encodings() {
    let record = Record::untraced();
    let bytes = font(&[34], Ok(0));
    let standard = Font::read(&bytes).expect("a font");
    let plain = standard.subset(b"A", &[1], &record).expect("a subset");
    assert_eq!(
        standard.subset_with_encoding(b"A", &[1], &record),
        Ok(plain.clone())
    );
    let bytes = font(&[34], Ok(1));
    let expert = Font::read(&bytes).expect("a font with the Expert encoding");
    let refused = expert.subset(b"A", &[1], &record);
    assert_eq!(refused.unwrap_err(), Refusal::Unsupported);
    let subset = expert
        .subset_with_encoding(b"A", &[1], &record)
        .expect("a subset");
    assert_eq!(subset.bytes.len(), plain.bytes.len() + 6);
    let entry = [29, 0, 0, 0, 1, 16];
    assert!(subset.bytes.windows(6).any(|bytes| bytes == entry));
    // It is read again.
    assert!(Font::read(&subset.bytes).is_ok());
}
