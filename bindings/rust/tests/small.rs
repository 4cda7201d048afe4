//! Refusals by number, rows by their bytes, and bytes that are no font.

use mogdivash::{Font, Record, Refusal, Row};

#[test]
fn refusals_have_their_numbers() {
    for refusal in &Refusal::ALL {
        assert_eq!(Refusal::from_number(refusal.number()), Some(*refusal));
        assert!(!refusal.to_string().is_empty());
    }
    assert_eq!(Refusal::from_number(0), None);
    assert_eq!(Refusal::from_number(12), Some(Refusal::Strings));
    assert_eq!(Refusal::from_number(13), Some(Refusal::Pairs));
    assert_eq!(Refusal::from_number(14), Some(Refusal::NotAccepted));
    assert_eq!(Refusal::from_number(15), Some(Refusal::NoTable));
    assert_eq!(Refusal::from_number(16), None);
    assert!(Refusal::ALL.is_sorted_by_key(|refusal| refusal.number()));
}

#[test]
fn rows_rise_and_stand_once() {
    let global = Row::Global { number: 258 };
    let mask = Row::LocalMask {
        fd: 3,
        number: 1,
        offset: 65536,
        length: 2,
    };
    let record = Record::traced([mask, global, mask]);
    assert_eq!(
        record.bytes(),
        [1, 0, 1, 2, 0, 0, 0, 0, 0, 0, 3, 3, 0, 1, 0, 1, 0, 0, 0, 2]
    );
    assert_eq!(
        Record::from_bytes([mask.bytes(), global.bytes()].concat()),
        record
    );
    assert!(record.is_traced());
    assert!(!Record::untraced().is_traced());
}

/// Bytes that are no rows stay as they are, and are refused when they are used.
#[test]
fn no_rows() {
    assert_eq!(Record::from_bytes(vec![9; 11]).bytes(), [9; 11]);
}

#[test]
fn no_font() {
    assert_eq!(Font::read(b"").unwrap_err(), Refusal::Truncated);
    assert_eq!(Font::read(b"\x02\0\x04\x01").unwrap_err().number(), 3);
}
