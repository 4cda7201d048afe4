//! Tests of the comparison of pairs: the library shows no difference, one that lets a byte of an unused letter through does.

use crate::alike::Pairs;
use crate::cut::Cut;
use crate::cut_cases;
use crate::library::{Library, Rooms, library};

const PAIRS: usize = 300;

fn differences(library: &Library) -> u64 {
    let mut pairs = Pairs::default();
    for case in cut_cases::fonts(1) {
        let most = PAIRS - pairs.pairs as usize;
        if most == 0 {
            break;
        }
        pairs.font(library, &case, 1, most, &cut_cases::made);
    }
    pairs.differences()
}

/// The library's subset, with the sum of all bytes of the font in the place of its minor version.
fn leaking(font: &[u8], cut: &Cut, rooms: &mut Rooms<'_>) -> u8 {
    let refusal = (library().subset)(font, cut, rooms);
    if refusal == 0 {
        rooms.out.all[1] = font.iter().fold(0, |sum: u8, &b| sum.wrapping_add(b));
    }
    refusal
}

#[test]
fn no_difference() {
    assert_eq!(differences(&library()), 0);
}

#[test]
fn a_byte_let_through() {
    let library = Library {
        subset: leaking,
        ..library()
    };
    assert!(differences(&library) > 0);
}
