//! Which glyph costs the small file, on a font of six glyphs: 2 and 3 have dead code that calls a subroutine that is not there, 4 is
//! not plain, and 5 enters a subroutine.

mod small_font;

use mogdivash::{Font, Refusal, Way};
use small_font::{CALL_LOCAL, ENDCHAR, FIRST, RETURN, index, number};

fn font() -> Vec<u8> {
    let charstrings = index(&[
        &[ENDCHAR],
        &[ENDCHAR],
        &[ENDCHAR, 139, CALL_LOCAL],
        &[ENDCHAR, 139, CALL_LOCAL],
        &[139],
        &[FIRST, CALL_LOCAL, ENDCHAR],
    ]);
    let locals = index(&[&[RETURN]]);
    let top = |charstrings, private| {
        [
            number(charstrings),
            vec![17],
            number(6),
            number(private),
            vec![18],
        ]
        .concat()
    };
    let front = |top: &[u8]| {
        [
            vec![1, 0, 4, 1],
            index(&[b"F"]),
            index(&[top]),
            index(&[]),
            index(&[]),
        ]
        .concat()
    };
    let at = front(&top(0, 0)).len();
    let private = at + charstrings.len();
    let mut bytes = front(&top(at, private));
    bytes.extend(charstrings);
    // Subrs stand behind the Private DICT, which has 6 bytes.
    bytes.extend(number(6));
    bytes.push(19);
    bytes.extend(locals);
    bytes
}

fn way(font: &Font<'_>, keep: &[u16]) -> Way {
    font.subset_traced(b"N", keep).expect("a subset").way
}

#[test]
fn the_glyph_that_costs_it_is_answered() {
    let bytes = font();
    let font = Font::read(&bytes).expect("a font");
    assert_eq!(way(&font, &[5, 2, 1, 2]), Way::Stubbed);
    assert_eq!(font.blocking_glyph(b"N", &[5, 2, 1, 2]), Ok(Some(2)));
    assert_eq!(way(&font, &[5, 1]), Way::Renumbered);
    assert_eq!(font.blocking_glyph(b"N", &[3]), Ok(Some(3)));
}

#[test]
fn none_is_answered_for_two_of_them_and_for_another_way() {
    let bytes = font();
    let font = Font::read(&bytes).expect("a font");
    assert_eq!(way(&font, &[1, 2, 3]), Way::Stubbed);
    assert_eq!(font.blocking_glyph(b"N", &[1, 2, 3]), Ok(None));
    assert_eq!(font.blocking_glyph(b"N", &[1, 5]), Ok(None));
    assert_eq!(way(&font, &[2, 4]), Way::Copied);
    assert_eq!(font.blocking_glyph(b"N", &[2, 4]), Ok(None));
}

#[test]
fn the_refusals_of_the_subset_are_answered() {
    let bytes = font();
    let font = Font::read(&bytes).expect("a font");
    assert_eq!(
        font.blocking_glyph(b"N", &[2, 6]),
        Err(Refusal::NoSuchNumber)
    );
    assert_eq!(
        font.blocking_glyph(&[b'N'; 65_536], &[2]),
        Err(Refusal::TooLong)
    );
}
