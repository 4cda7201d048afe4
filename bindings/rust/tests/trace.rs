//! Tracing a small font: its rows, a glyph that is not plain, the refusals, and a subset by what was traced.

use mogdivash::{Font, Record, Refusal, Row, Way};

mod small_font;
use small_font::{ENDCHAR, HINTMASK, font, index, long_index, number, rows};

#[test]
fn rows_that_are_met() {
    let bytes = font();
    let font = Font::read(&bytes).expect("a font that is read");
    let record = font.trace(&[3, 1, 1]).expect("a record");
    assert_eq!(record, Record::traced(rows()));
    assert!(record.is_traced());
    // Glyph 0 is always kept, and meets nothing here.
    assert_eq!(font.trace(&[]), Ok(Record::traced([])));
    assert_eq!(font.trace(&[0, 1]), Ok(Record::traced(rows())));
}

#[test]
fn a_glyph_that_is_not_plain() {
    let bytes = font();
    let font = Font::read(&bytes).expect("a font that is read");
    assert_eq!(font.trace(&[1, 2]), Ok(Record::untraced()));
    let subset = font.subset_traced(b"B", &[1, 2]).expect("a subset");
    assert_eq!(subset.way, Way::Copied);
}

#[test]
fn refusals() {
    let bytes = font();
    let font = Font::read(&bytes).expect("a font that is read");
    assert_eq!(font.trace(&[1, 5]), Err(Refusal::NoSuchNumber));
    assert_eq!(font.trace(&[4, 5]), Err(Refusal::NoSuchNumber));
    assert_eq!(font.trace(&[1, 4]), Err(Refusal::NotFound));
    assert_eq!(font.subset_traced(b"B", &[5]), Err(Refusal::NoSuchNumber));
}

#[test]
fn a_subset_by_the_trace() {
    let bytes = font();
    let font = Font::read(&bytes).expect("a font that is read");
    let subset = font.subset_traced(b"B", &[1]).expect("a subset");
    assert_eq!(subset.way, Way::Renumbered);
    let record = Record::traced(rows());
    assert_eq!(font.subset(b"B", &[1], &record), Ok(subset.clone()));
    // What it keeps is traced again: one local subroutine is left.
    let again = Font::read(&subset.bytes).expect("its subset");
    assert_eq!((again.glyphs(), again.globals()), (2, 1));
    let new = rows().map(|row| match row {
        Row::Local { fd, .. } => Row::Local { fd, number: 0 },
        Row::LocalMask {
            fd, offset, length, ..
        } => Row::LocalMask {
            fd,
            number: 0,
            offset,
            length,
        },
        row => row,
    });
    assert_eq!(again.trace(&[1]), Ok(Record::traced(new)));
}

/// A record that is longer than what the binding lends at first.
#[test]
fn many_rows() {
    let mask = [HINTMASK].repeat(12_000);
    let glyph = [mask, vec![ENDCHAR]].concat();
    let mut charstrings = vec![0, 1, 2, 0, 1];
    charstrings.extend((1 + glyph.len() as u16).to_be_bytes());
    charstrings.extend(&glyph);
    let top = |at| [number(at), vec![17]].concat();
    let front = |at| {
        let parts = [index(&[b"A"]), index(&[&top(at)]), index(&[]), index(&[])];
        [vec![1, 0, 4, 4], parts.concat()].concat()
    };
    let bytes = [front(front(0).len()), charstrings].concat();
    let font = Font::read(&bytes).expect("a font that is read");
    // Masks of no stem have no bytes.
    let rows = (0..12_000).map(|offset| Row::GlyphMask {
        glyph: 0,
        offset,
        length: 0,
    });
    assert_eq!(font.trace(&[]), Ok(Record::traced(rows)));
}

/// 5,000 glyphs with names of 128 bytes, the last of which has the name of the first. Glyph 1 has 5,000 masks.
fn many_glyphs() -> Vec<u8> {
    let mut names: Vec<Vec<u8>> = (0..4_998)
        .map(|i| format!("{i:0128}").into_bytes())
        .collect();
    names.push(names[0].clone());
    let mut charstrings = vec![vec![ENDCHAR]; 5_000];
    charstrings[1] = [[HINTMASK].repeat(5_000), vec![ENDCHAR]].concat();
    let charstrings = long_index(&charstrings);
    // Format 2: string ids from 391 on.
    let charset = [2, 1, 135, 19, 134];
    let top =
        |charset, charstrings| [number(charset), vec![15], number(charstrings), vec![17]].concat();
    let front = |top: &[u8]| {
        [
            vec![1, 0, 4, 4],
            index(&[b"A"]),
            index(&[top]),
            long_index(&names),
            index(&[]),
        ]
        .concat()
    };
    let start = front(&top(0, 0)).len();
    [
        front(&top(start, start + charset.len())),
        charset.to_vec(),
        charstrings,
    ]
    .concat()
}

/// The stack that a call takes at most, as include/mogdivash.h says.
const STACK: usize = 3 << 19;

/// The names are sorted, and the rows are gathered in large windows: the most stack that tracing takes.
#[test]
fn stack() {
    let run = || {
        let bytes = many_glyphs();
        let font = Font::read(&bytes).expect("a font that is read");
        let rows = (0..5_000).map(|offset| Row::GlyphMask {
            glyph: 1,
            offset,
            length: 0,
        });
        let keep: Vec<u16> = (1..4_999).collect();
        assert_eq!(font.trace(&keep), Ok(Record::traced(rows.clone())));
        assert_eq!(font.trace(&keep[..4]), Ok(Record::traced(rows)));
        assert_eq!(font.trace(&[1, 4_999]), Err(Refusal::NotFound));
    };
    let thread = std::thread::Builder::new().stack_size(STACK);
    let run = thread.spawn(run).expect("a thread");
    run.join().expect("traced");
}
