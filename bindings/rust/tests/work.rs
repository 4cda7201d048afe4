//! A small font that asks for more work words than are allocated.

use mogdivash::{Font, Record, Refusal};

/// An INDEX of items of one length, filled with a byte.
fn index(items: u16, item: &[u8]) -> Vec<u8> {
    let mut out = items.to_be_bytes().to_vec();
    out.push(4);
    for k in 0..=u32::from(items) {
        out.extend((1 + k * item.len() as u32).to_be_bytes());
    }
    out.extend(item.repeat(usize::from(items)));
    out
}

/// The five-byte form of a DICT's integer.
fn number(value: usize) -> Vec<u8> {
    let mut out = vec![29];
    out.extend((value as u32).to_be_bytes());
    out
}

/// A CID-keyed font of one glyph, whose font dictionaries share a Private DICT with its empty local subroutines.
fn shared(fds: u16, locals: u16) -> Vec<u8> {
    let top = |charstrings, fd_array| {
        let operands = [[139; 3].to_vec(), vec![12, 30], number(charstrings)].concat();
        [operands, vec![17], number(fd_array), vec![12, 36]].concat()
    };
    let fd = |private| [number(6), number(private), vec![18]].concat();
    let charstrings = index(1, &[14]);
    let start = 4 + index(1, b"A").len() + index(1, &top(0, 0)).len() + 4;
    let fd_array = start + charstrings.len();
    let private = fd_array + index(fds, &fd(0)).len();
    [
        vec![1, 0, 4, 4],
        index(1, b"A"),
        index(1, &top(start, fd_array)),
        vec![0; 4],
        charstrings,
        index(fds, &fd(private)),
        [number(6), vec![19]].concat(),
        index(locals, &[]),
    ]
    .concat()
}

#[test]
fn small_fonts_get_no_gigabytes() {
    let bytes = shared(600, 60_000);
    let font = Font::read(&bytes).expect("a font that is read");
    assert_eq!(font.work_words(), 2 + 600 * 60_000 / 32);
    let cut = |name: &[u8], keep: &[u16]| font.subset(name, keep, &Record::untraced());
    assert_eq!(cut(b"A", &[]).unwrap_err(), Refusal::Work);
    // The refusals before it come first.
    assert_eq!(cut(b"A", &[1]).unwrap_err(), Refusal::NoSuchNumber);
    assert_eq!(cut(&[b'A'; 65536], &[]).unwrap_err(), Refusal::TooLong);
}

#[test]
fn many_words_are_allocated() {
    let bytes = shared(3, 60_000);
    let font = Font::read(&bytes).expect("a font that is read");
    let subset = font
        .subset(b"A", &[0], &Record::untraced())
        .expect("a subset");
    assert_eq!(Font::read(&subset.bytes).expect("its subset").glyphs(), 1);
}
