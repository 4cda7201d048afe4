//! Fonts for which the original takes memory out of proportion: parts that many others share are
//! copied for each of them.

use crate::layout::{Entry, Layout, Num, Part, SOUND, entry, place};
use crate::numbers::Form;

/// The header and, within its size, an INDEX of one empty charstring at 4.
const HEADER: [u8; 9] = [1, 0, 9, 1, 0, 1, 1, 1, 1];

/// `fonts` fonts without names, each with the one charstring and the same entries; `strings`
/// empty strings; no global subroutine.
fn set(fonts: usize, strings: usize, entries: Vec<Entry>) -> Layout {
    let mut layout = Layout::default();
    // 143 is the number 4.
    let charstrings = entry(vec![Num::Bytes(vec![143])], &[17]);
    let top = Part::Dict([vec![charstrings], entries].concat());
    let empty = || Part::Bytes(Vec::new());
    layout.add(Part::Bytes(HEADER.to_vec()));
    layout.add(Part::Index(SOUND, vec![empty(); fonts]));
    layout.add(Part::Index(SOUND, vec![top; fonts]));
    layout.add(Part::Index(SOUND, vec![empty(); strings]));
    layout.add(Part::Index(SOUND, Vec::new()));
    layout
}

/// The number of the first part that is added to a set.
const FIRST: usize = 5;

/// CID-keyed fonts that share an FD array, whose FDs share a Private of `entries` entries.
pub fn entries(fonts: usize, fds: usize, entries: usize) -> Vec<u8> {
    let private = FIRST + 1;
    let mut layout = set(
        fonts,
        0,
        vec![
            entry(Vec::new(), &[12, 30]),
            entry(vec![place(FIRST)], &[12, 36]),
        ],
    );
    let size = Num::Length(private, 0, Form::Shortest);
    let fd = Part::Dict(vec![entry(vec![size, place(private)], &[18])]);
    layout.add(Part::Index(SOUND, vec![fd; fds]));
    layout.add(Part::Bytes(vec![0; entries]));
    layout.bytes()
}

/// A CID-keyed font whose FDs share a Private with `locals` empty local subroutines.
pub fn locals(fds: usize, locals: usize) -> Vec<u8> {
    shared_locals(fds, locals, Vec::new()).bytes()
}

fn shared_locals(fds: usize, locals: usize, more: Vec<Entry>) -> Layout {
    let (private, subrs) = (FIRST + 1, FIRST + 2);
    let cid = vec![
        entry(Vec::new(), &[12, 30]),
        entry(vec![place(FIRST)], &[12, 36]),
    ];
    let mut layout = set(1, 0, [cid, more].concat());
    let size = Num::Length(private, 0, Form::Shortest);
    let fd = Part::Dict(vec![entry(vec![size, place(private)], &[18])]);
    layout.add(Part::Index(SOUND, vec![fd; fds]));
    let distance = Num::Distance(private, subrs, Form::Shortest);
    layout.add(Part::Dict(vec![entry(vec![distance], &[19])]));
    layout.add(Part::Index(SOUND, vec![Part::Bytes(Vec::new()); locals]));
    layout
}

/// The same with `glyphs` empty charstrings and `globals` empty global subroutines: with 65,535
/// of each the work size is 134,348,798, the largest there is.
pub fn work(glyphs: usize, globals: usize, fds: usize, locals: usize) -> Vec<u8> {
    let charstrings = entry(vec![place(FIRST + 3)], &[17]);
    let mut layout = shared_locals(fds, locals, vec![charstrings]);
    let empty = Part::Bytes(Vec::new());
    layout.parts[FIRST - 1] = Part::Index(SOUND, vec![empty.clone(); globals]);
    layout.add(Part::Index(SOUND, vec![empty; glyphs]));
    layout.bytes()
}

/// Name-keyed fonts that share `strings` empty strings.
pub fn strings(fonts: usize, strings: usize) -> Vec<u8> {
    set(fonts, strings, Vec::new()).bytes()
}
