//! Damaged copies of a font.

use crate::generator::Generator;

pub const INTACT: &str = "as made";
pub const TRUNCATED: &str = "truncated";

/// A damaged copy, and what was done. Places where parts start are hit more often than others.
pub fn damaged(g: &mut Generator, font: &[u8], marks: &[usize]) -> (&'static str, Vec<u8>) {
    let mut copy = font.to_vec();
    if font.is_empty() {
        return ("insertion", vec![g.byte()]);
    }
    let at = spot(g, font.len(), marks);
    match g.below(11) {
        0..=2 => {
            copy[at] ^= 1 << g.below(8);
            ("bit flipped", copy)
        }
        3 | 4 => {
            copy[at] = g.byte();
            ("byte changed", copy)
        }
        5 => {
            for _ in 0..1 + g.below(4) {
                let at = spot(g, font.len(), marks);
                copy[at] = g.one_of(&[0, 1, 2, 3, 4, 12, 28, 29, 30, 127, 128, 254, 255]);
            }
            ("bytes changed", copy)
        }
        6 => {
            copy.truncate(at);
            (TRUNCATED, copy)
        }
        7 => {
            let n = 1 + g.below(3);
            let more = g.bytes(n);
            copy.splice(at..at, more);
            ("insertion", copy)
        }
        8 => {
            let n = (1 + g.below(3)).min(font.len() - at);
            copy.drain(at..at + n);
            ("deletion", copy)
        }
        9 => {
            // Two pieces of one length change places.
            let other = spot(g, font.len(), marks);
            let (first, second) = (at.min(other), at.max(other));
            let most = if g.once_in(2) { 8 } else { 64 };
            let n = 1 + g.below(most);
            let n = n.min(second - first).min(font.len() - second);
            for k in 0..n {
                copy.swap(first + k, second + k);
            }
            ("pieces swapped", copy)
        }
        _ => {
            // One part is copied over another.
            let other = spot(g, font.len(), marks);
            let n = (1 + g.below(16)).min(font.len() - at.max(other));
            copy.copy_within(at..at + n, other);
            ("piece copied", copy)
        }
    }
}

fn spot(g: &mut Generator, length: usize, marks: &[usize]) -> usize {
    match g.below(4) {
        0 | 1 if !marks.is_empty() => {
            let mark = marks[g.below(marks.len())];
            let near = if g.once_in(2) {
                g.below(4)
            } else {
                g.below(16)
            };
            (mark + near).min(length - 1)
        }
        2 => g.below(length.min(64)),
        _ => g.below(length),
    }
}
