//! FDSelects read at a position, for a number of glyphs.

use super::{
    MOST_FDS, among_others, counted, damage, formats, parts_and_glyphs, positions, select,
};
use crate::cases::Cases;
use crate::generator::Generator;

/// An FDSelect of format 3: how many ranges it names, the first glyph, then an FD and the next first glyph each.
fn fd_ranges(count: u16, first: u16, ranges: &[(u8, u16)]) -> Vec<u8> {
    let mut out = vec![3];
    out.extend_from_slice(&count.to_be_bytes());
    out.extend_from_slice(&first.to_be_bytes());
    for (fd, next) in ranges {
        out.push(*fd);
        out.extend_from_slice(&next.to_be_bytes());
    }
    out
}

/// A first glyph and ranges, for about ten glyphs.
#[rustfmt::skip]
const RANGES: &[(u16, &[(u8, u16)])] = &[
    // Glyphs before the first range and behind the last.
    (3, &[(1, 6)]), (0, &[(1, 6)]), (3, &[(1, 5), (2, 6)]), (9, &[(1, 12)]), (10, &[(1, 12)]), (11, &[(1, 12)]),
    // Ranges of no glyph.
    (0, &[(1, 0)]), (0, &[(1, 0), (2, 10)]), (4, &[(1, 4), (2, 10)]), (0, &[(1, 4), (2, 4), (3, 10)]), (0, &[(1, 10), (2, 10)]),
    // Falling ranges: refused, past the glyphs too.
    (5, &[(1, 4)]), (0, &[(1, 6), (2, 5)]), (0, &[(1, 6), (2, 5), (3, 10)]), (65535, &[(1, 65534)]), (0, &[(1, 100), (2, 50)]),
    (20, &[(1, 19)]), (1, &[(1, 0)]),
    // Past the glyphs.
    (0, &[(1, 11)]), (0, &[(1, 65535)]), (0, &[(1, 9), (2, 300), (3, 301)]), (65535, &[(1, 65535)]), (0, &[(1, 10), (2, 65535)]),
    (0, &[(255, 10)]), (0, &[(1, 1), (2, 2), (3, 3), (4, 4), (5, 5), (6, 6), (7, 7), (8, 8), (9, 9), (10, 10)]),
];

pub(super) fn chosen_selects(cases: &mut Cases) {
    formats(cases, select, [0, 1, 4], &[0, 1, 0, 0, 7, 0, 4]);
    positions(cases, select, [0, 1, 65535], [9, 9, 3]);
    for (glyphs, whole) in [
        (5, [&[0][..], &counted(5)].concat()),
        (3, fd_ranges(2, 0, &[(0, 2), (1, 3)])),
        (9, fd_ranges(3, 0, &[(4, 2), (0, 5), (255, 9)])),
    ] {
        parts_and_glyphs(cases, select, glyphs, &whole);
    }
    // No range: the first glyph is still read.
    for glyphs in [0, 1, 5] {
        for first in [0, 3, 65535] {
            let whole = fd_ranges(0, first, &[]);
            select(cases, 0, glyphs, &whole);
            select(cases, 0, glyphs, &whole[..4]);
            select(cases, 0, glyphs, &whole[..3]);
        }
    }
    for (first, ranges) in RANGES {
        let count = ranges.len() as u16;
        for glyphs in [0, 1, 9, 10, 11] {
            select(cases, 0, glyphs, &fd_ranges(count, *first, ranges));
        }
        select(cases, 0, 10, &fd_ranges(count + 1, *first, ranges));
        select(cases, 0, 10, &fd_ranges(count - 1, *first, ranges));
        select(cases, 0, 10, &fd_ranges(65535, *first, ranges));
    }
    // Many glyphs.
    for glyphs in [255, 256, 257, MOST_FDS] {
        select(cases, 0, glyphs, &fd_ranges(2, 0, &[(3, 250), (4, glyphs)]));
        select(cases, 0, glyphs, &fd_ranges(2, 0, &[(3, 256), (4, 65535)]));
    }
    select(cases, 0, 119, &[&[0][..], &counted(119)].concat());
    select(cases, 0, 120, &[&[0][..], &counted(119)].concat());
    select(cases, 0, 65535, &fd_ranges(2, 0, &[(3, 250)]));
    select(cases, 0, 65535, &fd_ranges(2, 0, &[(3, 250), (4, 249)]));
}

pub(super) fn random_select(cases: &mut Cases, random: &mut Generator) {
    let pos = random.one_of(&[0, 0, 1, 4, 11]);
    let mut covered = 0u16;
    let whole = if random.once_in(4) {
        covered = random.below(60) as u16;
        [&[0][..], &random.bytes(usize::from(covered))].concat()
    } else {
        let start = if random.once_in(4) {
            random.below(6) as u16
        } else {
            0
        };
        covered += start;
        let list: Vec<(u8, u16)> = (0..1 + random.below(10))
            .map(|_| {
                covered += random.below(12) as u16;
                let next = if random.once_in(20) {
                    covered.saturating_sub(random.below(9) as u16)
                } else {
                    covered
                };
                (
                    if random.once_in(5) {
                        random.byte()
                    } else {
                        random.below(4) as u8
                    },
                    next,
                )
            })
            .collect();
        fd_ranges(list.len() as u16, start, &list)
    };
    let mut font = among_others(random, pos, whole);
    let glyphs = match random.below(5) {
        0 => random.below(usize::from(covered) + 1) as u16,
        1 => covered + 1 + random.below(9) as u16,
        _ => covered,
    };
    damage(random, 6, &mut font);
    select(cases, pos, glyphs.min(MOST_FDS), &font);
}
