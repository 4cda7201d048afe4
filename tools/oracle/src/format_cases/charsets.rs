//! Charsets read at a position, for a number of glyphs.

use super::{MOST_IDS, among_others, charset, damage, formats, parts_and_glyphs, positions};
use crate::cases::Cases;
use crate::generator::Generator;

/// The bytes of a charset with ranges: first id and how many follow it.
fn id_ranges(format: u8, ranges: &[(u16, u16)]) -> Vec<u8> {
    let mut out = vec![format];
    for (first, left) in ranges {
        out.extend_from_slice(&first.to_be_bytes());
        if format == 1 {
            out.push(*left as u8);
        } else {
            out.extend_from_slice(&left.to_be_bytes());
        }
    }
    out
}

fn ids(list: &[u16]) -> Vec<u8> {
    let mut out = vec![0];
    out.extend(list.iter().flat_map(|id| id.to_be_bytes()));
    out
}

pub(super) fn chosen_charsets(cases: &mut Cases) {
    // One glyph: the format alone is read. Every format.
    formats(cases, charset, [1, 2, 5], &[0, 1, 0, 2, 0, 9, 0, 10]);
    positions(cases, charset, [1, 2, 65535], [9, 1, 2]);
    for (glyphs, whole) in [
        (5, ids(&[1, 391, 65535, 2])),
        (7, id_ranges(1, &[(1, 2), (300, 2)])),
        (7, id_ranges(2, &[(1, 2), (300, 2)])),
    ] {
        parts_and_glyphs(cases, charset, glyphs, &whole);
    }
    for format in [1, 2] {
        // Ids up to 65535 and past it, asked for and not.
        for (first, left) in [
            (65535, 0),
            (65535, 1),
            (65530, 5),
            (65530, 6),
            (65530, 200),
            (65281, 254),
            (65281, 255),
        ] {
            for glyphs in [1, 2, 3, 6, 7, 8, 255, 256, 257, 258] {
                let font = id_ranges(format, &[(first, left), (40, 255), (600, 255)]);
                charset(cases, 0, glyphs, &font);
            }
        }
        // Ranges of one id, past the glyphs, the same ids again, a range never reached, an id 0.
        let lists: &[&[(u16, u16)]] = &[
            &[(0, 0)],
            &[(1, 0), (2, 0), (3, 0)],
            &[(1, 100)],
            &[(5, 1), (5, 1), (4, 3)],
            &[(9, 3), (65535, 9)],
            &[(9, 2), (65535, 9)],
            &[(300, 1), (200, 1), (100, 1)],
        ];
        for list in lists {
            for glyphs in [1, 2, 3, 4, 5, 6, 9] {
                charset(cases, 0, glyphs, &id_ranges(format, list));
            }
        }
    }
    // The longest ranges.
    for (left, glyphs) in [
        (65535, 300),
        (299, 300),
        (298, 300),
        (297, 300),
        (300, 300),
        (256, 300),
        (256, 258),
        (256, 259),
    ] {
        charset(cases, 0, glyphs, &id_ranges(2, &[(1, left)]));
        charset(cases, 0, glyphs, &id_ranges(2, &[(0, left)]));
    }
    charset(cases, 0, 257, &id_ranges(1, &[(1, 255)]));
    charset(cases, 0, 258, &id_ranges(1, &[(1, 255)]));
    charset(cases, 0, 258, &id_ranges(1, &[(1, 255), (900, 0)]));
    // Most glyphs: past the font, or past the last id.
    charset(cases, 0, 65535, &id_ranges(1, &[(1, 255), (257, 255)]));
    charset(cases, 0, 65535, &id_ranges(2, &[(1, 60000)]));
    charset(cases, 0, 65535, &id_ranges(2, &[(1000, 65535)]));
    charset(cases, 0, 60, &ids(&(1..60).collect::<Vec<u16>>()));
    charset(cases, 0, 61, &ids(&(1..60).collect::<Vec<u16>>()));
}

pub(super) fn random_charset(cases: &mut Cases, random: &mut Generator) {
    let pos = random.one_of(&[0, 0, 1, 4, 11]);
    let format = random.one_of(&[0, 0, 1, 1, 1, 2, 2, 2]);
    let mut covered = 1;
    let whole = if format == 0 {
        let count = random.below(30);
        covered += count;
        let list: Vec<u16> = (0..count).map(|_| random.word() as u16).collect();
        ids(&list)
    } else {
        let list: Vec<(u16, u16)> = (0..1 + random.below(8))
            .map(|_| {
                let first = if random.once_in(6) {
                    65535 - random.below(12)
                } else {
                    random.below(3000)
                } as u16;
                let left = if random.once_in(3) {
                    0
                } else {
                    random.below(14)
                } as u16;
                covered += usize::from(left) + 1;
                (first, left)
            })
            .collect();
        id_ranges(format, &list)
    };
    let mut font = among_others(random, pos, whole);
    let glyphs = match random.below(6) {
        0 => 1 + random.below(covered),
        1 => covered + 1 + random.below(3),
        2 => covered.saturating_sub(1).max(1),
        _ => covered,
    };
    let glyphs = (glyphs as u16).min(MOST_IDS);
    damage(random, 7, &mut font);
    charset(cases, pos, glyphs, &font);
}
