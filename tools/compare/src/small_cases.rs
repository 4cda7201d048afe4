//! What is asked of fonts with more glyphs than the library's window, with few work words and with many.

use crate::cut::{self, Cut};
use crate::cut_compare::Opened;
use crate::cut_records::{self, Record};
use crate::generator::Generator;
use crate::library::{Room, library};
use crate::record::ROW;
use crate::small_fonts::{WINDOW, shuffle};
use crate::trace;

/// So many glyphs are kept beside glyph 0: at the ends of the first windows.
const EDGES: [usize; 7] = [
    3,
    76,
    WINDOW - 2,
    WINDOW - 1,
    WINDOW,
    2 * WINDOW - 1,
    2 * WINDOW,
];

/// Glyphs of a list by chance, so many at most, in any order.
fn some(g: &mut Generator, found: &[u16], count: usize) -> Vec<u16> {
    let mut list: Vec<u16> = found.iter().copied().filter(|&k| k != 0).collect();
    shuffle(g, &mut list);
    list.truncate(count);
    list
}

/// Keep lists: all glyphs that are found, those at the ends of windows, every second, those of a range of ids, and those whose ids rise.
fn lists(g: &mut Generator, found: &[u16], ids: &[u16]) -> Vec<Vec<u16>> {
    let id = |glyph: u16| ids[usize::from(glyph)];
    let mut lists = vec![found.to_vec()];
    for count in EDGES {
        if count < found.len() {
            lists.push(some(g, found, count));
        }
    }
    lists.push(found.iter().copied().step_by(2).collect());
    let mut least = id(0);
    let rising = found.iter().copied().filter(|&glyph| {
        let rises = id(glyph) > least;
        least = least.max(id(glyph));
        rises
    });
    lists.push(rising.collect());
    let from = g.below(60_000) as u16;
    let range = |glyph: &u16| (from..=from + 5000).contains(&id(*glyph));
    lists.push(found.iter().copied().filter(range).collect());
    let mut doubled = some(g, found, WINDOW + 40);
    doubled.extend(doubled.clone());
    lists.push(doubled);
    if found.len() < ids.len() {
        // One that is not found.
        let other = (0..ids.len() as u16).find(|k| found.binary_search(k).is_err());
        lists.push([found, other.as_slice()].concat());
    }
    lists
}

/// The library's own record, and what else may be given in its place.
fn records(g: &mut Generator, font: &[u8], keep: &[u16]) -> Vec<Record> {
    let (flag, bytes) = traced(font, keep);
    let own = |kind, bytes| Record { bytes, flag, kind };
    let mut rows: Vec<Vec<u8>> = bytes.chunks(ROW).map(<[u8]>::to_vec).collect();
    let mut records = vec![own("traced", bytes)];
    shuffle(g, &mut rows);
    match g.below(6) {
        0 => records.push(cut_records::none()),
        1 => records.push(own("no rows", Vec::new())),
        2 => {
            rows.truncate(rows.len() / 2);
            records.push(own("traced, half of the rows", rows.concat()));
        }
        3 => {
            let mut bytes = rows.concat();
            bytes.push(1);
            records.push(own("a row cut off", bytes));
        }
        _ => records.push(own("traced, shuffled", rows.concat())),
    }
    records
}

/// The flag and the rows of the library's trace, none where it is refused.
fn traced(font: &[u8], keep: &[u16]) -> (u8, Vec<u8>) {
    let mut rows = vec![0; 1 << 22];
    let mut answer = [0; trace::WORDS];
    let mut record = Room {
        lent: rows.len(),
        all: &mut rows,
    };
    let mut words = Room {
        lent: answer.len(),
        all: &mut answer,
    };
    if (library().trace)(font, keep, &mut record, &mut words) != 0 {
        return (1, Vec::new());
    }
    rows.truncate(answer[1] as usize);
    (answer[0] as u8, rows)
}

/// The cuts of a font with many glyphs.
pub fn many(g: &mut Generator, opened: &Opened<'_>) -> Vec<Cut> {
    let (Ok(font), Some(program)) = (opened.read, opened.program) else {
        return Vec::new();
    };
    let found: Vec<u16> = (0..font.charset.len() as u16)
        .filter(|&k| cut::found(opened.bytes, font, program, k))
        .collect();
    let mut cuts = Vec::new();
    for keep in lists(g, &found, &font.charset) {
        for Record { bytes, flag, kind } in records(g, opened.bytes, &keep) {
            cuts.push(Cut {
                cid_keyed: font.cid_keyed,
                name: b"ABCDEF+Many".to_vec(),
                keep: keep.clone(),
                record: bytes,
                flag,
                record_kind: kind,
                encoding: 0,
            });
        }
    }
    cuts
}
