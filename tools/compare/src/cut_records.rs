//! Records for a cut: the original's own, altered ones and malformed ones.

use crate::cff::{CffProgram, Privates};
use crate::cut::OWN;
use crate::generator::Generator;
use crate::record::{self, GLOBAL, GLOBAL_MASK, GLYPH_MASK, LOCAL, LOCAL_MASK, ROW, Row};
use std::collections::BTreeSet;

/// A record, its flag, and what it is.
pub struct Record {
    pub bytes: Vec<u8>,
    pub flag: u8,
    pub kind: &'static str,
}

/// How many subroutines there are: globals, and locals of each FD.
struct Counts {
    globals: usize,
    locals: Vec<usize>,
    cid_keyed: bool,
}

impl Counts {
    fn of(program: &CffProgram) -> Counts {
        let locals = match program.privates() {
            Privates::Single(private) => vec![private.subrs.len()],
            Privates::Cid { dicts, .. } => dicts.iter().map(|d| d.subrs.len()).collect(),
        };
        Counts {
            globals: program.global_subrs().len(),
            locals,
            cid_keyed: program.is_cid_keyed(),
        }
    }

    /// A row of any kind, its number at hand or next to the last one.
    fn row(&self, g: &mut Generator, glyphs: usize) -> Row {
        let kind = g.below(5) as u8;
        let fd = g.below(self.locals.len().min(256));
        let count = match kind {
            LOCAL | LOCAL_MASK => self.locals[fd],
            GLOBAL | GLOBAL_MASK => self.globals,
            _ => glyphs,
        };
        let number = if g.once_in(10) {
            g.one_of(&[count, count + 1, 65535]).min(65535)
        } else {
            g.below(count.max(1))
        };
        let fd_free = self.cid_keyed && [LOCAL, LOCAL_MASK].contains(&kind);
        let mask = kind >= GLYPH_MASK;
        Row {
            kind,
            fd: if fd_free { fd as u8 } else { 0 },
            number: number as u16,
            offset: if mask { g.below(24) as u32 } else { 0 },
            length: if mask { g.below(5) as u16 } else { 0 },
        }
    }

    /// A row for each subroutine.
    fn all(&self) -> Vec<Row> {
        let row = |kind, fd: usize, number: usize| Row {
            kind,
            fd: fd as u8,
            number: number as u16,
            offset: 0,
            length: 0,
        };
        let mut rows: Vec<Row> = (0..self.globals).map(|k| row(GLOBAL, 0, k)).collect();
        for (fd, &count) in self.locals.iter().take(256).enumerate() {
            rows.extend((0..count).map(|k| row(LOCAL, fd, k)));
        }
        rows
    }
}

/// The record that the original's trace gives for these glyphs.
pub fn own(program: &CffProgram, kept: &BTreeSet<u16>) -> Record {
    let rows = record::of_glyphs(program, kept);
    Record {
        flag: u8::from(rows.is_some()),
        bytes: rows.map_or(Vec::new(), |rows| record::bytes(&rows)),
        kind: OWN,
    }
}

/// The record of a failed trace.
pub fn none() -> Record {
    Record {
        bytes: Vec::new(),
        flag: 0,
        kind: "flag 0",
    }
}

/// A record for these glyphs, in most cases with its rows in another order.
pub fn any(g: &mut Generator, program: &CffProgram, kept: &BTreeSet<u16>) -> Record {
    let mut record = made(g, program, kept);
    rearrange(g, &mut record.bytes);
    record
}

/// Rows shuffled, reversed or doubled, three times in four: order and repeats are free.
fn rearrange(g: &mut Generator, bytes: &mut Vec<u8>) {
    let whole = bytes.len() / ROW * ROW;
    let rest = bytes.split_off(whole);
    let mut rows: Vec<Vec<u8>> = bytes.chunks(ROW).map(<[u8]>::to_vec).collect();
    match g.below(4) {
        0 => {}
        1 => rows.reverse(),
        shuffled => {
            if shuffled == 2 {
                rows.extend(rows.clone());
            }
            for k in (1..rows.len()).rev() {
                let l = g.below(k + 1);
                rows.swap(k, l);
            }
        }
    }
    *bytes = rows.concat();
    bytes.extend(rest);
}

/// A record for these glyphs.
fn made(g: &mut Generator, program: &CffProgram, kept: &BTreeSet<u16>) -> Record {
    match g.below(20) {
        0..=6 => own(program, kept),
        7 => none(),
        8 => Record {
            bytes: Vec::new(),
            flag: 1,
            kind: "no rows",
        },
        9 => malformed(g, program, kept),
        _ => altered(g, program, kept),
    }
}

/// The rows of those glyphs that the original can trace.
fn traced(program: &CffProgram, kept: &BTreeSet<u16>) -> Vec<Row> {
    let mut rows = BTreeSet::new();
    for &glyph in kept {
        rows.extend(record::of_glyph(program, glyph).unwrap_or_default());
    }
    rows.into_iter().collect()
}

fn altered(g: &mut Generator, program: &CffProgram, kept: &BTreeSet<u16>) -> Record {
    let counts = Counts::of(program);
    let glyphs = usize::from(program.glyph_count());
    let mut rows = traced(program, kept);
    let mut kind = "those of the glyphs that can be traced";
    for _ in 0..1 + g.below(2) {
        kind = alter(g, &mut rows, &counts, program, glyphs);
    }
    Record {
        bytes: record::bytes(&rows),
        flag: 1,
        kind,
    }
}

/// The rows of all subroutines but a few at the end of those of each kind: around a step of the bias of the new count.
pub fn many(g: &mut Generator, program: &CffProgram, kept: &BTreeSet<u16>) -> Record {
    let counts = Counts::of(program);
    let mut rows = traced(program, kept);
    let last = g.one_of(&[1237, 1238, 1239, 1240, 33_898, 33_899, 65_535]);
    rows.extend(counts.all().into_iter().filter(|row| row.number <= last));
    Record {
        bytes: record::bytes(&rows),
        flag: 1,
        kind: "every subroutine",
    }
}

/// One alteration.
fn alter(
    g: &mut Generator,
    rows: &mut Vec<Row>,
    counts: &Counts,
    program: &CffProgram,
    glyphs: usize,
) -> &'static str {
    let masks: Vec<usize> = (0..rows.len())
        .filter(|&k| rows[k].kind >= GLYPH_MASK)
        .collect();
    match g.below(9) {
        0 if !rows.is_empty() => {
            let k = g.below(rows.len());
            rows.remove(k);
            "rows dropped"
        }
        1 if !rows.is_empty() => {
            let k = g.below(rows.len());
            let row = rows[k];
            let at = g.below(rows.len() + 1);
            rows.insert(at, row);
            "rows doubled"
        }
        2 if rows.len() > 1 => {
            for k in (1..rows.len()).rev() {
                let l = g.below(k + 1);
                rows.swap(k, l);
            }
            "rows in another order"
        }
        3 if !masks.is_empty() => {
            let k = masks[g.below(masks.len())];
            rows[k].length = length(g, rows[k].length);
            "another length"
        }
        4 if !masks.is_empty() => {
            let mut row = rows[masks[g.below(masks.len())]];
            row.length = length(g, row.length);
            rows.push(row);
            "two lengths at one offset"
        }
        5 => {
            let glyph = g.below(glyphs) as u16;
            rows.extend(record::of_glyph(program, glyph).unwrap_or_default());
            "rows of another glyph"
        }
        6 if counts.cid_keyed => {
            let fd = g.below(256) as u8;
            for row in rows.iter_mut().filter(|row| row.fd != 0) {
                row.fd = fd;
            }
            let mut row = counts.row(g, glyphs);
            row.kind = g.one_of(&[LOCAL, LOCAL_MASK]);
            row.fd = fd;
            if row.kind == LOCAL {
                (row.offset, row.length) = (0, 0);
            }
            rows.push(row);
            "rows of another FD"
        }
        7 => {
            rows.extend(counts.all());
            "every subroutine"
        }
        _ => {
            for _ in 0..1 + g.below(3) {
                let row = counts.row(g, glyphs);
                rows.push(row);
            }
            "rows added"
        }
    }
}

/// Another length than this one.
fn length(g: &mut Generator, length: u16) -> u16 {
    match g.below(4) {
        0 => length.wrapping_sub(1),
        1 => g.one_of(&[0, 300, 65535]),
        _ => length.wrapping_add(1),
    }
}

/// A record that refusal 8 is for.
pub fn malformed(g: &mut Generator, program: &CffProgram, kept: &BTreeSet<u16>) -> Record {
    let counts = Counts::of(program);
    let glyphs = usize::from(program.glyph_count());
    let mut rows = traced(program, kept);
    for _ in 0..1 + g.below(3) {
        let row = counts.row(g, glyphs);
        rows.push(row);
    }
    let k = g.below(rows.len());
    let row = &mut rows[k];
    let mut flag = 1;
    let mut cut = 0;
    let kind = match g.below(7) {
        0 => {
            cut = 1 + g.below(ROW - 1);
            "length no multiple of 10"
        }
        1 => {
            row.kind = g.one_of(&[5, 6, 255]);
            "kind above 4"
        }
        2 => {
            row.kind = g.one_of(&[GLOBAL, GLYPH_MASK, GLOBAL_MASK]);
            row.fd = g.one_of(&[1, 255]);
            (row.offset, row.length) = (0, 0);
            "an FD that must be 0"
        }
        3 => {
            row.kind = g.one_of(&[LOCAL, GLOBAL]);
            row.fd = 0;
            if g.once_in(2) {
                row.offset = g.one_of(&[1, 256, 65536, 1 << 24]);
            } else {
                row.length = g.one_of(&[1, 256]);
            }
            "an offset or length that must be 0"
        }
        4 => {
            flag = g.one_of(&[2, 3, 255]);
            "flag above 1"
        }
        5 if !counts.cid_keyed => {
            row.kind = g.one_of(&[LOCAL, LOCAL_MASK]);
            row.fd = 1;
            (row.offset, row.length) = (0, 0);
            "an FD in a name-keyed font"
        }
        _ => {
            flag = 0;
            "rows with flag 0"
        }
    };
    let mut bytes = record::bytes(&rows);
    if kind == "flag above 1" && g.once_in(2) {
        bytes.clear();
    }
    bytes.truncate(bytes.len() - cut.min(bytes.len()));
    Record { bytes, flag, kind }
}
