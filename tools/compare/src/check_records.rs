//! Records to check: what was traced, and what is made of it.

use crate::generator::Generator;
use crate::record::{self, GLOBAL, GLOBAL_MASK, GLYPH_MASK, LOCAL, LOCAL_MASK, ROW, Row};
use crate::trace_model::Tracer;
use std::collections::BTreeSet;

/// A record, what it is, and the answer where that says it.
pub struct Record {
    pub bytes: Vec<u8>,
    pub kind: &'static str,
    pub answer: Option<u8>,
}

/// Rows that are dropped one by one from one record, and as many again of a long one.
const DROPPED: usize = 12;

/// The answer to a record that is not accepted.
pub const NOT_ACCEPTED: u8 = 14;

/// In any order.
pub fn shuffled<T>(g: &mut Generator, mut list: Vec<T>) -> Vec<T> {
    for k in (1..list.len()).rev() {
        let l = g.below(k + 1);
        list.swap(k, l);
    }
    list
}

/// A row of a subroutine reached.
fn reached(kind: u8, fd: u8, number: usize) -> Row {
    Row {
        kind,
        fd,
        number: number.min(65_535) as u16,
        offset: 0,
        length: 0,
    }
}

/// A row of a mask somewhere.
fn mask(g: &mut Generator, fds: usize) -> Row {
    let kind = g.one_of(&[GLYPH_MASK, LOCAL_MASK, GLOBAL_MASK]);
    let fd = if kind == LOCAL_MASK { g.below(fds) } else { 0 };
    Row {
        kind,
        fd: fd as u8,
        number: g.below(9) as u16,
        offset: g.below(24) as u32,
        length: g.one_of(&[0, 1, 2, 12, 15, 16, 17, 65_535]),
    }
}

/// Records made of rows that were traced for these glyphs.
pub fn traced(
    g: &mut Generator,
    tracer: &Tracer<'_>,
    kept: &BTreeSet<u16>,
    rows: &[Row],
) -> Vec<Record> {
    let mut all = Vec::new();
    let mut push = |kind, answer, rows: &[Row]| {
        let bytes = record::bytes(rows);
        all.push(Record {
            bytes,
            kind,
            answer,
        });
    };
    let with = |row: Row| [rows, &[row]].concat();
    push("as traced", Some(0), rows);
    push("in another order", Some(0), &shuffled(g, rows.to_vec()));
    // Each row of a short record, and some of a long one.
    for _ in DROPPED..rows.len().min(2 * DROPPED) {
        let mut left = rows.to_vec();
        left.remove(g.below(rows.len()));
        push("a row dropped", Some(NOT_ACCEPTED), &left);
    }
    for k in 0..rows.len().min(DROPPED) {
        let mut left = rows.to_vec();
        left.remove(k);
        push("a row dropped", Some(NOT_ACCEPTED), &shuffled(g, left));
    }
    if let Some(&row) = rows.get(g.below(rows.len().max(1))) {
        let doubled = with(row);
        push("a row twice", Some(0), &shuffled(g, doubled));
        let zeroed = Row {
            length: row.length ^ 16,
            ..row
        };
        if row.kind >= GLYPH_MASK {
            push("a second length", Some(0), &with(zeroed));
            let second = Row {
                length: row.length + 1,
                ..row
            };
            push("a second length", Some(0), &with(second));
            let other: Vec<Row> = rows
                .iter()
                .map(|&r| if r == row { second } else { r })
                .collect();
            push("another length", Some(NOT_ACCEPTED), &other);
            let other: Vec<Row> = rows
                .iter()
                .map(|&r| if r == row { zeroed } else { r })
                .collect();
            push("another length, by 16", Some(NOT_ACCEPTED), &other);
        }
    }
    let fds = tracer.fds().min(256);
    let used: BTreeSet<u8> = kept.iter().map(|&k| tracer.fd(k)).collect();
    push(
        "a further mask",
        Some(0),
        &with(mask(g, if tracer.font.cid_keyed { fds } else { 1 })),
    );
    for fd in used.iter().copied() {
        let count = tracer.locals(fd);
        if count > 0 {
            let row = reached(LOCAL, fd, g.below(count));
            push("a further subroutine", Some(0), &with(row));
        }
        if count < 65_536 {
            let past = g.one_of(&[count, count + 1, 65_535]);
            let row = reached(LOCAL, fd, past.max(count));
            push("past the locals", Some(NOT_ACCEPTED), &with(row));
        }
    }
    let count = tracer.font.globals.count;
    if count > 0 {
        push(
            "a further subroutine",
            Some(0),
            &with(reached(GLOBAL, 0, g.below(count))),
        );
    }
    if count < 65_536 {
        let past = g.one_of(&[count, count + 1, 65_535]).max(count);
        push(
            "past the globals",
            Some(NOT_ACCEPTED),
            &with(reached(GLOBAL, 0, past)),
        );
    }
    if tracer.font.cid_keyed {
        for fd in (0..=255)
            .filter(|fd| !used.contains(fd))
            .take(3)
            .chain([255])
        {
            if used.contains(&fd) {
                continue;
            }
            let number = g.one_of(&[0, 1, 7, 65_535]);
            push(
                "a row of an FD not in use",
                Some(0),
                &with(reached(LOCAL, fd, number)),
            );
        }
    }
    all.extend(others(g, rows));
    all
}

/// Records that need not fit any glyph: malformed ones, none, and any rows.
pub fn others(g: &mut Generator, rows: &[Row]) -> Vec<Record> {
    let mut all = Vec::new();
    let mut push = |kind, bytes| {
        all.push(Record {
            bytes,
            kind,
            answer: None,
        });
    };
    push("none", Vec::new());
    let bytes = record::bytes(rows);
    push(
        "cut off",
        [&bytes[..], &g.bytes(1 + rows.len() % (ROW - 1))].concat(),
    );
    let mut wrong = record::bytes(&[Row {
        kind: g.below(7) as u8,
        fd: g.one_of(&[0, 0, 1, 3]),
        number: g.below(5) as u16,
        offset: g.one_of(&[0, 0, 1]),
        length: g.one_of(&[0, 0, 1]),
    }]);
    wrong.splice(0..0, bytes);
    debug_assert!(wrong.len().is_multiple_of(ROW));
    push("with any row", wrong);
    all
}
