//! Reach records: document 01, 'Reach record'.

use crate::cff::{CffProgram, Reached, Site};
use std::collections::BTreeSet;

/// The bytes of a row.
pub const ROW: usize = 10;

/// Kinds of rows.
pub const LOCAL: u8 = 0;
pub const GLOBAL: u8 = 1;
pub const GLYPH_MASK: u8 = 2;
pub const LOCAL_MASK: u8 = 3;
pub const GLOBAL_MASK: u8 = 4;

/// A row of a record.
#[derive(Clone, Copy, Debug, PartialEq, Eq, PartialOrd, Ord)]
pub struct Row {
    pub kind: u8,
    pub fd: u8,
    pub number: u16,
    pub offset: u32,
    pub length: u16,
}

impl Row {
    pub fn bytes(&self) -> [u8; ROW] {
        let mut out = [0; ROW];
        out[0] = self.kind;
        out[1] = self.fd;
        out[2..4].copy_from_slice(&self.number.to_be_bytes());
        out[4..8].copy_from_slice(&self.offset.to_be_bytes());
        out[8..].copy_from_slice(&self.length.to_be_bytes());
        out
    }

    fn read(bytes: &[u8]) -> Row {
        Row {
            kind: bytes[0],
            fd: bytes[1],
            number: u16::from_be_bytes([bytes[2], bytes[3]]),
            offset: u32::from_be_bytes([bytes[4], bytes[5], bytes[6], bytes[7]]),
            length: u16::from_be_bytes([bytes[8], bytes[9]]),
        }
    }

    /// Whether the fields that must be 0 are.
    fn sound(&self, cid_keyed: bool) -> bool {
        let fd_free = cid_keyed && [LOCAL, LOCAL_MASK].contains(&self.kind);
        let mask = self.kind >= GLYPH_MASK;
        self.kind <= GLOBAL_MASK
            && (fd_free || self.fd == 0)
            && (mask || self.offset == 0 && self.length == 0)
    }
}

/// The bytes of rows.
pub fn bytes(rows: &[Row]) -> Vec<u8> {
    rows.iter().flat_map(Row::bytes).collect()
}

/// The rows of a record of whole rows.
pub fn rows(record: &[u8]) -> Vec<Row> {
    record.chunks_exact(ROW).map(Row::read).collect()
}

/// Whether refusal 8 does not apply.
pub fn sound(record: &[u8], flag: u8, cid_keyed: bool) -> bool {
    record.len().is_multiple_of(ROW)
        && flag <= 1
        && (flag == 1 || record.is_empty())
        && rows(record).iter().all(|row| row.sound(cid_keyed))
}

/// What rows say of the glyphs of one FD.
pub fn reached(rows: &[Row], fd: u8) -> Reached {
    let mut all = Reached::default();
    for row in rows {
        let number = usize::from(row.number);
        let mut mask = |site| {
            all.masks
                .insert((site, row.offset as usize, usize::from(row.length)))
        };
        match row.kind {
            LOCAL if row.fd == fd => all.local.insert(number),
            GLOBAL => all.global.insert(number),
            GLYPH_MASK => mask(Site::Glyph(row.number)),
            LOCAL_MASK if row.fd == fd => mask(Site::Local(number)),
            GLOBAL_MASK => mask(Site::Global(number)),
            _ => false,
        };
    }
    all
}

/// The rows of what one glyph reaches, by the original; none where it fails.
pub fn of_glyph(program: &CffProgram, gid: u16) -> Option<BTreeSet<Row>> {
    if program.charstring(gid).ok()?.is_empty() {
        return Some(BTreeSet::new());
    }
    let reached = program.reached_subrs(gid).ok()?;
    let fd = program.fd_index(gid).unwrap_or(0);
    let subroutine = |kind, fd, number: usize| Row {
        kind,
        fd,
        number: number as u16,
        offset: 0,
        length: 0,
    };
    let mut rows = BTreeSet::new();
    rows.extend(reached.local.iter().map(|&k| subroutine(LOCAL, fd, k)));
    rows.extend(reached.global.iter().map(|&k| subroutine(GLOBAL, 0, k)));
    for &(site, offset, length) in &reached.masks {
        let row = match site {
            Site::Glyph(gid) => subroutine(GLYPH_MASK, 0, usize::from(gid)),
            Site::Local(k) => subroutine(LOCAL_MASK, fd, k),
            Site::Global(k) => subroutine(GLOBAL_MASK, 0, k),
        };
        rows.insert(Row {
            offset: offset as u32,
            length: length as u16,
            ..row
        });
    }
    Some(rows)
}

/// The rows of what glyphs reach; none where one fails.
pub fn of_glyphs(program: &CffProgram, gids: &BTreeSet<u16>) -> Option<Vec<Row>> {
    let mut all = BTreeSet::new();
    for &gid in gids {
        all.extend(of_glyph(program, gid)?);
    }
    Some(all.into_iter().collect())
}
