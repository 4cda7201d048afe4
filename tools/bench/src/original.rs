//! The original: parsed and subset from the bytes, and the record of what its trace reaches.

use crate::cff::{CffProgram, write};
use crate::hooked;
use crate::record::{self, Row};
use std::collections::BTreeSet;

/// What the original is asked for: its own form of a keep list.
pub enum Kept {
    Names(BTreeSet<Vec<u8>>),
    Cids(BTreeSet<u16>),
}

/// Glyph 0 and those listed.
pub fn glyphs(keep: &[u16]) -> BTreeSet<u16> {
    keep.iter().copied().chain([0]).collect()
}

/// The keep list in the original's form: the names or CIDs of glyph 0 and those listed.
pub fn kept(program: &CffProgram, keep: &[u16]) -> Kept {
    let all = glyphs(keep);
    if program.is_cid_keyed() {
        let cid = |&k: &u16| program.charset()[usize::from(k)];
        Kept::Cids(all.iter().map(cid).collect())
    } else {
        let name = |&k: &u16| program.glyph_name(k).map(<[u8]>::to_vec);
        Kept::Names(all.iter().filter_map(name).collect())
    }
}

/// `parse`, then `subset` or `subset_cid`.
pub fn cut(font: &[u8], name: &[u8], kept: &Kept) -> Vec<u8> {
    let program = CffProgram::parse(font).expect("a font that is read");
    match kept {
        Kept::Names(names) => write::subset(&program, name, names),
        Kept::Cids(cids) => write::subset_cid(&program, name, cids),
    }
    .expect("a subset")
}

/// The same with these rows in the place of its own trace.
pub fn cut_by(font: &[u8], name: &[u8], kept: &Kept, rows: Vec<Row>) -> Vec<u8> {
    let program = CffProgram::parse(font).expect("a font that is read");
    hooked::with(hooked::Given::Rows(rows), || match kept {
        Kept::Names(names) => hooked::write::subset(&program, name, names),
        Kept::Cids(cids) => hooked::write::subset_cid(&program, name, cids),
    })
    .expect("a subset")
}

/// `parse`, then `gid` for each name.
pub fn find(font: &[u8], names: &[String]) -> Vec<Option<u16>> {
    let program = CffProgram::parse(font).expect("a font that is read");
    let find = |name: &String| program.gid(name.as_bytes());
    names.iter().map(find).collect()
}

/// The rows that the kept glyphs reach, rising; none where one cannot be traced.
pub fn record(program: &CffProgram, keep: &[u16]) -> mogdivash::Record {
    match record::of_glyphs(program, &glyphs(keep)) {
        None => mogdivash::Record::untraced(),
        Some(rows) => mogdivash::Record::from_bytes(record::bytes(&rows)),
    }
}
