//! A model of subsetting, written from document 01 ('Corners in charstring.rs', 'Corners in write.rs', 'Layout', 'Reach
//! record') and TN5176, as a second reference for a subset's bytes beside the original. Wishes of document 02 are switches, as in
//! model.rs.

use crate::cff::STANDARD_STRINGS;
use crate::cut::{Cut, LARGEST_ID, PAIRS, STRING_IDS, Subset};
use crate::cut_model_bodies::{Numbers, rewritten};
use crate::cut_model_codes as codes;
use crate::cut_model_dicts::{
    clamped, decimal, fd_select, five, index, integer, offset_size, operator, private,
};
use crate::decimal::Decimal;
use crate::domain::Wishes;
use crate::model::{self, Font, Parts};
use crate::record::{self, GLOBAL, GLOBAL_MASK, GLYPH_MASK, LOCAL, LOCAL_MASK, Row};
use std::collections::{BTreeMap, BTreeSet};

const ROS: u16 = 12 << 8 | 30;
const CID_COUNT: u16 = 12 << 8 | 34;
const FONT_MATRIX: u16 = 12 << 8 | 7;
const ENCODING: u8 = 16;
/// The six string entries and the eight others that a subset copies.
const STRING_ENTRIES: [u16; 6] = [0, 1, 12 << 8, 2, 3, 4];
const ENTRIES: [u16; 8] = [
    5,
    12 << 8 | 1,
    12 << 8 | 2,
    12 << 8 | 3,
    12 << 8 | 4,
    12 << 8 | 5,
    12 << 8 | 8,
    FONT_MATRIX,
];
/// PaintType and StrokeWidth, which document 02, Wish 11, drops.
const STROKES: [u16; 2] = [12 << 8 | 5, 12 << 8 | 8];

/// A font and what is kept of it.
struct Model<'a> {
    bytes: &'a [u8],
    font: &'a Font,
    parts: Parts,
    rows: Vec<Row>,
    kept: BTreeSet<u16>,
    /// The FDs in use.
    fds: Vec<u8>,
    /// Whether the encoding is asked for.
    asked: bool,
    wishes: Wishes,
}

/// Bodies of a subset: charstrings by old number, globals, and locals of each FD in use.
struct Bodies {
    charstrings: BTreeMap<u16, Vec<u8>>,
    globals: Vec<Vec<u8>>,
    locals: Vec<Vec<Vec<u8>>>,
}

/// The subset, or refusal 12 or 13, for a cut that nothing else refuses.
pub fn cut(bytes: &[u8], font: &Font, cut: &Cut, wishes: Wishes) -> Option<Result<Subset, u8>> {
    let parts = model::parts(bytes, font.charset.len())?;
    let kept: BTreeSet<u16> = cut.keep.iter().copied().chain([0]).collect();
    let fds: BTreeSet<u8> = kept.iter().map(|&k| parts.select[usize::from(k)]).collect();
    let model = Model {
        bytes,
        font,
        parts,
        rows: record::rows(&cut.record),
        kept,
        fds: fds.into_iter().collect(),
        asked: cut.encoding != 0 && !font.cid_keyed && wishes.contains(&4),
        wishes,
    };
    let (way, bodies) = if cut.flag == 0 {
        (2, model.unpruned(None))
    } else if let Some(bodies) = model.renumbered() {
        (0, bodies)
    } else {
        (1, model.unpruned(Some(&model.rows)))
    };
    let bytes = model.layout(&cut.name, bodies);
    Some(bytes.map(|bytes| Subset { way, bytes }))
}

/// Whether a ROS can be used: it has three operands.
pub fn has_ros(bytes: &[u8], font: &Font) -> bool {
    let parts = model::parts(bytes, font.charset.len());
    let last = parts.and_then(|parts| parts.top.into_iter().rev().find(|e| e.0 == ROS));
    last.is_some_and(|(_, operands)| operands.len() == 3)
}

impl Model<'_> {
    fn charstring(&self, glyph: u16) -> &[u8] {
        &self.bytes[self.font.charstrings.span(self.bytes, usize::from(glyph))]
    }

    fn globals(&self) -> Vec<&[u8]> {
        let index = &self.font.globals;
        (0..index.count)
            .map(|k| &self.bytes[index.span(self.bytes, k)])
            .collect()
    }

    fn locals(&self, fd: u8) -> Vec<&[u8]> {
        match &self.parts.privates[usize::from(fd)].locals {
            None => Vec::new(),
            Some(index) => (0..index.count)
                .map(|k| &self.bytes[index.span(self.bytes, k)])
                .collect(),
        }
    }

    /// All as it is; with rows, each subroutine that no row names is a return.
    fn unpruned(&self, rows: Option<&Vec<Row>>) -> Bodies {
        let stubbed = |list: Vec<&[u8]>, kind: u8, fd: u8| -> Vec<Vec<u8>> {
            let named = |k: usize| {
                rows.is_none_or(|rows| {
                    let same = |row: &Row| {
                        row.kind == kind && row.fd == fd && usize::from(row.number) == k
                    };
                    rows.iter().any(same)
                })
            };
            let body = |(k, body): (usize, &&[u8])| if named(k) { body.to_vec() } else { vec![11] };
            list.iter().enumerate().map(body).collect()
        };
        Bodies {
            charstrings: self
                .kept
                .iter()
                .map(|&k| (k, self.charstring(k).to_vec()))
                .collect(),
            globals: stubbed(self.globals(), GLOBAL, 0),
            locals: self
                .fds
                .iter()
                .map(|&fd| stubbed(self.locals(fd), LOCAL, fd))
                .collect(),
        }
    }

    /// The new numbers of what rows of this kind and FD name; nothing where one names no subroutine.
    fn numbers(&self, kind: u8, fd: u8, old_count: usize) -> Option<Numbers> {
        let named: BTreeSet<u16> = self
            .rows
            .iter()
            .filter(|row| row.kind == kind && row.fd == fd)
            .map(|row| row.number)
            .collect();
        let new: BTreeMap<u16, usize> =
            named.into_iter().enumerate().map(|(k, n)| (n, k)).collect();
        let there = new.keys().all(|&n| usize::from(n) < old_count);
        there.then_some(Numbers { new, old_count })
    }

    /// The lengths that rows give for the masks of one body; nothing where two differ.
    fn lengths(&self, kind: u8, fd: u8, number: u16) -> Option<BTreeMap<usize, usize>> {
        let mut lengths = BTreeMap::new();
        for row in &self.rows {
            if (row.kind, row.fd, row.number) == (kind, fd, number) {
                let length = usize::from(row.length);
                if *lengths.entry(row.offset as usize).or_insert(length) != length {
                    return None;
                }
            }
        }
        Some(lengths)
    }

    fn renumbered(&self) -> Option<Bodies> {
        let old_globals = self.globals();
        let globals = self.numbers(GLOBAL, 0, old_globals.len())?;
        let mut bodies = Bodies {
            charstrings: BTreeMap::new(),
            globals: Vec::new(),
            locals: Vec::new(),
        };
        let mut only = None;
        for &fd in &self.fds {
            let old = self.locals(fd);
            let locals = self.numbers(LOCAL, fd, old.len())?;
            let mut written = Vec::new();
            for &k in locals.new.keys() {
                let lengths = self.lengths(LOCAL_MASK, fd, k)?;
                written.push(rewritten(
                    old[usize::from(k)],
                    &lengths,
                    Some(&locals),
                    &globals,
                )?);
            }
            bodies.locals.push(written);
            for &glyph in self
                .kept
                .iter()
                .filter(|&&k| self.parts.select[usize::from(k)] == fd)
            {
                let lengths = self.lengths(GLYPH_MASK, 0, glyph)?;
                let body = rewritten(self.charstring(glyph), &lengths, Some(&locals), &globals)?;
                bodies.charstrings.insert(glyph, body);
            }
            only = Some(locals);
        }
        // With two FDs in use a global subroutine may call no local one.
        let only = only.filter(|_| self.fds.len() == 1);
        for &k in globals.new.keys() {
            let lengths = self.lengths(GLOBAL_MASK, 0, k)?;
            let body = rewritten(
                old_globals[usize::from(k)],
                &lengths,
                only.as_ref(),
                &globals,
            )?;
            bodies.globals.push(body);
        }
        Some(bodies)
    }

    fn layout(&self, name: &[u8], bodies: Bodies) -> Result<Vec<u8>, u8> {
        let cid_keyed = self.font.cid_keyed;
        let mut order: Vec<u16> = self.kept.iter().copied().collect();
        let id = |k: &u16| self.font.charset[usize::from(*k)];
        if cid_keyed {
            order.sort_by_key(id);
        }
        let mut strings = Vec::new();
        let mut top = self.top(&mut strings);
        let mut charset = vec![0];
        for (k, glyph) in order.iter().enumerate() {
            let new = if cid_keyed {
                id(glyph)
            } else {
                self.new_id(id(glyph), &mut strings)
            };
            if k > 0 {
                charset.extend_from_slice(&new.to_be_bytes());
            }
        }
        if STANDARD_STRINGS.len() + strings.len() > LARGEST_ID + 1 {
            return Err(STRING_IDS);
        }
        // Document 02, Wish 4. A kept glyph has its name's new id, so that no string is added.
        let encoding = self.encoding(&mut strings)?;
        let select: Vec<u8> = order
            .iter()
            .map(|&k| {
                self.fds
                    .iter()
                    .position(|&fd| fd == self.parts.select[usize::from(k)])
                    .unwrap_or(0) as u8
            })
            .collect();
        let charstrings: Vec<Vec<u8>> = order
            .iter()
            .map(|k| bodies.charstrings[k].clone())
            .collect();
        let privates: Vec<(usize, Vec<u8>)> = self
            .fds
            .iter()
            .zip(&bodies.locals)
            .map(|(&fd, locals)| private(&self.parts.privates[usize::from(fd)].entries, locals))
            .collect();

        // The parts in their order; offsets in the top DICT take 5 bytes each.
        let offsets: &[&[u8]] = if cid_keyed {
            &[&[15], &[12, 37], &[17], &[12, 36]]
        } else if encoding.is_some() {
            &[&[15], &[ENCODING], &[17]]
        } else {
            &[&[15], &[17]]
        };
        let more: usize =
            offsets.iter().map(|o| 5 + o.len()).sum::<usize>() + if cid_keyed { 0 } else { 11 };
        let top_length = index(&[vec![0; top.len() + more]]).len();
        let front = [index(&strings), index(&bodies.globals)].concat();
        let mut at = 4 + index(&[name.to_vec()]).len() + top_length + front.len();
        let mut parts = vec![charset];
        if cid_keyed {
            parts.push(fd_select(&select));
        }
        parts.extend(encoding);
        parts.push(index(&charstrings));
        let matrices: Vec<Vec<u8>> = self.fds.iter().map(|&fd| self.matrix(fd)).collect();
        let measured: Vec<Vec<u8>> = matrices.iter().map(|m| vec![0; m.len() + 11]).collect();
        let fd_length = index(&measured).len();
        let mut private_at =
            at + parts.iter().map(Vec::len).sum::<usize>() + if cid_keyed { fd_length } else { 0 };
        let mut entries = Vec::new();
        for ((length, bytes), matrix) in privates.iter().zip(matrices) {
            entries.push([matrix, five(*length), five(private_at), vec![18]].concat());
            private_at += bytes.len();
        }
        if cid_keyed {
            parts.push(index(&entries));
        }
        for (operator, part) in offsets.iter().zip(&parts) {
            let predefined = *operator == [ENCODING] && self.font.encoding == model::EXPERT;
            top.extend(five(if predefined { 1 } else { at }));
            top.extend_from_slice(operator);
            at += part.len();
        }
        if !cid_keyed {
            top.extend(&entries[0]);
        }
        let mut out = vec![1, 0, 4, offset_size(private_at)];
        out.extend(index(&[name.to_vec()]));
        out.extend(index(&[top]));
        out.extend(front);
        parts.iter().for_each(|part| out.extend(part));
        privates.iter().for_each(|(_, bytes)| out.extend(bytes));
        Ok(out)
    }

    /// The encoding's bytes where it has an entry: none of the Expert one. More than 255 pairs are refused.
    fn encoding(&self, strings: &mut Vec<Vec<u8>>) -> Result<Option<Vec<u8>>, u8> {
        if !self.asked || self.font.encoding == model::STANDARD {
            return Ok(None);
        }
        if self.font.encoding == model::EXPERT {
            return Ok(Some(Vec::new()));
        }
        let mut pairs = Vec::new();
        for (code, glyph) in codes::of(self.bytes, self.font, codes::By::String)
            .into_iter()
            .enumerate()
        {
            if let Some(glyph) = glyph.filter(|g| self.kept.contains(g)) {
                let id = self.new_id(self.font.charset[usize::from(glyph)], strings);
                pairs.push((code as u8, id));
            }
        }
        let Ok(count) = u8::try_from(pairs.len()) else {
            return Err(PAIRS);
        };
        let mut out = vec![0x80, 0, count];
        for (code, id) in pairs {
            out.push(code);
            out.extend_from_slice(&id.to_be_bytes());
        }
        Ok(Some(out))
    }

    /// The operands of the last entry of an operator in the top DICT.
    fn last(&self, operator: u16) -> Option<&Vec<Decimal>> {
        self.parts
            .top
            .iter()
            .rev()
            .find(|e| e.0 == operator)
            .map(|e| &e.1)
    }

    /// Document 02, Wish 2: the last FontMatrix of an FD, which stands before Private in the new one.
    fn matrix(&self, fd: u8) -> Vec<u8> {
        let mut out = Vec::new();
        let last = self.parts.matrices.get(usize::from(fd));
        if let Some(Some(operands)) = last.filter(|_| self.wishes.contains(&2)) {
            operands.iter().for_each(|n| decimal(n, &mut out));
            operator(FONT_MATRIX, &mut out);
        }
        out
    }

    /// The new id of an old one's text.
    fn new_id(&self, old: u16, strings: &mut Vec<Vec<u8>>) -> u16 {
        let text = self.font.text(self.bytes, old);
        if let Some(k) = STANDARD_STRINGS.iter().position(|s| s.as_bytes() == text) {
            return k as u16;
        }
        let k = strings
            .iter()
            .position(|s| s == text)
            .unwrap_or(strings.len());
        if k == strings.len() {
            strings.push(text.to_vec());
        }
        (391 + k) as u16
    }

    /// The top DICT up to the offsets.
    fn top(&self, strings: &mut Vec<Vec<u8>>) -> Vec<u8> {
        let mut out = Vec::new();
        if let Some([registry, ordering, supplement]) = self.last(ROS).map(Vec::as_slice) {
            for id in [registry, ordering] {
                let new = self.new_id(clamped(id, 0, 65_535) as u16, strings);
                integer(i64::from(new), &mut out);
            }
            let supplement = clamped(supplement, i64::from(i32::MIN), i64::from(i32::MAX));
            decimal(&Decimal::integer(supplement), &mut out);
            operator(ROS, &mut out);
        }
        for entry in STRING_ENTRIES {
            if let Some([id]) = self.last(entry).map(Vec::as_slice) {
                let id = clamped(id, -1, 65_536);
                if let Ok(id) = u16::try_from(id) {
                    integer(i64::from(self.new_id(id, strings)), &mut out);
                    operator(entry, &mut out);
                }
            }
        }
        for entry in ENTRIES {
            if self.wishes.contains(&11) && STROKES.contains(&entry) {
                continue;
            }
            if let Some(operands) = self.last(entry) {
                operands.iter().for_each(|n| decimal(n, &mut out));
                operator(entry, &mut out);
            }
        }
        if self.font.cid_keyed {
            let count = match self.last(CID_COUNT).map(Vec::as_slice) {
                Some([n]) => clamped(n, 0, i64::from(u32::MAX)),
                _ => 8720,
            };
            decimal(&Decimal::integer(count), &mut out);
            operator(CID_COUNT, &mut out);
        }
        out
    }
}
