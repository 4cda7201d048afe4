//! A tracer written from document 01 ('Plain glyphs', 'Reach record') as the reference for the library's: what each glyph
//! meets, and what a call answers.

use crate::model::{self, Font, Index, NO_SUCH_ITEM, Parts};
use crate::record::{self, GLOBAL, GLOBAL_MASK, GLYPH_MASK, LOCAL, LOCAL_MASK, Row};
use crate::trace::{NOT_FOUND, Outcome};
use std::cell::RefCell;
use std::collections::{BTreeSet, HashMap};
use std::rc::Rc;

/// How much a plain glyph may have.
#[derive(Clone, Copy, Debug)]
pub struct Limits {
    /// Calls inside each other.
    pub depth: usize,
    /// Operands waiting.
    pub operands: usize,
    pub stems: usize,
    /// Tokens and calls together.
    pub spent: usize,
}

/// Document 01's.
pub const LIMITS: Limits = Limits {
    depth: 10,
    operands: 48,
    stems: 96,
    spent: 65_536,
};

/// The rows that a glyph meets; none where it is not plain.
pub type Met = Option<Rc<BTreeSet<Row>>>;

/// A font that is read, and what its glyphs meet.
pub struct Tracer<'a> {
    bytes: &'a [u8],
    pub font: &'a Font,
    parts: Parts,
    limits: Limits,
    /// Whether finding gives a glyph for its own name or CID.
    pub found: Vec<bool>,
    met: RefCell<HashMap<u16, Met>>,
}

/// A body that runs, the kind being its row's, or that of a mask in a glyph.
struct Body<'a> {
    kind: u8,
    fd: u8,
    number: u16,
    bytes: &'a [u8],
    /// The place that was come to, and the number that stands just before it.
    at: usize,
    before: Option<f32>,
}

impl<'a> Body<'a> {
    fn new(kind: u8, fd: u8, number: u16, bytes: &'a [u8]) -> Self {
        Body {
            kind,
            fd,
            number,
            bytes,
            at: 0,
            before: None,
        }
    }

    fn row(&self, kind: u8, offset: usize, length: usize) -> Row {
        Row {
            kind,
            fd: self.fd,
            number: self.number,
            offset: offset as u32,
            length: length as u16,
        }
    }
}

/// What an unfolding has come to: operands waiting, stems, tokens and calls, and the rows met.
#[derive(Default)]
struct Run {
    waiting: usize,
    stems: usize,
    spent: usize,
    rows: BTreeSet<Row>,
}

impl Run {
    fn past(&self, limits: &Limits) -> bool {
        self.waiting > limits.operands || self.stems > limits.stems || self.spent > limits.spent
    }

    /// An operator that clears the operands; nothing where it is none that a plain glyph has.
    fn operator(&mut self, body: &mut Body<'_>) -> Option<()> {
        let offset = body.at;
        body.at += 1;
        match body.bytes[offset] {
            1 | 3 | 18 | 23 => self.stems += self.waiting / 2,
            19 | 20 => {
                self.stems += self.waiting / 2;
                let length = self.stems.div_ceil(8);
                body.at += length;
                if body.at > body.bytes.len() {
                    return None;
                }
                let kind = [LOCAL_MASK, GLOBAL_MASK, GLYPH_MASK][usize::from(body.kind)];
                self.rows.insert(body.row(kind, offset, length));
            }
            4..=8 | 21 | 22 | 24..=27 | 30 | 31 => {}
            12 => {
                body.at += 1;
                if !(34..=37).contains(body.bytes.get(offset + 1)?) {
                    return None;
                }
            }
            _ => return None,
        }
        self.waiting = 0;
        self.spent += 1;
        Some(())
    }
}

impl<'a> Tracer<'a> {
    pub fn new(bytes: &'a [u8], font: &'a Font, limits: Limits) -> Option<Self> {
        Some(Tracer {
            bytes,
            font,
            parts: model::parts(bytes, font.charset.len())?,
            limits,
            found: found(bytes, font),
            met: RefCell::default(),
        })
    }

    /// What a call with this keep list comes to.
    pub fn trace(&self, keep: &[u16]) -> Outcome {
        let glyphs = self.font.charset.len();
        if keep.iter().any(|&k| usize::from(k) >= glyphs) {
            return Outcome::Refused(NO_SUCH_ITEM);
        }
        if keep.iter().any(|&k| !self.found[usize::from(k)]) {
            return Outcome::Refused(NOT_FOUND);
        }
        let mut rows = BTreeSet::new();
        // Glyph 0 is always kept.
        for glyph in keep.iter().copied().chain([0]).collect::<BTreeSet<_>>() {
            match self.met(glyph) {
                None => return Outcome::untraced(),
                Some(met) => rows.extend(met.iter().copied()),
            }
        }
        let rows: Vec<Row> = rows.into_iter().collect();
        Outcome::Record(1, record::bytes(&rows))
    }

    /// What a glyph meets.
    pub fn met(&self, glyph: u16) -> Met {
        let known = self.met.borrow().get(&glyph).cloned();
        known.unwrap_or_else(|| {
            let met = self.unfolded(glyph).map(Rc::new);
            self.met.borrow_mut().insert(glyph, met.clone());
            met
        })
    }

    /// The FD of a glyph.
    pub fn fd(&self, glyph: u16) -> u8 {
        self.parts.select[usize::from(glyph)]
    }

    /// How many FDs there are.
    pub fn fds(&self) -> usize {
        self.parts.privates.len()
    }

    /// How many local subroutines an FD has.
    pub fn locals(&self, fd: u8) -> usize {
        let private = &self.parts.privates[usize::from(fd)];
        private.locals.as_ref().map_or(0, |index| index.count)
    }

    pub fn charstring(&self, glyph: u16) -> &'a [u8] {
        &self.bytes[self.font.charstrings.span(self.bytes, usize::from(glyph))]
    }

    /// The unfolding of a glyph's charstring, of which only the rows are left.
    fn unfolded(&self, glyph: u16) -> Option<BTreeSet<Row>> {
        let mut run = Run::default();
        let bytes = self.charstring(glyph);
        if bytes.is_empty() {
            return Some(run.rows);
        }
        let mut bodies = vec![Body::new(GLYPH_MASK, 0, glyph, bytes)];
        loop {
            // No body is left where the glyph itself returns.
            let body = bodies.last_mut()?;
            // Neither the glyph nor a subroutine may come to its end here.
            let rest = body.bytes.get(body.at..).filter(|r| !r.is_empty())?;
            let before = body.before.take();
            if let Some((value, length)) = number(rest)? {
                body.at += length;
                body.before = Some(value);
                run.waiting += 1;
                run.spent += 1;
            } else {
                match rest[0] {
                    operator @ (10 | 29) => {
                        let called = self.called(operator, before?, glyph)?;
                        body.at += 1;
                        // The operand leaves no token, the call counts in its place.
                        run.waiting -= 1;
                        run.rows.insert(called.row(called.kind, 0, 0));
                        bodies.push(called);
                    }
                    11 => {
                        bodies.pop();
                    }
                    14 => {
                        let ended = run.waiting <= 1 && run.spent < self.limits.spent;
                        return ended.then_some(run.rows);
                    }
                    _ => run.operator(body)?,
                }
            }
            if run.past(&self.limits) || bodies.len() > self.limits.depth + 1 {
                return None;
            }
        }
    }

    /// The subroutine that a call in a glyph enters.
    fn called(&self, operator: u8, operand: f32, glyph: u16) -> Option<Body<'a>> {
        let fd = self.parts.select[usize::from(glyph)];
        let (kind, fd, index) = if operator == 29 {
            (GLOBAL, 0, Some(&self.font.globals))
        } else {
            let private = &self.parts.privates[usize::from(fd)];
            (LOCAL, fd, private.locals.as_ref())
        };
        let index: &Index = index?;
        let bias = match index.count {
            0..1240 => 107,
            1240..33_900 => 1131,
            _ => 32_768,
        };
        if operand.fract() != 0.0 {
            return None;
        }
        let target = operand as i64 + bias;
        let k = usize::try_from(target).ok().filter(|&k| k < index.count)?;
        let bytes = &self.bytes[index.span(self.bytes, k)];
        Some(Body::new(kind, fd, k as u16, bytes))
    }
}

/// The number at the start of bytes by its reading, and how many bytes it has; nothing in `Some` for an operator, nothing at all
/// where the bytes end early.
fn number(bytes: &[u8]) -> Option<Option<(f32, usize)>> {
    let first = bytes[0];
    let byte = |k: usize| bytes.get(k).copied();
    let high = |k: usize| Some(i16::from_be_bytes([byte(k)?, byte(k + 1)?]));
    Some(match first {
        28 => Some((f32::from(high(1)?), 3)),
        32..=246 => Some((f32::from(i16::from(first) - 139), 1)),
        247..=250 => {
            let value = (i16::from(first) - 247) * 256 + i16::from(byte(1)?) + 108;
            Some((f32::from(value), 2))
        }
        251..=254 => {
            let value = -(i16::from(first) - 251) * 256 - i16::from(byte(1)?) - 108;
            Some((f32::from(value), 2))
        }
        255 => {
            // One f32 addition of the two halves.
            let low = u16::from_be_bytes([byte(3)?, byte(4)?]);
            Some((f32::from(high(1)?) + f32::from(low) / 65_536.0, 5))
        }
        _ => None,
    })
}

/// Whether each glyph is the first of its name or CID.
fn found(bytes: &[u8], font: &Font) -> Vec<bool> {
    let mut names: BTreeSet<&[u8]> = BTreeSet::new();
    let mut cids = BTreeSet::new();
    let first = |&id: &u16| {
        if font.cid_keyed {
            cids.insert(id)
        } else {
            names.insert(font.text(bytes, id))
        }
    };
    font.charset.iter().map(first).collect()
}
