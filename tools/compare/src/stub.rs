//! Stands in for the library: the original's answers, and the model's where document 01 adds a
//! refusal, outside the domain of the comparison, or where the original would take too much memory.
//! It tests the harness, and nothing else.

use crate::cff::{CffProgram, Privates};
use crate::compare::MEMORY;
use crate::cut::{self, Cut, Lent, Outcome};
use crate::domain::{self, Call, NONE, WISHES};
use crate::library::{ABSENT, Library, NO_ROOM, Room, Rooms};
use crate::trace::{self, Outcome as Traced};
use crate::trace_model::{LIMITS, Limits, Tracer};
use crate::{model, original};
use std::cell::RefCell;
use std::rc::Rc;

pub fn library() -> Library {
    Library {
        read,
        find_name,
        find_cid,
        item,
        item_refusal,
        subset,
        work: model::Font::work,
        trace,
    }
}

enum Font {
    Original(CffProgram),
    Model(model::Font),
}

type Parsed = Result<Rc<Font>, u8>;

thread_local! {
    /// The last font and what it was: one font is asked many times.
    static LAST: RefCell<Option<(Vec<u8>, Parsed)>> = const { RefCell::new(None) };
}

fn parse(bytes: &[u8]) -> Parsed {
    LAST.with_borrow_mut(|last| match last {
        Some((font, parsed)) if font == bytes => parsed.clone(),
        _ => {
            let parsed = parse_anew(bytes).map(Rc::new);
            *last = Some((bytes.to_vec(), parsed.clone()));
            parsed
        }
    })
}

fn parse_anew(bytes: &[u8]) -> Result<Font, u8> {
    let before = model::read(bytes, NONE);
    let by_model = before.memory > MEMORY || !domain::inside(Call::Read, &before, WISHES);
    match model::read(bytes, WISHES).font {
        Err(refused) if [4, 5].contains(&refused.number) => return Err(refused.number),
        Ok(font) if by_model => return Ok(Font::Model(font)),
        Err(refused) if by_model => return Err(refused.number),
        _ => {}
    }
    match CffProgram::parse(bytes) {
        Ok(program) => Ok(Font::Original(program)),
        Err(error) => Err(original::number(&error)),
    }
}

impl<T> Room<'_, T> {
    fn lent(&mut self) -> &mut [T] {
        &mut self.all[..self.lent]
    }
}

/// Writes an answer to the lent words: refusal 11 where they are too few.
fn answered(counts: &[u64], answer: &mut Room<'_, u64>) -> u8 {
    if answer.lent < counts.len() {
        return NO_ROOM;
    }
    answer.lent()[..counts.len()].copy_from_slice(counts);
    0
}

fn read(font: &[u8], answer: &mut Room<'_, u64>) -> u8 {
    let parsed = match parse(font) {
        Err(refusal) => return refusal,
        Ok(parsed) => parsed,
    };
    let counts = match &*parsed {
        Font::Model(f) => [
            f.charstrings.count as u64,
            f.globals.count as u64,
            f.strings.count as u64,
            u64::from(f.cid_keyed),
            f.work(),
        ],
        Font::Original(p) => {
            let glyphs = u64::from(p.glyph_count());
            let globals = p.global_subrs().len() as u64;
            [
                glyphs,
                globals,
                p.strings().len() as u64,
                u64::from(p.is_cid_keyed()),
                work(p),
            ]
        }
    };
    answered(&counts, answer)
}

/// W of document 02, Wish 7: two words for each glyph, and a bit for each subroutine, rounded up to words for each INDEX.
fn work(program: &CffProgram) -> u64 {
    let words = |count: usize| count.div_ceil(32) as u64;
    let locals = match program.privates() {
        Privates::Single(private) => words(private.subrs.len()),
        Privates::Cid { dicts, .. } => dicts.iter().map(|d| words(d.subrs.len())).sum(),
    };
    2 * u64::from(program.glyph_count()) + words(program.global_subrs().len()) + locals
}

fn find_name(font: &[u8], name: &[u8], answer: &mut Room<'_, u64>) -> u8 {
    let found = match parse(font).as_deref() {
        Err(&refusal) => return refusal,
        Ok(Font::Model(f)) => f.find_name(font, name),
        Ok(Font::Original(p)) => p.gid(name),
    };
    answered(&[found.map_or(ABSENT, u64::from)], answer)
}

fn find_cid(font: &[u8], cid: u16, answer: &mut Room<'_, u64>) -> u8 {
    let found = match parse(font).as_deref() {
        Err(&refusal) => return refusal,
        Ok(Font::Model(f)) => f.find_cid(cid),
        Ok(Font::Original(p)) => p.gid_of_cid(cid),
    };
    answered(&[found.map_or(ABSENT, u64::from)], answer)
}

/// The item's bytes, or the refusal.
fn lookup(bytes: &[u8], (kind, number): (u8, u64)) -> Result<Vec<u8>, u8> {
    match &*parse(bytes)? {
        _ if kind > 2 => Err(model::NO_SUCH_ITEM),
        Font::Model(f) => Ok(bytes[f.item(bytes, kind, number)?].to_vec()),
        Font::Original(p) => original::item(p, kind, number)
            .map(<[u8]>::to_vec)
            .ok_or(model::NO_SUCH_ITEM),
    }
}

fn item(font: &[u8], item: (u8, u64), out: &mut Room<'_, u8>, size: &mut Room<'_, u64>) -> u8 {
    let bytes = match lookup(font, item) {
        Err(refusal) => return refusal,
        Ok(bytes) => bytes,
    };
    if out.lent < bytes.len() || size.lent < 1 {
        return NO_ROOM;
    }
    out.lent()[..bytes.len()].copy_from_slice(&bytes);
    answered(&[bytes.len() as u64], size)
}

fn item_refusal(font: &[u8], item: (u8, u64)) -> u8 {
    lookup(font, item).err().unwrap_or(0)
}

/// The same answer that the comparison expects: it tests that what is lent is looked at.
fn subset(font: &[u8], cut: &Cut, rooms: &mut Rooms<'_>) -> u8 {
    let reading = model::read(font, WISHES);
    let read = reading.font.as_ref().map_err(|r| r.number);
    let parsed = parse(font);
    let program = match parsed.as_deref() {
        Ok(Font::Original(program)) => Some(program),
        _ => None,
    };
    let before = model::read(font, NONE);
    let inside = domain::inside(Call::Subset, &before, WISHES)
        && domain::inside_too(font, &before, cut, WISHES);
    let outcome = if inside && cut.encoding == 0 {
        cut::cut(font, read, program, cut)
    } else {
        cut::by_model(font, read, program, cut, WISHES)
    };
    told(&outcome, rooms)
}

/// Document 01's answer, with no wish followed.
pub fn subset_before(font: &[u8], cut: &Cut, rooms: &mut Rooms<'_>) -> u8 {
    let reading = model::read(font, NONE);
    let read = reading.font.as_ref().map_err(|r| r.number);
    let program = CffProgram::parse(font).ok();
    told(&cut::cut(font, read, program.as_ref(), cut), rooms)
}

/// The answer of a cut, written to what is lent.
fn told(outcome: &Outcome, rooms: &mut Rooms<'_>) -> u8 {
    if let Outcome::Panicked(_) = outcome {
        return 255;
    }
    let answer = outcome.answer(Lent {
        work: rooms.work.lent,
        room: rooms.out.lent,
        words: rooms.answer.lent,
    });
    rooms.work.lent()[..answer.zeros as usize].fill(0);
    match answer.subset {
        Err(number) => number,
        Ok(subset) => {
            rooms.out.lent()[..subset.bytes.len()].copy_from_slice(&subset.bytes);
            let counts = [u64::from(subset.way), subset.bytes.len() as u64];
            answered(&counts, &mut rooms.answer)
        }
    }
}

/// The model's answer: it tests that what is lent is looked at.
fn trace(font: &[u8], keep: &[u16], record: &mut Room<'_, u8>, answer: &mut Room<'_, u64>) -> u8 {
    trace_within(LIMITS, font, keep, record, answer)
}

/// The same with other limits.
pub fn trace_within(
    limits: Limits,
    font: &[u8],
    keep: &[u16],
    record: &mut Room<'_, u8>,
    answer: &mut Room<'_, u64>,
) -> u8 {
    let outcome = match model::read(font, WISHES).font {
        Err(refused) => Traced::Refused(refused.number),
        Ok(read) => match Tracer::new(font, &read, limits) {
            None => return 255,
            Some(tracer) => tracer.trace(keep),
        },
    };
    let lent = trace::Lent {
        room: record.lent,
        words: answer.lent,
    };
    match outcome.answer(lent) {
        Err(number) => number,
        Ok((flag, bytes)) => {
            record.lent()[..bytes.len()].copy_from_slice(bytes);
            answered(&[u64::from(flag), bytes.len() as u64], answer)
        }
    }
}
