//! Traces of one font compared: the library against the model, and both against what the original's `reached_subrs` says.

use crate::cases::{Case, mixed};
use crate::cff::CffProgram;
use crate::compare::MEMORY;
use crate::cut::{self, Cut, OWN};
use crate::cut_cases::MANY;
use crate::cut_compare::{self, Opened};
use crate::domain::{self, Call, NONE, WISHES};
use crate::generator::Generator;
use crate::library::Library;
use crate::model::Reading;
use crate::record::{self, Row};
use crate::trace::{Lent, Outcome, WORDS};
use crate::trace_model::{LIMITS, Tracer};
use crate::trace_tally::{Difference, TraceTally};
use crate::{model, original};
use std::collections::{BTreeMap, BTreeSet};
use std::rc::Rc;

/// A keep list, and what it is.
pub struct Ask {
    pub keep: Vec<u16>,
    pub list: &'static str,
}

/// Keep lists made for a font; the tracer is there where it is read.
pub type Asks<'a> = dyn Fn(&mut Generator, &Opened<'_>, Option<&Tracer<'_>>) -> Vec<Ask> + 'a;

/// Kept glyphs of a list that are traced alone by the library too.
const ALONE: usize = 100;

/// A font that is being compared.
struct Comparison<'a> {
    library: &'a Library,
    case: &'a Case,
    seed: u64,
    tally: &'a mut TraceTally,
}

/// What the original says of the glyphs of a font, and which were compared.
struct Original<'a> {
    program: &'a CffProgram,
    /// Nothing where it gives an error.
    rows: BTreeMap<u16, Option<Rc<BTreeSet<Row>>>>,
    alone: BTreeSet<u16>,
    /// The library's rows of glyph 0, where it is plain.
    first: Option<BTreeSet<Row>>,
    /// Document 01's reading of the font.
    before: &'a Reading,
}

pub fn compare(library: &Library, case: &Case, seed: u64, tally: &mut TraceTally, asks: &Asks<'_>) {
    let before = model::read(&case.font, NONE);
    let reading = model::read(&case.font, WISHES);
    tally.fonts += 1;
    let inside = domain::inside(Call::Read, &before, WISHES) && before.memory <= MEMORY;
    let program = match inside.then(|| original::read(&case.font)) {
        Some(original::Outcome::Program(program)) => Some(program),
        _ => None,
    };
    let read = reading.font.as_ref().map_err(|r| r.number);
    let opened = Opened {
        bytes: &case.font,
        read,
        program: program.as_ref(),
    };
    let tracer = read
        .ok()
        .map(|font| Tracer::new(&case.font, font, LIMITS).expect("parts of a font that is read"));
    let mut comparison = Comparison {
        library,
        case,
        seed,
        tally,
    };
    let mut original = match (&program, &tracer) {
        (Some(program), Some(tracer)) => Some(Original {
            program,
            rows: BTreeMap::new(),
            alone: BTreeSet::new(),
            first: comparison.rows(&[], tracer.trace(&[]).length()),
            before: &before,
        }),
        _ => None,
    };
    // Copies of one number in several files are asked different things.
    let file = case.file.bytes().fold(0, |n, b| mixed(n, u64::from(b)));
    let mut g = Generator::new(mixed(seed ^ file, case.number as u64));
    for ask in asks(&mut g, &opened, tracer.as_ref()) {
        let outcome = match (&tracer, read) {
            (Some(tracer), _) => tracer.trace(&ask.keep),
            (None, Err(number)) => Outcome::Refused(number),
            (None, Ok(_)) => unreachable!("a font that is read has a tracer"),
        };
        for lent in lents(&mut g, &outcome, ask.keep.len()) {
            comparison.call(&ask, lent, &outcome);
        }
        if let (Some(tracer), Some(original), Outcome::Record(..)) =
            (&tracer, &mut original, &outcome)
        {
            comparison.glyphs(tracer, original, &ask.keep);
            comparison.cut(&opened, original, &ask.keep, &outcome);
        }
    }
}

/// What to lend: as much as is needed, one byte less, more, nothing, and too few words for the answer. A long list is traced
/// twice only.
fn lents(g: &mut Generator, outcome: &Outcome, keep: usize) -> Vec<Lent> {
    let length = outcome.length();
    let lent = |room, words| Lent { room, words };
    let mut all = vec![lent(length, WORDS + g.below(2))];
    if length > 0 {
        all.push(lent(length - 1, WORDS));
    }
    if keep > MANY {
        return all;
    }
    all.push(lent(length + 1 + g.below(40), WORDS));
    all.push(lent(length, g.below(WORDS)));
    if length > 0 {
        all.push(lent(0, WORDS));
        all.push(lent(g.below(length), g.below(WORDS + 1)));
    }
    all
}

/// One call of the library against the answer wanted.
pub fn agrees(
    library: &Library,
    font: &[u8],
    keep: &[u16],
    lent: Lent,
    want: Result<(u8, &[u8]), u8>,
) -> Result<(), String> {
    match (library.trace(font, keep, lent)?, want) {
        (Err(number), Err(wanted)) if number == wanted => Ok(()),
        (Ok((flag, bytes)), Ok((wanted, record)))
            if flag == u64::from(wanted) && bytes == record =>
        {
            Ok(())
        }
        (Ok((flag, bytes)), Ok((wanted, record))) => {
            let differ = (0..bytes.len().min(record.len())).find(|&k| bytes[k] != record[k]);
            Err(format!(
                "flag {flag} and {} bytes, wanted {wanted} and {}; the first byte that differs: {differ:?}",
                bytes.len(),
                record.len()
            ))
        }
        (got, wanted) => Err(format!(
            "{:?}, wanted {:?} (refusal, or flag and length)",
            got.map(|(flag, bytes)| (flag, bytes.len())),
            wanted.map(|(flag, bytes)| (flag, bytes.len()))
        )),
    }
}

impl Comparison<'_> {
    fn differ(&mut self, keep: &[u16], lent: &str, message: String) {
        self.tally.difference(Difference {
            case: self.case.label(self.seed),
            message,
            font: self.case.font.clone(),
            keep: keep.to_vec(),
            lent: lent.to_string(),
        });
    }

    fn call(&mut self, ask: &Ask, lent: Lent, outcome: &Outcome) {
        let want = outcome.answer(lent);
        self.tally
            .call((self.case.kind, self.case.state), ask.list, want);
        if let Err(message) = agrees(self.library, &self.case.font, &ask.keep, lent, want) {
            self.differ(&ask.keep, &format!("{lent:?}"), message);
        }
    }

    /// The library's rows for a list of one glyph; none with flag 0.
    fn rows(&mut self, keep: &[u16], room: usize) -> Option<BTreeSet<Row>> {
        self.tally.alone += 1;
        let lent = Lent { room, words: WORDS };
        match self.library.trace(&self.case.font, keep, lent) {
            Ok(Ok((1, bytes))) => Some(record::rows(&bytes).into_iter().collect()),
            Ok(Ok(_)) => None,
            Ok(Err(number)) => {
                self.differ(keep, &format!("{lent:?}"), format!("refusal {number}"));
                None
            }
            Err(message) => {
                self.differ(keep, &format!("{lent:?}"), message);
                None
            }
        }
    }

    /// The kept glyphs against the original: all of them by the model, and some alone by the library.
    fn glyphs(&mut self, tracer: &Tracer<'_>, original: &mut Original<'_>, keep: &[u16]) {
        let kept = cut::glyphs(keep);
        let every = kept.len().div_ceil(ALONE);
        for (k, glyph) in kept.into_iter().enumerate() {
            let new = !original.rows.contains_key(&glyph);
            let theirs = self.theirs(original, glyph);
            let met = tracer.met(glyph);
            if new {
                self.compared(tracer, glyph, met.as_deref(), theirs.as_deref());
            }
            let (Some(_), Some(theirs)) = (met, theirs) else {
                continue;
            };
            let empty = tracer.charstring(glyph).is_empty();
            if empty || k % every != 0 || !original.alone.insert(glyph) {
                continue;
            }
            let Some(first) = &original.first else {
                self.tally
                    .note("glyph not asked alone, glyph 0 is not plain");
                continue;
            };
            let wanted: BTreeSet<Row> = first.union(&theirs).copied().collect();
            let room = 10 * wanted.len();
            self.tally
                .note("glyph alone by the library and the original");
            if self.rows(&[glyph], room).is_none_or(|rows| rows != wanted) {
                let message = format!("the rows of glyph {glyph} are not the original's");
                self.differ(&[glyph], &format!("{room} bytes"), message);
            }
        }
    }

    /// The original's rows of a glyph.
    fn theirs(&mut self, original: &mut Original<'_>, glyph: u16) -> Option<Rc<BTreeSet<Row>>> {
        let program = original.program;
        if let Some(rows) = original.rows.get(&glyph) {
            return rows.clone();
        }
        let rows = match original::caught(|| record::of_glyph(program, glyph)) {
            Ok(rows) => rows.map(Rc::new),
            Err(message) => {
                self.differ(
                    &[glyph],
                    "nothing",
                    format!("the original panics: {message}"),
                );
                None
            }
        };
        original.rows.insert(glyph, rows.clone());
        rows
    }

    /// A glyph's rows by the model and by the original, where both have them.
    fn compared(
        &mut self,
        tracer: &Tracer<'_>,
        glyph: u16,
        met: Option<&BTreeSet<Row>>,
        theirs: Option<&BTreeSet<Row>>,
    ) {
        let note = match (met, theirs) {
            (Some(_), _) if tracer.charstring(glyph).is_empty() => "glyph empty",
            (Some(met), Some(theirs)) => {
                if met != theirs {
                    let message = format!("glyph {glyph}: the model and the original differ");
                    self.differ(&[glyph], "nothing", message);
                }
                "glyph plain, by the model and the original"
            }
            (Some(_), None) => "glyph plain, an error of the original's",
            (None, Some(_)) => "glyph not plain, traced by the original",
            (None, None) => "glyph not plain, an error of the original's",
        };
        self.tally.note(note);
    }

    /// The subset by the traced record, where that is the original's own.
    fn cut(
        &mut self,
        opened: &Opened<'_>,
        original: &mut Original<'_>,
        keep: &[u16],
        outcome: &Outcome,
    ) {
        let (Outcome::Record(flag, record), Ok(font)) = (outcome, opened.read) else {
            return;
        };
        if self.their_record(original, keep) != *outcome {
            self.tally.note("record other than the original's");
            return;
        }
        self.tally.note("record the original's own");
        if keep.len() > MANY {
            self.tally.note("its subset not asked for, for its size");
            return;
        }
        let cut = Cut {
            cid_keyed: font.cid_keyed,
            name: b"ABCDEF+Traced".to_vec(),
            keep: keep.to_vec(),
            record: record.clone(),
            flag: *flag,
            record_kind: OWN,
            encoding: 0,
        };
        let before = original.before;
        let inside = domain::inside(Call::Subset, before, WISHES)
            && domain::inside_too(opened.bytes, before, &cut, WISHES);
        let outcome = if inside {
            cut::cut(opened.bytes, opened.read, opened.program, &cut)
        } else if cut_compare::modelled(font, &cut) {
            self.tally
                .note("its subset the model's, outside the domain");
            cut::by_model(opened.bytes, opened.read, opened.program, &cut, WISHES)
        } else {
            self.tally.note("its subset not asked for, for its size");
            return;
        };
        self.subset(opened.bytes, font.work() as usize, &cut, &outcome);
    }

    /// The record that the original's trace gives.
    fn their_record(&mut self, original: &mut Original<'_>, keep: &[u16]) -> Outcome {
        let mut all = BTreeSet::new();
        for glyph in cut::glyphs(keep) {
            match self.theirs(original, glyph) {
                None => return Outcome::untraced(),
                Some(rows) => all.extend(rows.iter().copied()),
            }
        }
        let all: Vec<Row> = all.into_iter().collect();
        Outcome::Record(1, record::bytes(&all))
    }

    /// The library's subset against the one wanted.
    fn subset(&mut self, font: &[u8], work: usize, cut: &Cut, outcome: &cut::Outcome) {
        if let cut::Outcome::Panicked(message) = outcome {
            let message = format!("the original panics, or the model fails: {message}");
            self.differ(&cut.keep, "nothing", message);
            return;
        }
        let room = match outcome {
            cut::Outcome::Ready(_, Ok(subset)) => subset.bytes.len(),
            _ => 0,
        };
        let lent = cut::Lent {
            work,
            room,
            words: cut::WORDS,
        };
        let want = outcome.answer(lent);
        self.tally.note(match want.subset {
            Ok(subset) => [
                "subset by the traced record, renumbered",
                "subset by the traced record, stubbed",
                "subset by the traced record, copied",
            ][usize::from(subset.way)],
            Err(_) => "subset by the traced record, refused",
        });
        if let Err(message) = cut_compare::agrees(self.library, font, cut, lent, &want) {
            let message = format!("the subset by the traced record: {message}");
            self.differ(&cut.keep, &format!("{lent:?}"), message);
        }
    }
}
