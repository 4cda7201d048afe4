//! The checker of records (document 02, Wish 6) compared: the library against a model written from its sentences over the model of
//! tracing.

use crate::cases::{Case, mixed};
use crate::check_records::{self, NOT_ACCEPTED, Record, shuffled};
use crate::cut::{Cut, NOT_FOUND};
use crate::cut_compare::Opened;
use crate::domain::WISHES;
use crate::generator::Generator;
use crate::library::{self, Room};
use crate::model::{self, NO_SUCH_ITEM};
use crate::record::{self, GLOBAL, LOCAL, Row};
use crate::report::{self, Differences};
use crate::trace_model::{LIMITS, Tracer};
use crate::{cut, hex, trace, trace_cases, trace_edges};
use mogdivash::ffi;
use std::collections::{BTreeMap, BTreeSet};
use std::fmt::{self, Write};
use std::path::Path;
use std::time::Duration;

/// The refusal of a record that is not of its form.
const RECORD: u8 = 8;

/// The library's answer.
fn check(font: &[u8], keep: &[u16], record: &[u8]) -> u8 {
    // SAFETY: the slices are lent for the call, which writes to none.
    unsafe {
        ffi::cff_check_record(
            font.as_ptr(),
            font.len(),
            keep.as_ptr(),
            keep.len(),
            record.as_ptr(),
            record.len(),
        )
    }
}

/// The answer by document 02's sentences: every kept glyph is plain, the record lists all that their unfoldings meet, and each
/// subroutine that it lists as reached, unused FDs aside, exists.
fn wanted(tracer: &Tracer<'_>, keep: &[u16], bytes: &[u8]) -> u8 {
    let glyphs = tracer.font.charset.len();
    if keep.iter().any(|&k| usize::from(k) >= glyphs) {
        return NO_SUCH_ITEM;
    }
    if keep.iter().any(|&k| !tracer.found[usize::from(k)]) {
        return NOT_FOUND;
    }
    if !record::sound(bytes, 1, tracer.font.cid_keyed) {
        return RECORD;
    }
    let kept = cut::glyphs(keep);
    let rows: BTreeSet<Row> = record::rows(bytes).into_iter().collect();
    let lists = |&glyph: &u16| tracer.met(glyph).is_some_and(|met| met.is_subset(&rows));
    let used: BTreeSet<u8> = kept.iter().map(|&k| tracer.fd(k)).collect();
    let exists = |row: &Row| match row.kind {
        LOCAL if used.contains(&row.fd) => usize::from(row.number) < tracer.locals(row.fd),
        GLOBAL => usize::from(row.number) < tracer.font.globals.count,
        _ => true,
    };
    if kept.iter().all(lists) && rows.iter().all(exists) {
        0
    } else {
        NOT_ACCEPTED
    }
}

pub fn compare(case: &Case, seed: u64, tally: &mut CheckTally) {
    let reading = model::read(&case.font, WISHES);
    tally.fonts += 1;
    let read = reading.font.as_ref().map_err(|r| r.number);
    let opened = Opened {
        bytes: &case.font,
        read,
        program: None,
    };
    let tracer = read
        .ok()
        .map(|font| Tracer::new(&case.font, font, LIMITS).expect("parts of a font that is read"));
    let mut g = Generator::new(mixed(seed, case.number as u64));
    for ask in trace_cases::made(&mut g, &opened, tracer.as_ref()) {
        let records = match &tracer {
            None => check_records::others(&mut g, &[]),
            Some(tracer) => match tracer.trace(&ask.keep) {
                trace::Outcome::Record(1, bytes) => {
                    let kept = cut::glyphs(&ask.keep);
                    check_records::traced(&mut g, tracer, &kept, &record::rows(&bytes))
                }
                _ => check_records::others(&mut g, &plain_rows(tracer, &ask.keep)),
            },
        };
        for record in records {
            let want = match (&tracer, read) {
                (Some(tracer), _) => wanted(tracer, &ask.keep, &record.bytes),
                (None, Err(number)) => number,
                (None, Ok(_)) => unreachable!("a font that is read has a tracer"),
            };
            tally.call(case, seed, &ask.keep, &record, want);
            if want == 0 && record.kind == "a second length" {
                tally.stubs(case, seed, &ask.keep, &record, tracer.as_ref());
            }
        }
    }
}

/// A record of more than three windows of the library's: whole, in any order, and without a row at the ends of each window.
pub fn windows(seed: u64, tally: &mut CheckTally) {
    let case = Case {
        number: 0,
        kind: "200,050 rows",
        state: "as made",
        font: trace_edges::rising(50, 4_000),
        file: String::new(),
    };
    let reading = model::read(&case.font, WISHES);
    let font = reading.font.as_ref().expect("a font that is read");
    let tracer = Tracer::new(&case.font, font, LIMITS).expect("parts of a font that is read");
    let keep: Vec<u16> = (0..font.charset.len() as u16).collect();
    let trace::Outcome::Record(1, bytes) = tracer.trace(&keep) else {
        unreachable!("its glyphs are plain")
    };
    let rows = record::rows(&bytes);
    let mut g = Generator::new(seed);
    let mut ask = |kind, answer, rows: Vec<Row>| {
        let record = Record {
            bytes: record::bytes(&rows),
            kind,
            answer: Some(answer),
        };
        let want = wanted(&tracer, &keep, &record.bytes);
        tally.call(&case, seed, &keep, &record, want);
    };
    ask("windows, as traced", 0, rows.clone());
    ask(
        "windows, in another order",
        0,
        shuffled(&mut g, rows.clone()),
    );
    for k in [0, 65_535, 65_536, 131_071, 131_072, 196_608, rows.len() - 1] {
        let mut left = rows.clone();
        left.remove(k);
        ask("windows, a row dropped", NOT_ACCEPTED, left);
    }
}

/// What the plain ones of these glyphs meet, where they are glyphs.
fn plain_rows(tracer: &Tracer<'_>, keep: &[u16]) -> Vec<Row> {
    let there = |k: &&u16| usize::from(**k) < tracer.found.len();
    let met = keep.iter().filter(there).filter_map(|&k| tracer.met(k));
    let rows: BTreeSet<Row> = met
        .flat_map(|met| met.iter().copied().collect::<Vec<_>>())
        .collect();
    rows.into_iter().collect()
}

struct Difference {
    case: String,
    message: String,
    font: Vec<u8>,
    keep: Vec<u16>,
    record: Vec<u8>,
}

/// Accepted, refusals 1 to 8, 14, 15.
const COLUMNS: [&str; 11] = ["0", "1", "2", "3", "4", "5", "6", "7", "8", "14", "15"];

#[derive(Default)]
pub struct CheckTally {
    fonts: u64,
    kinds: BTreeMap<&'static str, [u64; COLUMNS.len()]>,
    notes: BTreeMap<&'static str, u64>,
    differences: Differences<Difference>,
}

impl CheckTally {
    pub fn calls(&self) -> u64 {
        self.kinds.values().flatten().sum()
    }

    pub fn differences(&self) -> u64 {
        self.differences.count
    }

    fn differ(&mut self, case: &Case, seed: u64, keep: &[u16], record: &Record, message: String) {
        self.differences.push(Difference {
            case: case.label(seed),
            message: format!("{}: {message}", record.kind),
            font: case.font.clone(),
            keep: keep.to_vec(),
            record: record.bytes.clone(),
        });
    }

    fn call(&mut self, case: &Case, seed: u64, keep: &[u16], record: &Record, want: u8) {
        let column = COLUMNS.iter().position(|&c| c == want.to_string());
        self.kinds.entry(record.kind).or_default()[column.expect("a refusal of the checker")] += 1;
        if record.answer.is_some_and(|answer| answer != want) {
            let message = format!("the model says {want}, wanted {:?}", record.answer);
            self.differ(case, seed, keep, record, message);
        }
        let got = check(&case.font, keep, &record.bytes);
        if got != want {
            self.differ(case, seed, keep, record, format!("{got}, wanted {want}"));
        }
    }

    /// A subset call with a second length for a mask that is met, and flag 1: refused, or way 1.
    fn stubs(
        &mut self,
        case: &Case,
        seed: u64,
        keep: &[u16],
        record: &Record,
        tracer: Option<&Tracer<'_>>,
    ) {
        let Some(tracer) = tracer else { return };
        let cut = Cut {
            cid_keyed: tracer.font.cid_keyed,
            name: b"A".to_vec(),
            keep: keep.to_vec(),
            record: record.bytes.clone(),
            flag: 1,
            record_kind: record.kind,
            encoding: 0,
        };
        let lent = cut::Lent {
            work: tracer.font.work() as usize,
            room: 2 * case.font.len() + 65_536,
            words: cut::WORDS,
        };
        let note = match library::library().subset(&case.font, &cut, lent) {
            Err(message) => {
                self.differ(case, seed, keep, record, message);
                return;
            }
            Ok(done) => match done.answer {
                Err(_) => "subset with a second length, refused",
                Ok((1, _)) => "subset with a second length, stubbed",
                Ok((way, _)) => {
                    self.differ(
                        case,
                        seed,
                        keep,
                        record,
                        format!("the subset has way {way}"),
                    );
                    return;
                }
            },
        };
        *self.notes.entry(note).or_default() += 1;
    }

    pub fn report(&self, folder: &Path) -> String {
        const WIDTH: usize = 8;
        let mut out = String::new();
        let _ = writeln!(
            out,
            "{} fonts, {} records checked",
            self.fonts,
            self.calls()
        );
        report::row(&mut out, "", WIDTH, COLUMNS.iter().chain([&"all"]));
        for (kind, counts) in &self.kinds {
            report::counts(&mut out, kind, WIDTH, counts);
        }
        report::notes(&mut out, &self.notes);
        let _ = writeln!(out, "\ndifferences: {}", self.differences.count);
        for (k, difference) in self.differences.first.iter().enumerate() {
            let keep: Vec<u8> = difference
                .keep
                .iter()
                .flat_map(|k| k.to_be_bytes())
                .collect();
            let (keep, record) = (hex(&keep), hex(&difference.record));
            let Difference { case, message, .. } = difference;
            let _ = writeln!(
                out,
                "\n{case}\n  {message}\n  keep {keep}\n  record {record}"
            );
            report::font(
                &mut out,
                &difference.font,
                folder,
                &format!("check-difference-{k}.cff"),
            );
        }
        out
    }
}

/// The times of a long record, in order and out of it.
pub struct Times {
    rows: usize,
    rising: Duration,
    shuffled: Duration,
    /// Both are accepted, and the second takes less than twice the time of the first.
    pub within: bool,
}

impl fmt::Display for Times {
    fn fmt(&self, f: &mut fmt::Formatter<'_>) -> fmt::Result {
        let Times {
            rows,
            rising,
            shuffled,
            within,
        } = self;
        let said = if *within { "within" } else { "NOT within" };
        write!(
            f,
            "{rows} rows: rising {rising:?}, shuffled {shuffled:?}, {said} 2 times"
        )
    }
}

/// A record of 60,000 rows, the shortest of five times each.
pub fn times(clock: fn() -> Duration) -> Times {
    let font = trace_edges::rising(6_000, 9);
    let reading = model::read(&font, WISHES);
    let glyphs = reading.font.as_ref().map_or(0, |read| read.charset.len());
    let keep: Vec<u16> = (0..glyphs as u16).collect();
    let mut bytes = vec![0; 1 << 20];
    let mut answer = [0; trace::WORDS];
    (library::library().trace)(
        &font,
        &keep,
        &mut Room {
            lent: bytes.len(),
            all: &mut bytes,
        },
        &mut Room {
            lent: answer.len(),
            all: &mut answer,
        },
    );
    bytes.truncate(answer[1] as usize);
    let other = record::bytes(&shuffled(&mut Generator::new(1), record::rows(&bytes)));
    let timed = |record: &[u8]| {
        let mut accepted = true;
        let run = |_| {
            let start = clock();
            accepted &= check(&font, &keep, record) == 0;
            clock() - start
        };
        let least = (0..5).map(run).min().unwrap_or_default();
        (least, accepted)
    };
    let ((rising, first), (shuffled, second)) = (timed(&bytes), timed(&other));
    Times {
        rows: bytes.len() / record::ROW,
        rising,
        shuffled,
        within: first && second && shuffled < 2 * rising,
    }
}
