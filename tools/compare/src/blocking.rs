//! Which glyph costs the small file (document 02, Wish 12): the library against a reading of the document by brute force. Each
//! list is traced by the model of tracing and cut by the model of subsetting, the whole one and then each without one kept glyph.

use crate::blocking_cases::{self, Made};
use crate::cases::{Case, mixed};
use crate::cut::{self, Cut, NO_ROOM, WORK};
use crate::cut_cases::listed;
use crate::cut_large;
use crate::domain::WISHES;
use crate::generator::Generator;
use crate::model::{self, Font};
use crate::trace::Outcome as Traced;
use crate::trace_cases::found;
use crate::trace_model::{LIMITS, Tracer};
use mogdivash::ffi;
use std::collections::{BTreeMap, BTreeSet};
use std::fmt::Write as _;

/// What is lent to a call: work words, bytes for the record, words for the answer.
#[derive(Clone, Copy, Debug)]
pub struct Lent {
    pub work: usize,
    pub record: usize,
    pub words: usize,
}

/// What a list comes to.
#[derive(Clone, Copy, Debug, PartialEq, Eq)]
enum Outcome {
    /// Refused, and whether 9 is passed.
    Refused(u8, bool),
    Way(u8),
}

/// A font that is asked, under a new name.
struct Asked<'a> {
    bytes: &'a [u8],
    read: Result<&'a Font, u8>,
    tracer: Option<&'a Tracer<'a>>,
    name: &'a [u8],
    lent: Lent,
}

impl Asked<'_> {
    /// A list traced, and cut with what was traced: the subset calls' own refusals, 11 behind 7, then 9, 12 and 10.
    fn outcome(&self, keep: &[u16]) -> Outcome {
        let (Ok(font), Some(tracer)) = (self.read, self.tracer) else {
            return Outcome::Refused(self.read.err().unwrap_or(0), false);
        };
        let (flag, record, refused) = match tracer.trace(keep) {
            Traced::Refused(number) => (1, Vec::new(), Some(number)),
            Traced::Record(_, bytes) if bytes.len() > self.lent.record => {
                (1, Vec::new(), Some(NO_ROOM))
            }
            Traced::Record(flag, bytes) => (flag, bytes, None),
        };
        let cut = Cut {
            cid_keyed: font.cid_keyed,
            name: self.name.to_vec(),
            keep: keep.to_vec(),
            record,
            flag,
            record_kind: "traced",
            encoding: 0,
        };
        match cut::by_model(self.bytes, self.read, None, &cut, WISHES) {
            cut::Outcome::Early(number) => Outcome::Refused(number, false),
            cut::Outcome::Ready(..) if refused.is_some() => {
                Outcome::Refused(refused.unwrap_or(0), false)
            }
            cut::Outcome::Ready(work, _) if (self.lent.work as u64) < work => {
                Outcome::Refused(WORK, false)
            }
            cut::Outcome::Ready(_, Err(number)) => Outcome::Refused(number, true),
            cut::Outcome::Ready(_, Ok(subset)) => Outcome::Way(subset.way),
            cut::Outcome::Panicked(message) => panic!("{message}"),
        }
    }

    /// The smallest kept glyph but 0 such that the list without it gives way 0, where the whole list gives way 1.
    fn culprit(&self, keep: &[u16]) -> Option<u16> {
        let kept: BTreeSet<u16> = keep.iter().copied().filter(|&k| k != 0).collect();
        kept.into_iter().find(|&g| {
            let shorter: Vec<u16> = keep.iter().copied().filter(|&k| k != g).collect();
            self.outcome(&shorter) == Outcome::Way(0)
        })
    }
}

/// What a call answers: a refusal, or the word; and whether the lent words and bytes end as zeros.
type Answer = (Result<u64, u8>, bool);

/// Elements behind what is lent, which must stay as they are.
const BEYOND: usize = 8;
const WORD: u64 = 0xa5a5_5a5a_a5a5_5a5a;

fn found_byte(k: usize) -> u8 {
    0xa5 ^ (k % 251) as u8
}

fn found_word(k: usize) -> u32 {
    0xa5a5_0001_u32.wrapping_add(k as u32).max(1)
}

/// One call; the message says where it wrote that it must not. `work` is W.
fn call(font: &[u8], name: &[u8], keep: &[u16], lent: Lent, w: usize) -> Result<Answer, String> {
    let mut work: Vec<u32> = (0..lent.work + BEYOND).map(found_word).collect();
    let mut record: Vec<u8> = (0..lent.record + BEYOND).map(found_byte).collect();
    let mut answer = [WORD; 2];
    // SAFETY: each slice is there for the call, and at least as long as it is said to be.
    let number = unsafe {
        ffi::cff_blocking_glyph(
            font.as_ptr(),
            font.len(),
            name.as_ptr(),
            name.len(),
            keep.as_ptr(),
            keep.len(),
            work.as_mut_ptr(),
            lent.work,
            record.as_mut_ptr(),
            lent.record,
            answer.as_mut_ptr(),
            lent.words,
        )
    };
    let told = if number == 0 {
        Ok(answer[0])
    } else {
        Err(number)
    };
    if answer[1] != WORD || (number != 0 && answer[0] != WORD) {
        return Err(format!(
            "number {number}: the answer was written past its word, or with a refusal"
        ));
    }
    let as_found = (0..work.len()).all(|k| work[k] == found_word(k))
        && (0..record.len()).all(|k| record[k] == found_byte(k));
    let zeros = w <= lent.work
        && (0..work.len()).all(|k| work[k] == if k < w { 0 } else { found_word(k) })
        && (0..record.len()).all(|k| record[k] == if k < lent.record { 0 } else { found_byte(k) });
    if !as_found && !zeros {
        return Err(format!(
            "number {number}: what is lent is neither as found nor zeros"
        ));
    }
    // With nothing lent the two are the same.
    Ok((told, zeros && (!as_found || number == 0)))
}

/// What a run met.
#[derive(Default)]
pub struct Tally {
    pub fonts: u64,
    pub calls: u64,
    answers: BTreeMap<String, u64>,
    made: BTreeMap<&'static str, BTreeMap<&'static str, u64>>,
    pub differences: u64,
    first: Vec<String>,
}

impl Tally {
    pub fn report(&self) -> String {
        let mut out = String::new();
        let _ = writeln!(out, "{} fonts, {} calls", self.fonts, self.calls);
        for (answer, n) in &self.answers {
            let _ = writeln!(out, "  {answer}: {n}");
        }
        for (made, answers) in &self.made {
            let _ = writeln!(out, "  {made}: {answers:?}");
        }
        let _ = writeln!(out, "differences: {}", self.differences);
        self.first.iter().for_each(|d| out.push_str(d));
        out
    }

    fn note(&mut self, made: &'static str, answer: Result<u64, u8>, way: Option<u8>) {
        let told = match (answer, way) {
            (Err(n), _) => format!("refusal {n}"),
            (Ok(65_536), Some(way)) => format!("none, way {way}"),
            (Ok(65_536), None) => "none".to_string(),
            (Ok(_), _) => "a glyph".to_string(),
        };
        let short = match (answer, way) {
            (Err(_), _) => "refused",
            (Ok(65_536), Some(1)) => "none of way 1",
            (Ok(65_536), _) => "none of another way",
            (Ok(_), _) => "a glyph",
        };
        *self.answers.entry(told).or_default() += 1;
        *self.made.entry(made).or_default().entry(short).or_default() += 1;
    }
}

/// One call compared; the outcome of the whole list.
fn compare_call(
    asked: &Asked<'_>,
    keep: &[u16],
    made: &'static str,
    label: &str,
    tally: &mut Tally,
) {
    let whole = asked.outcome(keep);
    let w = asked.read.map_or(0, |font| font.work() as usize);
    let wanted: Answer = match whole {
        Outcome::Refused(number, used) => (Err(number), used),
        Outcome::Way(1) => (Ok(asked.culprit(keep).map_or(65_536, u64::from)), true),
        Outcome::Way(_) => (Ok(65_536), true),
    };
    // No word for the answer is 11, behind every other refusal.
    let told = match wanted.0 {
        Ok(_) if asked.lent.words == 0 => Err(NO_ROOM),
        told => told,
    };
    tally.calls += 1;
    let way = match whole {
        Outcome::Way(way) => Some(way),
        _ => None,
    };
    tally.note(made, told, way);
    let got = call(asked.bytes, asked.name, keep, asked.lent, w);
    let same = match &got {
        Ok((answer, zeros)) => {
            let nothing = w == 0 && asked.lent.record == 0;
            *answer == told && (*zeros == wanted.1 || nothing)
        }
        Err(_) => false,
    };
    if !same {
        tally.differences += 1;
        if tally.first.len() < 5 {
            let mut text = format!(
                "\n{label} ({made}): {got:?}, wanted {told:?} and zeros {}\n  keep {keep:?}, name of {} bytes, lent {:?}\n  font ",
                wanted.1,
                asked.name.len(),
                asked.lent
            );
            asked.bytes.iter().for_each(|b| {
                let _ = write!(text, "{b:02x}");
            });
            text.push('\n');
            tally.first.push(text);
        }
    }
}

/// Some calls of one font.
pub fn compare(case: &Case, made: &'static str, seed: u64, tally: &mut Tally) {
    let reading = model::read(&case.font, WISHES);
    let read = reading.font.as_ref().map_err(|r| r.number);
    let tracer = read
        .ok()
        .map(|font| Tracer::new(&case.font, font, LIMITS).expect("parts of a font that is read"));
    let mut g = Generator::new(mixed(seed ^ 0x51ab_cc93, case.number as u64));
    tally.fonts += 1;
    for keep in lists(&mut g, tracer.as_ref()) {
        let name: Vec<u8> = match g.below(60) {
            0 => vec![b'N'; 65_536],
            1 => Vec::new(),
            _ => b"ABCDEF+N".to_vec(),
        };
        let w = read.map_or(g.below(20), |font| font.work() as usize);
        if w > 1 << 22 {
            continue;
        }
        let rows = tracer.as_ref().map_or(0, |t| t.trace(&keep).length());
        let lent = Lent {
            work: match g.below(12) {
                0 => g.below(w + 1),
                1 => w.saturating_sub(1),
                2 => w + g.below(20),
                _ => w,
            },
            record: match g.below(12) {
                0 => g.below(rows + 1),
                1 => rows.saturating_sub(1),
                2 => rows + g.below(40),
                _ => rows,
            },
            words: if g.once_in(25) { 0 } else { 1 },
        };
        let asked = Asked {
            bytes: &case.font,
            read,
            tracer: tracer.as_ref(),
            name: &name,
            lent,
        };
        compare_call(&asked, &keep, made, &case.label(seed), tally);
    }
}

/// Keep lists of a font: all glyphs that are found, some of them with repeats, and now and then a number that is refused.
fn lists(g: &mut Generator, tracer: Option<&Tracer<'_>>) -> Vec<Vec<u16>> {
    let Some(tracer) = tracer else {
        return vec![(0..g.below(4)).map(|_| g.below(9) as u16).collect()];
    };
    let all = found(tracer);
    let mut lists = vec![all.iter().copied().take(40).collect::<Vec<u16>>()];
    for _ in 0..2 {
        let mut some = listed(g, &all);
        some.truncate(40);
        if g.once_in(25) {
            some.push(tracer.found.len().min(65_535) as u16);
        }
        if g.once_in(8) {
            some.push(g.below(tracer.found.len()) as u16);
        }
        lists.push(some);
    }
    lists
}

/// Refusals 12 and 10: all glyphs of a font with 64,610 own strings, and of one whose subset has more than 67,108,864 bytes.
fn large(seed: u64, tally: &mut Tally) {
    let fonts = [
        ("64,610 own strings", cut_large::own_names(64_610)),
        (
            "a subset too long",
            cut_large::shared_by(256, 262_200, &[32, 10, 14]),
        ),
    ];
    for (kind, font) in fonts {
        let reading = model::read(&font, WISHES);
        let read = reading.font.as_ref().map_err(|r| r.number);
        let tracer = read
            .ok()
            .and_then(|read| Tracer::new(&font, read, LIMITS))
            .expect("a font that is read");
        let keep = found(&tracer);
        let asked = Asked {
            bytes: &font,
            read,
            tracer: Some(&tracer),
            name: b"N",
            lent: Lent {
                work: read.map_or(0, |font| font.work() as usize),
                record: tracer.trace(&keep).length() + 7,
                words: 1,
            },
        };
        tally.fonts += 1;
        compare_call(&asked, &keep, kind, &format!("{kind}, seed {seed}"), tally);
    }
}

/// `count` fonts made for this, half as many of those made for subsets, and two large ones.
pub fn run(seed: u64, count: usize) -> Tally {
    let mut tally = Tally::default();
    for (number, Made { kind, bytes }) in blocking_cases::fonts(seed).take(count).enumerate() {
        let case = Case {
            number,
            kind,
            state: crate::damage::INTACT,
            font: bytes,
            file: String::new(),
        };
        compare(&case, kind, seed, &mut tally);
    }
    for case in crate::cut_cases::fonts(seed).take(count / 2) {
        compare(&case, "fonts made for subsets", seed, &mut tally);
    }
    large(seed, &mut tally);
    tally
}

/// The time of a call for the last `kept` glyphs of so many, of which the `tried`-th costs the small file: so many are tried. Where it is
/// past them, the last two do, and all are tried.
pub fn time(
    glyphs: usize,
    kept: usize,
    tried: usize,
    clock: fn() -> std::time::Duration,
) -> (Result<u64, u8>, std::time::Duration) {
    let first = glyphs - kept;
    let font = if tried > kept {
        blocking_cases::culprits(glyphs, &[glyphs - 2, glyphs - 1])
    } else {
        blocking_cases::culprits(glyphs, &[first + tried - 1])
    };
    let reading = model::read(&font, WISHES);
    let w = reading.font.as_ref().map_or(0, |font| font.work() as usize);
    let keep: Vec<u16> = (first..glyphs).map(|k| k as u16).collect();
    let mut work = vec![0; w];
    let mut record = vec![0; 10 << 20];
    let mut answer = [0; 1];
    let start = clock();
    // SAFETY: each slice is there for the call.
    let number = unsafe {
        ffi::cff_blocking_glyph(
            font.as_ptr(),
            font.len(),
            b"N".as_ptr(),
            1,
            keep.as_ptr(),
            keep.len(),
            work.as_mut_ptr(),
            work.len(),
            record.as_mut_ptr(),
            record.len(),
            answer.as_mut_ptr(),
            1,
        )
    };
    let told = if number == 0 {
        Ok(answer[0])
    } else {
        Err(number)
    };
    (told, clock() - start)
}
