//! Cuts of one font compared: the library against what document 01 and the original say.

use crate::cases::{Case, mixed};
use crate::cff::CffProgram;
use crate::compare::MEMORY;
use crate::cut::{self, Answer, Cut, Lent, Outcome, Subset, WORDS};
use crate::cut_tally::{CutTally, Difference};
use crate::domain::{self, Call, NONE, WISHES};
use crate::generator::Generator;
use crate::library::Library;
use crate::model::{self, Font};
use crate::original;
use crate::{cut_cases, cut_model, cut_records};

/// A font, and what the original, and the model of what it is to answer, read in it.
pub struct Opened<'a> {
    pub bytes: &'a [u8],
    pub read: Result<&'a Font, u8>,
    pub program: Option<&'a CffProgram>,
}

/// Cuts made for a font.
pub type Asks<'a> = dyn Fn(&mut Generator, &Opened<'_>) -> Vec<Cut> + 'a;

pub fn compare(library: &Library, case: &Case, seed: u64, tally: &mut CutTally, asks: &Asks<'_>) {
    let before = model::read(&case.font, NONE);
    let reading = model::read(&case.font, WISHES);
    let inside = domain::inside(Call::Subset, &before, WISHES);
    tally.fonts += 1;
    tally.outside += u64::from(!inside);
    if before.memory > MEMORY {
        tally.heavy += 1;
        return;
    }
    let program = match original::read(&case.font) {
        original::Outcome::Program(program) => Some(program),
        _ => None,
    };
    let read = reading.font.as_ref().map_err(|r| r.number);
    let opened = Opened {
        bytes: &case.font,
        read: if inside {
            read
        } else {
            before.font.as_ref().map_err(|r| r.number)
        },
        program: program.as_ref(),
    };
    // Copies of one number in several files are asked different things.
    let file = case.file.bytes().fold(0, |n, b| mixed(n, u64::from(b)));
    let mut g = Generator::new(mixed(seed ^ file, case.number as u64));
    let mut given = false;
    for cut in asks(&mut g, &opened) {
        let inside = inside && domain::inside_too(&case.font, &before, &cut, WISHES);
        let outcome = cut::cut(opened.bytes, opened.read, opened.program, &cut);
        if panicked(case, seed, &cut, &outcome, tally) {
            continue;
        }
        if let (Outcome::Ready(_, Ok(subset)), Ok(font)) = (&outcome, opened.read)
            && modelled(font, &cut)
        {
            tally.modelled += 1;
            let wishes = if inside { WISHES } else { NONE };
            let verdict = match cut_model::cut(&case.font, font, &cut, wishes) {
                None => Err("none".to_string()),
                Some(Err(number)) => Err(format!("refusal {number}")),
                Some(Ok(mine)) => same(u64::from(mine.way), &mine.bytes, subset),
            };
            if let Err(message) = verdict {
                let message = format!("the model and the original differ: {message}");
                differ(case, seed, &cut, "nothing", message, tally);
            }
        }
        // Wish 4: of one font, not asked for its encoding, the answer stays; but an INDEX that begins elsewhere than at 1 is refused
        // before the encoding is read (Wish 5).
        let as_before = before.notes.contains(domain::EXPERT)
            && !before.notes.contains(domain::FIRST_OFFSET)
            && reading.fonts == 1;
        let before_it = match (&outcome, before.font.as_ref()) {
            (Outcome::Early(number), Err(_)) if as_before => Some(*number),
            _ => None,
        };
        let outcome = if inside {
            outcome
        } else {
            tally.outside_cuts += 1;
            if read.is_ok_and(|font| !modelled(font, &cut)) {
                tally.outside_large += 1;
                continue;
            }
            cut::by_model(opened.bytes, read, opened.program, &cut, WISHES)
        };
        if let (Some(before), Outcome::Early(number)) = (before_it, &outcome)
            && before != *number
        {
            let message = format!("refusal {number} for one font, the original's is {before}");
            differ(case, seed, &cut, "nothing", message, tally);
        }
        if panicked(case, seed, &cut, &outcome, tally) {
            continue;
        }
        let outcome = outcome.asking(read.map_or(0, library.work));
        for lent in lents(&mut g, &outcome) {
            let want = outcome.answer(lent);
            given |= want.subset.is_ok();
            tally.call((case.kind, case.state), &cut, &want);
            if let Err(message) = agrees(library, &case.font, &cut, lent, &want) {
                differ(case, seed, &cut, &format!("{lent:?}"), message, tally);
            }
        }
    }
    if given {
        reading.notes.into_iter().for_each(|note| tally.note(note));
    }
}

/// Whether there is no answer to compare with, which is told.
fn panicked(case: &Case, seed: u64, cut: &Cut, outcome: &Outcome, tally: &mut CutTally) -> bool {
    let Outcome::Panicked(message) = outcome else {
        return false;
    };
    tally.panics += 1;
    let message = format!("the original panics, or the model fails: {message}");
    differ(case, seed, cut, "nothing", message, tally);
    true
}

/// Whether the model is asked too: it looks through the rows for each body.
pub fn modelled(font: &Font, cut: &Cut) -> bool {
    font.work() < 100_000 && cut.keep.len() * cut.record.len() < 100_000_000
}

pub fn differ(
    case: &Case,
    seed: u64,
    cut: &Cut,
    lent: &str,
    message: String,
    tally: &mut CutTally,
) {
    tally.difference(Difference {
        case: case.label(seed),
        message,
        font: case.font.clone(),
        cut: cut.clone(),
        lent: lent.to_string(),
    });
}

/// One call of the library against the answer wanted.
pub fn agrees(
    library: &Library,
    font: &[u8],
    cut: &Cut,
    lent: Lent,
    want: &Answer<'_>,
) -> Result<(), String> {
    let got = library.subset(font, cut, lent)?;
    if got.zeros as u64 != want.zeros {
        return Err(format!(
            "{} work words are zeros, wanted {}",
            got.zeros, want.zeros
        ));
    }
    match (&got.answer, want.subset) {
        (Err(number), Err(wanted)) if *number == wanted => Ok(()),
        (Ok((way, bytes)), Ok(subset)) => same(*way, bytes, subset),
        (Ok((way, bytes)), Err(wanted)) => Err(format!(
            "a subset of way {way} and {} bytes, wanted refusal {wanted}",
            bytes.len()
        )),
        (Err(number), wanted) => Err(format!(
            "refusal {number}, wanted {:?}",
            wanted.map(|s| (s.way, s.bytes.len()))
        )),
    }
}

fn same(way: u64, bytes: &[u8], subset: &Subset) -> Result<(), String> {
    if way != u64::from(subset.way) {
        return Err(format!("way {way}, wanted {}", subset.way));
    }
    if bytes.len() != subset.bytes.len() {
        return Err(format!(
            "{} bytes, wanted {}",
            bytes.len(),
            subset.bytes.len()
        ));
    }
    match (0..bytes.len()).find(|&k| bytes[k] != subset.bytes[k]) {
        None => Ok(()),
        Some(k) => Err(format!(
            "byte {k} of {} is {:02x}, wanted {:02x}",
            bytes.len(),
            bytes[k],
            subset.bytes[k]
        )),
    }
}

/// What to lend: as much as is needed or more, and now and then one less of something.
pub fn lents(g: &mut Generator, outcome: &Outcome) -> Vec<Lent> {
    let mut all = Vec::new();
    let (work, length) = match outcome {
        Outcome::Ready(work, Ok(subset)) => (*work as usize, subset.bytes.len()),
        Outcome::Ready(work, Err(_)) => (*work as usize, g.below(600)),
        _ => (g.below(40), g.below(600)),
    };
    let more = |g: &mut Generator, n: usize| if g.once_in(2) { n } else { n + 1 + g.below(40) };
    all.push(Lent {
        work: more(g, work),
        room: more(g, length),
        words: WORDS + g.below(2),
    });
    let Outcome::Ready(..) = outcome else {
        return all;
    };
    if g.once_in(5) {
        all.push(Lent {
            work: more(g, work),
            room: if g.once_in(2) {
                length.saturating_sub(1)
            } else {
                g.below(length + 1)
            },
            words: WORDS,
        });
    }
    if g.once_in(8) {
        all.push(Lent {
            work: if g.once_in(2) {
                work.saturating_sub(1)
            } else {
                g.below(work.max(1))
            },
            room: if g.once_in(2) {
                length
            } else {
                g.below(length + 1)
            },
            words: WORDS,
        });
    }
    if g.once_in(100) {
        all.push(Lent {
            work: more(g, work),
            room: more(g, length),
            words: g.below(WORDS),
        });
    }
    all
}

/// The library's subsets of a font, one for each amount of glyphs, by the original's record.
pub fn subsets(library: &Library, font: &[u8]) -> Vec<(&'static str, Vec<u8>)> {
    let reading = model::read(font, WISHES);
    let original::Outcome::Program(program) = original::read(font) else {
        return Vec::new();
    };
    let opened = Opened {
        bytes: font,
        read: reading.font.as_ref().map_err(|r| r.number),
        program: Some(&program),
    };
    let mut g = Generator::new(1);
    let mut all = Vec::new();
    for amount in cut_cases::AMOUNTS {
        let mut keep = cut_cases::amount(&mut g, &opened, amount);
        keep.truncate(cut_cases::MANY);
        let record = cut_records::own(&program, &cut::glyphs(&keep));
        let cut = Cut {
            cid_keyed: program.is_cid_keyed(),
            name: b"ABCDEF+Subset".to_vec(),
            keep,
            record: record.bytes,
            flag: record.flag,
            record_kind: record.kind,
            encoding: 0,
        };
        let lent = Lent {
            work: opened.read.map_or(0, |f| f.work() as usize),
            room: 2 * font.len() + 1000,
            words: WORDS,
        };
        if let Ok(Ok((_, bytes))) = library.subset(font, &cut, lent).map(|s| s.answer) {
            all.push((amount, bytes));
        }
    }
    all
}
