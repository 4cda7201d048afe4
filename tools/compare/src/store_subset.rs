//! Cases of subsetting to store: lines of a font, what is asked of it, what is lent, and the answer.

use crate::cases::mixed;
use crate::cut::{self, Answer, Cut, Lent, Outcome, WORDS};
use crate::cut_cases;
use crate::cut_compare::{self, Opened};
use crate::domain::{self, Call, FD_MATRIX, NONE, STROKED, Spoken, WISHES};
use crate::generator::Generator;
use crate::model::{self, Reading};
use crate::{hex, original, store};
use std::collections::{BTreeMap, BTreeSet};

/// The longest font, and the longest input and answer, of a stored case.
const LONGEST_FONT: usize = 500;
const LONGEST: usize = 4096;

/// How the names of things start that refusals show: those of reading and of records, and others.
const REFUSED: &str = "refusal";
const LATE: &str = "late";
/// The same for fonts that a wish speaks of, and for those with a FontMatrix in an FD.
const FEW: &str = "few";
const FEW_MATRICES: &str = "three";

/// How many lines of one thing are enough.
fn most(key: &str) -> usize {
    if key.starts_with(FEW) {
        1
    } else if key.starts_with(FEW_MATRICES) {
        3
    } else if key.starts_with(REFUSED) {
        2
    } else if key.starts_with(LATE) {
        7
    } else {
        usize::MAX
    }
}

/// How many fonts are looked at for cases.
const LOOKED_AT: usize = 20_000;

/// A line, and what it shows.
struct Candidate {
    line: String,
    /// The line's length with document 01's answer, so that wishes do not change the choice.
    length: usize,
    shows: BTreeSet<String>,
    used: bool,
}

/// `count` lines, or as many as there are: what is shown by few lines comes first.
pub fn lines(seed: u64, count: usize) -> Vec<String> {
    let mut candidates = candidates(seed);
    let mut by_key: BTreeMap<String, Vec<usize>> = BTreeMap::new();
    for (k, candidate) in candidates.iter().enumerate() {
        for key in &candidate.shows {
            by_key.entry(key.clone()).or_default().push(k);
        }
    }
    let mut keys: Vec<(String, Vec<usize>)> = by_key.into_iter().collect();
    keys.sort_by_key(|(_, list)| list.len());
    for (_, list) in &mut keys {
        list.sort_by_key(|&k| candidates[k].length);
    }
    let mut g = Generator::new(seed);
    let mut shown: BTreeMap<String, usize> = BTreeMap::new();
    let mut chosen = Vec::new();
    for round in 1..200 {
        for (key, list) in &keys {
            if chosen.len() == count {
                break;
            }
            let enough = round.min(most(key));
            if shown.get(key).copied().unwrap_or(0) >= enough {
                continue;
            }
            // The shortest one, or any, in turn.
            let left: Vec<usize> = list
                .iter()
                .copied()
                .filter(|&k| !candidates[k].used)
                .collect();
            if left.is_empty() {
                continue;
            }
            let k = if round % 2 == 1 {
                left[0]
            } else {
                left[g.below(left.len())]
            };
            candidates[k].used = true;
            for key in &candidates[k].shows {
                *shown.entry(key.clone()).or_default() += 1;
            }
            chosen.push(candidates[k].line.clone());
        }
    }
    chosen
}

fn candidates(seed: u64) -> Vec<Candidate> {
    let mut all = Vec::new();
    let mut seen = BTreeSet::new();
    for case in cut_cases::fonts(seed).take(LOOKED_AT) {
        if case.font.len() > LONGEST_FONT {
            continue;
        }
        let before = model::read(&case.font, NONE);
        let reading = model::read(&case.font, WISHES);
        let read = reading.font.as_ref().map_err(|r| r.number);
        store::checked(&case.font, &before, read);
        // A font that a wish takes shows what it showed before, so that the choice of lines stays.
        let shown = match (&before.font, read) {
            (Err(_), Ok(_)) => &before,
            _ => &reading,
        };
        let program = match original::read(&case.font) {
            original::Outcome::Program(program) => Some(program),
            _ => None,
        };
        let opened = Opened {
            bytes: &case.font,
            read: before.font.as_ref().map_err(|r| r.number),
            program: program.as_ref(),
        };
        let mut g = Generator::new(mixed(seed ^ 0x1234_5678, case.number as u64));
        for cut in cut_cases::made(&mut g, &opened) {
            let outcome = cut::cut(&case.font, opened.read, opened.program, &cut);
            if let Outcome::Panicked(_) = outcome {
                continue;
            }
            // Outside the domain the model's answer is stored.
            let inside = domain::inside(Call::Subset, &before, WISHES)
                && domain::inside_too(&case.font, &before, &cut, WISHES);
            let stored =
                (!inside).then(|| cut::by_model(&case.font, read, opened.program, &cut, WISHES));
            // A subset that a wish makes longer is lent so much more.
            let length = stored.as_ref().map_or(0, length);
            let more = length.saturating_sub(self::length(&outcome));
            for lent in cut_compare::lents(&mut g, &outcome) {
                let answer = outcome.answer(lent);
                let Some(plain) = line(&case.font, &cut, lent, &answer) else {
                    continue;
                };
                let stored = match &stored {
                    None => plain.clone(),
                    Some(stored) => {
                        let room = lent.room + more;
                        let lent = Lent { room, ..lent };
                        let stored = stored.answer(lent);
                        line(&case.font, &cut, lent, &stored).expect("no longer than another")
                    }
                };
                let length = plain.len();
                if seen.insert(plain) {
                    let shows = shows(&before, shown, &cut, &answer);
                    all.push(Candidate {
                        line: stored,
                        length,
                        shows,
                        used: false,
                    });
                }
            }
        }
    }
    all
}

fn length(outcome: &Outcome) -> usize {
    match outcome {
        Outcome::Ready(_, Ok(subset)) => subset.bytes.len(),
        _ => 0,
    }
}

fn letter(cut: &Cut) -> char {
    if cut.cid_keyed { 'D' } else { 'S' }
}

/// What a case shows of a font that one wish speaks of, with document 01's answer.
fn shows_of_wish(notes: &str, reading: &Reading, cut: &Cut, answer: &Answer<'_>) -> Option<String> {
    let letter = letter(cut);
    // What is refused when the font is read, by what refuses it.
    if let Err(refused) = &reading.font {
        return Some(format!("{FEW} {notes}, {}", refused.part));
    }
    match answer.subset {
        Ok(subset) if notes == FD_MATRIX => Some(format!("{FEW_MATRICES} {notes}, {}", subset.way)),
        Ok(_) => Some(format!("{FEW} {notes}, {letter}")),
        Err(model::MALFORMED) => Some(format!("{FEW} {notes}, {letter} without a ROS")),
        Err(number) if notes.contains(STROKED) => Some(format!("{FEW} {STROKED}, {number}")),
        Err(_) => None,
    }
}

/// What a case shows: its answer with its record, and with each thing that the font has.
fn shows(before: &Reading, reading: &Reading, cut: &Cut, answer: &Answer<'_>) -> BTreeSet<String> {
    match domain::spoken_of(before) {
        Spoken::Nothing => {}
        Spoken::Once(notes) => {
            return shows_of_wish(&notes, reading, cut, answer)
                .into_iter()
                .collect();
        }
        Spoken::Twice => return BTreeSet::new(),
    }
    let letter = letter(cut);
    let mut keys = BTreeSet::new();
    if let Err(refused) = &reading.font {
        keys.insert(format!("{REFUSED} {} {}", refused.number, refused.part));
        keys.insert(format!("{REFUSED} {} {letter}", refused.number));
        return keys;
    }
    match answer.subset {
        Err(number) => {
            keys.insert(if number == cut::RECORD {
                format!("{REFUSED} {number} {letter}, {}", cut.record_kind)
            } else {
                format!("{LATE} {number} {letter}")
            });
        }
        Ok(subset) => {
            let way = subset.way;
            keys.insert(format!("{letter} way {way}, {}", cut.record_kind));
            let kept = cut::glyphs(&cut.keep).len();
            keys.insert(format!("{letter} way {way}, {} kept", kept.min(4)));
            for note in &reading.notes {
                keys.insert(format!("{letter} way {way}, {note}"));
            }
        }
    }
    keys
}

/// The case as a line, if it is short enough and two words are lent for its answer.
fn line(font: &[u8], cut: &Cut, lent: Lent, answer: &Answer<'_>) -> Option<String> {
    if lent.words < WORDS {
        return None;
    }
    let short = |n: usize| u16::try_from(n).ok().map(u16::to_be_bytes);
    let mut input = short(font.len())?.to_vec();
    input.extend_from_slice(font);
    input.push(u8::try_from(cut.name.len()).ok()?);
    input.extend_from_slice(&cut.name);
    input.extend_from_slice(&short(cut.keep.len())?);
    input.extend(cut.keep.iter().flat_map(|k| k.to_be_bytes()));
    input.push(cut.flag);
    input.extend_from_slice(&short(lent.work)?);
    input.extend_from_slice(&short(lent.room)?);
    input.extend_from_slice(&cut.record);
    let output = match answer.subset {
        Err(number) => vec![number],
        Ok(subset) => [&[0, subset.way], subset.bytes.as_slice()].concat(),
    };
    if input.len() > LONGEST || output.len() > LONGEST {
        return None;
    }
    Some(format!("{} {} {}", letter(cut), hex(&input), hex(&output)))
}
