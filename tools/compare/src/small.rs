//! Few work words (document 02, Wish 10): each call made with few and with many, by the same inputs. Number, way, length and bytes must be
//! the same, and refusal 9 and the end of the words go by the W of each.

use crate::cases::{Case, mixed};
use crate::compare::MEMORY;
use crate::cut::{self, Cut, Lent, NO_ROOM, WORDS, WORK};
use crate::cut_compare::{Asks, Opened};
use crate::cut_tally::Difference;
use crate::domain::{NONE, WISHES};
use crate::generator::Generator;
use crate::library::{Answer, Library, Subsetted};
use crate::model::{self, Font, LONGEST};
use crate::original;
use crate::report::{self, Differences};
use crate::small_fonts::WINDOW;
use std::collections::BTreeMap;
use std::fmt::Write;
use std::path::Path;

/// Ways 0 to 2, then refusals 1 to 13.
const COLUMNS: usize = 16;
type ByAnswer = [u64; COLUMNS];

const WIDTH: usize = 7;

/// The calls with many work words, and those with few.
pub struct Both {
    pub large: Library,
    pub small: Library,
}

/// What is lent beside work words.
#[derive(Clone, Copy, Debug)]
struct Room {
    room: usize,
    words: usize,
}

#[derive(Default)]
pub struct Tally {
    fonts: u64,
    pub cuts: u64,
    calls: u64,
    keyings: BTreeMap<&'static str, ByAnswer>,
    kinds: BTreeMap<(&'static str, &'static str), ByAnswer>,
    records: BTreeMap<&'static str, ByAnswer>,
    /// What the fonts have of which a subset was given.
    notes: BTreeMap<&'static str, u64>,
    /// What the cuts have of which a subset was given.
    met: BTreeMap<&'static str, u64>,
    bytes: u64,
    /// Words that the calls asked for, of those that were not refused by 9 or before.
    asked: [u64; 2],
    differences: Differences<Difference>,
}

/// How the ids of the kept glyphs go, and how many there are.
fn order(font: &Font, cut: &Cut) -> &'static str {
    let kept = cut::glyphs(&cut.keep);
    let ids: Vec<u16> = kept
        .iter()
        .map(|&glyph| font.charset[usize::from(glyph)])
        .collect();
    let more = kept.len() > WINDOW;
    match (font.cid_keyed, ids.is_sorted(), more) {
        (false, _, false) => "named, in a window",
        (false, _, true) => "named, in several windows",
        (true, true, false) => "CIDs that rise, in a window",
        (true, true, true) => "CIDs that rise, in several windows",
        (true, false, false) => "CIDs that do not rise, in a window",
        (true, false, true) => "CIDs that do not rise, in several windows",
    }
}

/// Whether refusal 9 was passed.
fn late<T>(answer: &Answer<T>) -> bool {
    match answer {
        Ok(_) => true,
        Err(number) => *number > WORK && *number < 14,
    }
}

impl Tally {
    /// The cuts of one font, at most so many.
    pub fn font(&mut self, both: &Both, case: &Case, seed: u64, most: usize, asks: &Asks<'_>) {
        let reading = model::read(&case.font, WISHES);
        if model::read(&case.font, NONE).memory > MEMORY {
            return;
        }
        let read = reading.font.as_ref().map_err(|r| r.number);
        let program = match original::read(&case.font) {
            original::Outcome::Program(program) => Some(program),
            _ => None,
        };
        let opened = Opened {
            bytes: &case.font,
            read,
            program: program.as_ref(),
        };
        let file = case.file.bytes().fold(10, |n, b| mixed(n, u64::from(b)));
        let mut g = Generator::new(mixed(seed ^ file, case.number as u64));
        self.fonts += 1;
        let mut given = false;
        for mut cut in asks(&mut g, &opened).into_iter().take(most) {
            cut.encoding = g.one_of(&[0, 0, 1, 255]);
            given |= self.cut(both, case, seed, &mut g, read.ok(), &cut);
        }
        if given {
            let notes = reading.notes.into_iter();
            notes.for_each(|note| *self.notes.entry(note).or_default() += 1);
        }
    }

    /// The calls of one cut, with enough lent, and then with less of something; whether a subset was given.
    fn cut(
        &mut self,
        both: &Both,
        case: &Case,
        seed: u64,
        g: &mut Generator,
        font: Option<&Font>,
        cut: &Cut,
    ) -> bool {
        self.cuts += 1;
        let any = g.below(40) as u64;
        let asked = [&both.large, &both.small].map(|l| font.map_or(any, l.work) as usize);
        let mut tell = |tally: &mut Tally, message: String, lent: String| {
            tally.differences.push(Difference {
                case: case.label(seed),
                message,
                font: case.font.clone(),
                cut: cut.clone(),
                lent,
            });
        };
        let more = if g.once_in(2) { 0 } else { 1 + g.below(40) };
        let enough = asked.map(|work| work + more);
        let mut room = Room {
            room: 2 * case.font.len() + cut.name.len() + 1000,
            words: WORDS + g.below(2),
        };
        let first = loop {
            match self.pair(both, case, cut, asked, enough, room, &mut tell) {
                Some(Err(NO_ROOM)) if room.room < LONGEST => room.room = LONGEST.min(4 * room.room),
                told => break told,
            }
        };
        let length = match first {
            None => return false,
            Some(Err(number)) if !late::<usize>(&Err(number)) => return false,
            Some(answer) => {
                self.asked
                    .iter_mut()
                    .zip(asked)
                    .for_each(|(sum, n)| *sum += n as u64);
                answer.ok()
            }
        };
        if let (Some(_), Some(font)) = (length, font) {
            *self.met.entry(order(font, cut)).or_default() += 1;
        }
        // The output as long as the subset, shorter, and too few words of answer.
        let length = length.unwrap_or(g.below(600));
        let mut rooms = vec![(enough, length, WORDS)];
        if g.once_in(4) {
            let shorter = if g.once_in(2) {
                1
            } else {
                1 + g.below(length + 1)
            };
            rooms.push((enough, length.saturating_sub(shorter), WORDS));
        }
        if g.once_in(4) {
            // One word fewer than each asks for, or any fewer.
            let any = g.below(64);
            let one = g.once_in(2);
            let fewer = asked.map(|work| if one { work - 1 } else { any * work / 64 });
            rooms.push((fewer, if g.once_in(2) { length } else { 0 }, WORDS));
        }
        if g.once_in(40) {
            rooms.push((enough, length + g.below(40), g.below(WORDS)));
        }
        for (work, room, words) in rooms {
            self.pair(
                both,
                case,
                cut,
                asked,
                work,
                Room { room, words },
                &mut tell,
            );
        }
        font.is_some() && first.is_some_and(|answer| answer.is_ok())
    }

    /// One call by each, with so many work words: the answer, its bytes as their length, or none where something does not hold.
    #[allow(clippy::too_many_arguments)]
    fn pair(
        &mut self,
        both: &Both,
        case: &Case,
        cut: &Cut,
        asked: [usize; 2],
        work: [usize; 2],
        room: Room,
        tell: &mut dyn FnMut(&mut Tally, String, String),
    ) -> Option<Answer<usize>> {
        self.calls += 2;
        let lent = |work| Lent {
            work,
            room: room.room,
            words: room.words,
        };
        let large = both.large.subset(&case.font, cut, lent(work[0]));
        let small = both.small.subset(&case.font, cut, lent(work[1]));
        let told = format!("{work:?} work words, {room:?}");
        let (large, small) = match (large, small) {
            (Ok(large), Ok(small)) => (large, small),
            (large, small) => {
                let said = [large.err(), small.err()];
                tell(self, format!("{said:?}"), told);
                return None;
            }
        };
        let verdict = same(&large, &small).and_then(|()| {
            words(&large, asked[0], work[0])?;
            words(&small, asked[1], work[1])
        });
        self.note(case, cut, &large.answer);
        if let Err(message) = verdict {
            tell(self, message, told);
            return None;
        }
        Some(large.answer.map(|(_, bytes)| bytes.len()))
    }

    fn note(&mut self, case: &Case, cut: &Cut, answer: &Answer<(u64, Vec<u8>)>) {
        let column = match answer {
            Ok((way, bytes)) => {
                self.bytes += bytes.len() as u64;
                (*way as usize).min(2)
            }
            Err(number) => 2 + usize::from(*number).clamp(1, 13),
        };
        let keying = match (cut.cid_keyed, cut.encoding) {
            (true, _) => "cff_subset_cid",
            (false, 0) => "cff_subset",
            (false, _) => "cff_subset, with its encoding",
        };
        self.keyings.entry(keying).or_default()[column] += 1;
        self.kinds.entry((case.kind, case.state)).or_default()[column] += 1;
        self.records.entry(cut.record_kind).or_default()[column] += 1;
    }

    pub fn differences(&self) -> u64 {
        self.differences.count
    }

    pub fn report(&self, folder: &Path) -> String {
        let mut out = String::new();
        let [large, small] = self.asked;
        let _ = writeln!(
            out,
            "{} cuts of {} fonts, {} calls, {} bytes of subsets compared; {large} and {small} work words asked for",
            self.cuts, self.fonts, self.calls, self.bytes
        );
        let mut table = |title: &str, rows: Vec<(String, &ByAnswer)>| {
            let _ = writeln!(out, "\n{title}");
            let ways = (0..3).map(|way| format!("w{way}"));
            let refusals = (1..=13).map(|number| number.to_string());
            let last = ["all".to_string()];
            report::row(&mut out, "", WIDTH, ways.chain(refusals).chain(last));
            for (label, counts) in rows {
                report::counts(&mut out, &label, WIDTH, counts);
            }
        };
        let of = |rows: &'static str| rows;
        let keyings = self.keyings.iter().map(|(k, n)| (k.to_string(), n));
        table(
            of(
                "Pairs of calls by entry and answer (w0 to w2: a subset of that way; else the refusal)",
            ),
            keyings.collect(),
        );
        let kinds = self.kinds.iter();
        let kinds = kinds.map(|((kind, state), n)| (format!("{kind}, {state}"), n));
        table("Pairs of calls by font", kinds.collect());
        let records = self.records.iter().map(|(k, n)| (k.to_string(), n));
        table("Pairs of calls by record", records.collect());
        let _ = writeln!(
            out,
            "\nCuts of which a subset was given, by the kept glyphs"
        );
        report::notes(&mut out, &self.met);
        let _ = writeln!(
            out,
            "\nFonts of which a subset was given, by what they have"
        );
        report::notes(&mut out, &self.notes);
        let _ = writeln!(out, "differences: {}", self.differences.count);
        for (k, difference) in self.differences.first.iter().enumerate() {
            difference.tell(&mut out);
            let name = format!("small-difference-{k}.cff");
            report::font(&mut out, &difference.font, folder, &name);
        }
        out
    }
}

/// Whether the first words that a call asks for are zeros once 9 is passed, and all as found before.
fn words(call: &Subsetted, asked: usize, lent: usize) -> Result<(), String> {
    let zeros = if late(&call.answer) { asked } else { 0 };
    if late(&call.answer) && lent < asked {
        return Err(format!("{lent} work words were enough, of {asked}"));
    }
    if call.zeros != zeros {
        return Err(format!(
            "{} work words are zeros, wanted {zeros} of {lent}",
            call.zeros
        ));
    }
    Ok(())
}

fn same(large: &Subsetted, small: &Subsetted) -> Result<(), String> {
    match (&large.answer, &small.answer) {
        (Ok((way, bytes)), Ok((other_way, others))) => {
            if (way, bytes.len()) != (other_way, others.len()) {
                return Err(format!(
                    "way {way} and {} bytes with many words, way {other_way} and {} with few",
                    bytes.len(),
                    others.len()
                ));
            }
            match (0..bytes.len()).find(|&k| bytes[k] != others[k]) {
                None => Ok(()),
                Some(k) => Err(format!(
                    "byte {k} of {} is {:02x} with many words, {:02x} with few",
                    bytes.len(),
                    bytes[k],
                    others[k]
                )),
            }
        }
        (Err(number), Err(other)) if number == other => Ok(()),
        (large, small) => {
            let told = |answer: &Answer<(u64, Vec<u8>)>| match answer {
                Ok((way, bytes)) => format!("way {way} and {} bytes", bytes.len()),
                Err(number) => format!("refusal {number}"),
            };
            Err(format!(
                "{} with many words, {} with few",
                told(large),
                told(small)
            ))
        }
    }
}
