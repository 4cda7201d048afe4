//! Document 02, Wish 8, 'Unused letters leave no trace': pairs of fonts that hold the same but for unkept charstrings and bodies that the
//! record does not list, placed differently, must give the same reply.

use crate::cases::{Case, mixed};
use crate::compare::MEMORY;
use crate::cut::{self, Cut, Lent, WORDS};
use crate::cut_compare::{Asks, Opened};
use crate::domain::{NONE, WISHES};
use crate::generator::Generator;
use crate::library::{Library, Subsetted};
use crate::model::{self, Font, Held};
use crate::report::{self, Differences};
use crate::{files, hex, moved, original, record};
use std::collections::BTreeSet;
use std::fmt::Write;
use std::path::Path;

/// Ways 0 to 2, then refusals 1 to 13.
const COLUMNS: usize = 16;

/// The room of a first call.
const ROOM: usize = 1 << 17;

struct Difference {
    case: String,
    message: String,
    cut: Cut,
    fonts: [Vec<u8>; 2],
}

#[derive(Default)]
pub struct Pairs {
    pub pairs: u64,
    /// Made fonts and real ones that are read.
    fonts: u64,
    real: u64,
    calls: u64,
    answers: [u64; COLUMNS],
    bytes: u64,
    /// Pairs with the encoding asked for, with an OpenType file, and with flag 0.
    asked: u64,
    in_files: u64,
    copied: u64,
    /// Bodies overwritten, and those of them that got another length.
    glyphs: u64,
    subroutines: u64,
    other_length: u64,
    /// Fonts of which a kept charstring or a listed body was overwritten, and those of them with another reply.
    controls: u64,
    controls_differ: u64,
    differences: Differences<Difference>,
}

/// Which bodies of a font a call asks for.
struct Asked {
    glyphs: BTreeSet<u16>,
    globals: Option<BTreeSet<usize>>,
    /// Of each FD: none where all are asked, an empty set where the FD is not in use.
    locals: Vec<Option<BTreeSet<usize>>>,
}

impl Asked {
    fn by(held: &Held, cut: &Cut) -> Asked {
        let glyphs = cut::glyphs(&cut.keep);
        let fd = |glyph: u16| {
            let select = held.select.as_ref();
            select.map_or(0, |s| s.get(usize::from(glyph)).copied().unwrap_or(0))
        };
        let used: BTreeSet<u8> = glyphs
            .iter()
            .filter(|&&k| usize::from(k) < held.charstrings.len())
            .map(|&k| fd(k))
            .collect();
        let rows = record::rows(&cut.record);
        let reached = |fd: u8| record::reached(&rows, fd);
        let locals = (0..held.privates.len()).map(|f| {
            if !u8::try_from(f).is_ok_and(|f| used.contains(&f)) {
                return Some(BTreeSet::new());
            }
            (cut.flag != 0).then(|| reached(f as u8).local.into_iter().collect())
        });
        Asked {
            globals: (cut.flag != 0).then(|| reached(0).global.into_iter().collect()),
            locals: locals.collect(),
            glyphs,
        }
    }
}

impl Pairs {
    /// Some pairs by a font, at most so many; none where it is not read.
    pub fn font(
        &mut self,
        library: &Library,
        case: &Case,
        seed: u64,
        most: usize,
        asks: &Asks<'_>,
    ) {
        let reading = model::read(&case.font, WISHES);
        let Ok(font) = &reading.font else { return };
        if model::read(&case.font, NONE).memory > MEMORY {
            return;
        }
        let Some(held) = model::held(&case.font, font.charset.len()) else {
            return;
        };
        let program = match original::read(&case.font) {
            original::Outcome::Program(program) => Some(program),
            _ => None,
        };
        let opened = Opened {
            bytes: &case.font,
            read: Ok(font),
            program: program.as_ref(),
        };
        let file = case.file.bytes().fold(0, |n, b| mixed(n, u64::from(b)));
        let mut g = Generator::new(mixed(seed ^ file, case.number as u64));
        self.fonts += 1;
        self.real += u64::from(!case.file.is_empty());
        for mut cut in asks(&mut g, &opened).into_iter().take(most) {
            cut.encoding = g.one_of(&[0, 0, 1, 255]);
            self.pair(library, case, seed, &mut g, font, &held, &cut);
        }
    }

    #[allow(clippy::too_many_arguments)]
    fn pair(
        &mut self,
        library: &Library,
        case: &Case,
        seed: u64,
        g: &mut Generator,
        font: &Font,
        held: &Held,
        cut: &Cut,
    ) {
        self.pairs += 1;
        self.asked += u64::from(cut.encoding != 0 && !cut.cid_keyed);
        self.copied += u64::from(cut.flag == 0);
        let asked = Asked::by(held, cut);
        let mut other = held.clone();
        self.overwrite(g, &mut other, &asked);
        let table = moved::font(g, &other, &font.charset);
        let other_file = if g.once_in(3) {
            self.in_files += 1;
            files::wrapped(&table)
        } else {
            table.clone()
        };
        let tell = |pairs: &mut Pairs, message: String| {
            pairs.differences.push(Difference {
                case: case.label(seed),
                message,
                cut: cut.clone(),
                fonts: [case.font.clone(), other_file.clone()],
            });
        };
        if let Err(message) = still(font, &table) {
            return tell(self, format!("the moved font is not alike: {message}"));
        }
        // What is lent: enough, and then a little less of one thing.
        let work = font.work() as usize;
        let enough = Lent {
            work: work + g.below(3),
            room: ROOM.max(2 * case.font.len()),
            words: WORDS,
        };
        let first = self.both(library, [&case.font, &other_file], cut, enough);
        let length = match first {
            Err(message) => return tell(self, format!("{message}, lent {enough:?}")),
            Ok(length) => length,
        };
        let mut lents = Vec::new();
        if let Some(length) = length {
            let lent = |room| Lent { room, ..enough };
            lents.push(lent(length));
            lents.push(lent(length.saturating_sub(1 + g.below(2))));
        }
        if work > 0 {
            lents.push(Lent {
                work: work - 1,
                ..enough
            });
        }
        for lent in lents {
            if let Err(message) = self.both(library, [&case.font, &other_file], cut, lent) {
                tell(self, format!("{message}, lent {lent:?}"));
            }
        }
        if length.is_some() {
            self.control(library, g, font, held, cut, &asked, enough);
        }
    }

    /// Both replies, which must be the same: the length of the subset, or none.
    fn both(
        &mut self,
        library: &Library,
        fonts: [&[u8]; 2],
        cut: &Cut,
        lent: Lent,
    ) -> Result<Option<usize>, String> {
        let [one, two] = fonts.map(|font| library.subset(font, cut, lent));
        let (one, two) = (one?, two?);
        self.calls += 2;
        let column = match &one.answer {
            Ok((way, bytes)) => {
                self.bytes += bytes.len() as u64;
                *way as usize
            }
            Err(number) => 2 + usize::from(*number),
        };
        self.answers[column] += 1;
        same(&one, &two)?;
        Ok(one.answer.ok().map(|(_, bytes)| bytes.len()))
    }

    /// Noise in the place of each body that is not asked, of the same or another length.
    fn overwrite(&mut self, g: &mut Generator, held: &mut Held, asked: &Asked) {
        let mut counts = [0, 0];
        for (k, body) in held.charstrings.iter_mut().enumerate() {
            if !u16::try_from(k).is_ok_and(|k| asked.glyphs.contains(&k)) {
                counts[0] += 1;
                self.other_length += u64::from(noise(g, body));
            }
        }
        let mut each = |bodies: &mut [Vec<u8>], asked: &Option<BTreeSet<usize>>| {
            for (k, body) in bodies.iter_mut().enumerate() {
                if asked.as_ref().is_some_and(|set| !set.contains(&k)) {
                    counts[1] += 1;
                    self.other_length += u64::from(noise(g, body));
                }
            }
        };
        each(&mut held.globals, &asked.globals);
        for (private, asked) in held.privates.iter_mut().zip(&asked.locals) {
            if let Some(locals) = private.as_mut().and_then(|p| p.locals.as_mut()) {
                each(locals, asked);
            }
        }
        self.glyphs += counts[0];
        self.subroutines += counts[1];
    }

    /// A body that is asked, overwritten: the reply is another one as a rule.
    #[allow(clippy::too_many_arguments)]
    fn control(
        &mut self,
        library: &Library,
        g: &mut Generator,
        font: &Font,
        held: &Held,
        cut: &Cut,
        asked: &Asked,
        lent: Lent,
    ) {
        let mut other = held.clone();
        let mut bodies: Vec<&mut Vec<u8>> = other
            .charstrings
            .iter_mut()
            .enumerate()
            .filter(|(k, _)| asked.glyphs.contains(&(*k as u16)))
            .map(|(_, body)| body)
            .collect();
        let listed = |set: &Option<BTreeSet<usize>>, k| set.as_ref().is_none_or(|s| s.contains(&k));
        let globals = other.globals.iter_mut().enumerate();
        let globals = globals.filter(|(k, _)| listed(&asked.globals, *k));
        bodies.extend(globals.map(|(_, body)| body));
        for (private, set) in other.privates.iter_mut().zip(&asked.locals) {
            let locals = private
                .iter_mut()
                .flat_map(|p| p.locals.iter_mut().flatten());
            let locals = locals.enumerate().filter(|(k, _)| listed(set, *k));
            bodies.extend(locals.map(|(_, body)| body));
        }
        // Two numbers more in front.
        let k = g.below(bodies.len());
        bodies[k].splice(0..0, [239, 239]);
        let table = moved::font(g, &other, &font.charset);
        let fonts = [moved::font(g, held, &font.charset), table];
        let [one, two] = fonts.map(|font| library.subset(&font, cut, lent));
        if let (Ok(one), Ok(two)) = (one, two) {
            self.controls += 1;
            self.controls_differ += u64::from(same(&one, &two).is_err());
        }
    }

    pub fn differences(&self) -> u64 {
        self.differences.count
    }

    pub fn report(&self, folder: &Path) -> String {
        let mut out = String::new();
        let _ = writeln!(
            out,
            "{} pairs by {} fonts, {} of them real; {} calls, {} bytes of subsets compared",
            self.pairs, self.fonts, self.real, self.calls, self.bytes
        );
        let ways = (0..3).map(|way| format!("w{way}"));
        let refusals = (1..=13).map(|number| number.to_string());
        report::row(
            &mut out,
            "",
            7,
            ways.chain(refusals).chain(["all".to_string()]),
        );
        report::counts(
            &mut out,
            "pairs of replies, by the answer",
            7,
            &self.answers,
        );
        let _ = writeln!(
            out,
            "pairs with the encoding asked for {}, with an OpenType file {}, with flag 0 {}",
            self.asked, self.in_files, self.copied
        );
        let _ = writeln!(
            out,
            "overwritten: {} unkept charstrings, {} subroutines, {} of both to another length",
            self.glyphs, self.subroutines, self.other_length
        );
        let _ = writeln!(
            out,
            "fonts with a body overwritten that is asked: {}, with another reply: {}",
            self.controls, self.controls_differ
        );
        let _ = writeln!(out, "differences: {}", self.differences.count);
        for (k, difference) in self.differences.first.iter().enumerate() {
            let Difference {
                case, message, cut, ..
            } = difference;
            let _ = writeln!(out, "\n{case}\n  {message}");
            let keep: Vec<u8> = cut.keep.iter().flat_map(|k| k.to_be_bytes()).collect();
            let _ = writeln!(
                out,
                "  CID entry {}, encoding {}, keep {}, flag {}, record {}",
                cut.cid_keyed,
                cut.encoding,
                hex(&keep[..keep.len().min(2000)]),
                cut.flag,
                hex(&cut.record[..cut.record.len().min(2000)])
            );
            for (n, font) in difference.fonts.iter().enumerate() {
                report::font(&mut out, font, folder, &format!("alike-difference-{k}-{n}"));
            }
        }
        out
    }
}

/// Noise in a body's place; whether it has another length.
fn noise(g: &mut Generator, body: &mut Vec<u8>) -> bool {
    let before = body.len();
    let length = if g.once_in(2) { before } else { g.below(24) };
    *body = g.bytes(length);
    before != length
}

/// Whether a moved font is read, with as many of everything and the same ids.
fn still(font: &Font, table: &[u8]) -> Result<(), String> {
    let reading = model::read(table, WISHES);
    let other = reading.font.map_err(|refused| format!("{refused:?}"))?;
    let counts = |f: &Font| {
        let counts = [f.charstrings.count, f.globals.count, f.strings.count];
        (counts, f.locals, f.cid_keyed, f.stroked, f.encoding.min(2))
    };
    if counts(font) != counts(&other) || font.charset != other.charset {
        return Err(format!("{:?} for {:?}", counts(&other), counts(font)));
    }
    Ok(())
}

fn same(one: &Subsetted, two: &Subsetted) -> Result<(), String> {
    if one.zeros != two.zeros {
        return Err(format!(
            "{} and {} work words are zeros",
            one.zeros, two.zeros
        ));
    }
    match (&one.answer, &two.answer) {
        (Ok((way, bytes)), Ok((other_way, others))) => {
            if (way, bytes.len()) != (other_way, others.len()) {
                return Err(format!(
                    "ways {way} and {other_way}, {} and {} bytes",
                    bytes.len(),
                    others.len()
                ));
            }
            match (0..bytes.len()).find(|&k| bytes[k] != others[k]) {
                None => Ok(()),
                Some(k) => Err(format!(
                    "byte {k} is {:02x} and {:02x}",
                    bytes[k], others[k]
                )),
            }
        }
        (Err(number), Err(other)) if number == other => Ok(()),
        (one, two) => {
            let told = |a: &Result<(u64, Vec<u8>), u8>| match a {
                Ok((way, bytes)) => format!("way {way} and {} bytes", bytes.len()),
                Err(number) => format!("refusal {number}"),
            };
            Err(format!(
                "{} for one, {} for the other",
                told(one),
                told(two)
            ))
        }
    }
}
