//! The cases of a run, one after another: the same for the same seed.

use crate::damage::{self, INTACT};
use crate::domain::NONE;
use crate::generator::Generator;
use crate::{fonts, heavy, model};
use std::collections::VecDeque;
use std::fs;
use std::path::Path;

/// A font to compare.
pub struct Case {
    pub number: usize,
    pub kind: &'static str,
    /// What was done to it.
    pub state: &'static str,
    pub font: Vec<u8>,
    /// The file it comes from, for a font that was not made here.
    pub file: String,
}

impl Case {
    /// What to call it in a report.
    pub fn label(&self, seed: u64) -> String {
        let Case {
            number,
            kind,
            state,
            file,
            ..
        } = self;
        if file.is_empty() {
            format!("case {seed} {number} ({kind}, {state})")
        } else {
            format!("{file}, copy {number} ({state})")
        }
    }
}

/// A font of a family: its kind, what was done to it, its bytes.
pub type Member = (&'static str, &'static str, Vec<u8>);

/// Made fonts without an end: each family starts with one font and goes on with copies.
pub struct Families {
    seed: u64,
    family: u64,
    number: usize,
    waiting: VecDeque<Member>,
    make: fn(&mut Generator) -> Vec<Member>,
}

/// Two words made one, so that neighbours are far apart.
pub fn mixed(seed: u64, k: u64) -> u64 {
    let mut z = seed.wrapping_mul(0x9e37_79b9_7f4a_7c15) ^ k.wrapping_add(0x632b_e59b_d9b4_e019);
    z = (z ^ (z >> 30)).wrapping_mul(0xbf58_476d_1ce4_e5b9);
    z = (z ^ (z >> 27)).wrapping_mul(0x94d0_49bb_1331_11eb);
    z ^ (z >> 31)
}

impl Families {
    pub fn new(seed: u64, make: fn(&mut Generator) -> Vec<Member>) -> Self {
        Families {
            seed,
            family: 0,
            number: 0,
            waiting: VecDeque::new(),
            make,
        }
    }
}

impl Iterator for Families {
    type Item = Case;

    fn next(&mut self) -> Option<Case> {
        while self.waiting.is_empty() {
            let mut g = Generator::new(mixed(self.seed, self.family));
            self.family += 1;
            self.waiting.extend((self.make)(&mut g));
        }
        let (kind, state, font) = self.waiting.pop_front()?;
        self.number += 1;
        Some(Case {
            number: self.number - 1,
            kind,
            state,
            font,
            file: String::new(),
        })
    }
}

/// A font, and up to two damaged copies of it.
pub fn copied(g: &mut Generator, made: fonts::Made) -> Vec<Member> {
    let copies = [0, 0, 1, 2][g.below(4)];
    let mut members = vec![(made.kind, INTACT, made.bytes.clone())];
    if copies > 0 {
        let marks = model::read(&made.bytes, NONE).marks;
        for _ in 0..copies {
            let (_, copy) = damage::damaged(g, &made.bytes, &marks);
            members.push((made.kind, "damaged", copy));
        }
    }
    members
}

/// The made fonts to read.
pub fn made(seed: u64) -> Families {
    Families::new(seed, family)
}

fn family(g: &mut Generator) -> Vec<Member> {
    if g.once_in(100) {
        return (0..4).map(|_| noise(g)).collect();
    }
    let made = fonts::make(g);
    let font = made.bytes;
    let reading = model::read(&font, NONE);
    let marks = reading.marks;
    let mut members = vec![(made.kind, INTACT, font.clone())];
    let mut push = |state, copy| members.push((made.kind, state, copy));
    // Only a font that is read is worth a sweep, and only a small one.
    let sweep = reading.font.is_ok() && font.len() < 400;
    match g.below(if sweep { 400 } else { 394 }) {
        // Every length short of the whole.
        394 | 395 => {
            for n in 0..font.len() {
                push("truncated at every length", font[..n].to_vec());
            }
        }
        // Every value of one byte.
        396 | 397 => {
            let at = match g.below(3) {
                0 => g.below(font.len()),
                _ => marks[g.below(marks.len())] + g.below(5),
            };
            let at = at.min(font.len() - 1);
            for value in 0..=255 {
                let mut copy = font.clone();
                copy[at] = value;
                push("every value of a byte", copy);
            }
        }
        // One bit flipped, at every place.
        398 | 399 => {
            for at in 0..font.len() {
                let mut copy = font.clone();
                copy[at] ^= 1 << g.below(8);
                push("a bit flipped at every place", copy);
            }
        }
        _ => {
            for _ in 0..g.below(4) {
                let (state, copy) = damage::damaged(g, &font, &marks);
                if g.once_in(6) {
                    let (_, copy) = damage::damaged(g, &copy, &marks);
                    push("damaged twice", copy);
                } else {
                    push(state, copy);
                }
            }
        }
    }
    members
}

/// Bytes that are no font, most of them few.
fn noise(g: &mut Generator) -> Member {
    let n = if g.once_in(2) {
        g.below(8)
    } else {
        g.below(80)
    };
    let mut bytes = g.bytes(n);
    for (k, b) in [1, 0, 4].into_iter().enumerate() {
        if k < n && g.once_in(2) {
            bytes[k] = b;
        }
    }
    ("noise", INTACT, bytes)
}

/// Fonts around refusal 4, as long as may be and longer, and fonts that the original cannot read
/// in bounded memory.
pub fn fixed() -> Vec<Case> {
    let mut cases = Vec::new();
    for (state, length, sound) in [
        ("of 67,108,864 bytes", model::LONGEST, true),
        ("of 67,108,865 bytes", model::LONGEST + 1, true),
        ("of 67,108,865 bytes", model::LONGEST + 1, false),
    ] {
        let mut font = fonts::plain(3);
        if !sound {
            font[0] = 2;
        }
        font.resize(length, 0);
        cases.push(("long", state, font));
    }
    let heavy = "heavy";
    cases.push((heavy, "locals shared by FDs", heavy::locals(1500, 20_000)));
    cases.push((
        heavy,
        "entries shared by FDs of fonts",
        heavy::entries(40, 120, 4096),
    ));
    cases.push((
        heavy,
        "strings shared by fonts",
        heavy::strings(300, 40_000),
    ));
    cases
        .into_iter()
        .enumerate()
        .map(|(number, (kind, state, font))| Case {
            number,
            kind,
            state,
            font,
            file: kind.to_string(),
        })
        .collect()
}

/// The tables in a folder, each with damaged copies.
pub fn tables(folder: &Path, seed: u64) -> Vec<Table> {
    let mut paths: Vec<_> = fs::read_dir(folder)
        .into_iter()
        .flatten()
        .flatten()
        .map(|entry| entry.path())
        .filter(|path| path.extension().is_some_and(|e| e == "cff"))
        .collect();
    paths.sort();
    paths
        .into_iter()
        .enumerate()
        .map(|(k, path)| Table {
            name: path
                .file_name()
                .map_or(String::new(), |n| n.to_string_lossy().into_owned()),
            font: fs::read(&path).expect("a table that was listed"),
            seed: mixed(seed, 1 << 40 | k as u64),
        })
        .collect()
}

/// A `CFF ` table of a real font.
pub struct Table {
    pub name: String,
    font: Vec<u8>,
    seed: u64,
}

impl Table {
    /// The table, and damaged copies of it.
    pub fn cases(&self) -> impl Iterator<Item = Case> + '_ {
        let mut g = Generator::new(self.seed);
        let reading = model::read(&self.font, NONE);
        let cid_keyed = reading.font.as_ref().is_ok_and(|f| f.cid_keyed);
        let kind = if cid_keyed {
            "real, CID-keyed"
        } else {
            "real, name-keyed"
        };
        let copies = match self.font.len() {
            0..100_000 => 30,
            100_000..2_000_000 => 15,
            _ => 6,
        };
        (0..=copies).map(move |k| {
            let (state, font) = if k == 0 {
                (INTACT, self.font.clone())
            } else {
                damage::damaged(&mut g, &self.font, &reading.marks)
            };
            Case {
                number: k,
                kind,
                state,
                font,
                file: self.name.clone(),
            }
        })
    }
}
