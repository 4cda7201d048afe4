//! Cases to store: lines of fonts, inputs and answers for a program of the gate.

use crate::cases::{self, mixed};
use crate::compare::{self, counts};
use crate::domain::{self, Call, FIRST_OFFSET, NONE, Spoken, WISHES};
use crate::generator::Generator;
use crate::library::Counts;
use crate::model::{self, Font, PAST_LIMITS, Reading};
use crate::original::{self, Outcome};
use crate::{fonts, hex};
use std::collections::{BTreeMap, BTreeSet, VecDeque};

/// The longest font of a stored case.
const LONGEST: usize = 400;

/// How many fonts are looked at for cases.
const LOOKED_AT: usize = 150_000;

/// Fonts kept for each step that refuses and for each thing that a font may have: the shortest,
/// and as many as they come.
const SHORTEST: usize = 6;
const ANY: usize = 10;

/// How the heads start of fonts that a wish speaks of, and how many fonts are enough for one.
const FEW: &str = "few";

fn most(head: &str) -> usize {
    if !head.starts_with(FEW) {
        usize::MAX
    } else if head.contains(FIRST_OFFSET) {
        1
    } else {
        3
    }
}

#[derive(Default)]
struct Kept {
    shortest: BTreeSet<(usize, Vec<u8>)>,
    any: Vec<Vec<u8>>,
}

/// The heads under which a font may be stored.
fn heads(before: &Reading, reading: &Reading) -> Vec<String> {
    let later = if reading.fonts > 1 {
        ", later font"
    } else {
        ""
    };
    let keying = before.font.as_ref().map_or("", |font| {
        if font.cid_keyed {
            fonts::CID_KEYED
        } else {
            fonts::NAME_KEYED
        }
    });
    match (domain::spoken_of(before), &before.font) {
        (Spoken::Twice, _) => Vec::new(),
        (Spoken::Once(notes), Ok(_)) => {
            // What Wish 5 refuses, by the INDEX.
            let part = reading.font.as_ref().err().map_or(keying, |r| r.part);
            vec![format!("{FEW} {notes}, {part}{later}")]
        }
        (Spoken::Once(notes), Err(r)) => vec![format!("{FEW} {notes}, refused {}", r.number)],
        (Spoken::Nothing, Ok(_)) => {
            let head = |note: &&str| format!("0 {keying}, {note}");
            before.notes.iter().map(head).collect()
        }
        (Spoken::Nothing, Err(r)) => vec![format!("{} {} {}{later}", r.number, r.part, r.fault)],
    }
}

/// `count` lines, or as many as there are.
pub fn lines(seed: u64, count: usize) -> Vec<String> {
    let mut kept: BTreeMap<String, Kept> = BTreeMap::new();
    let mut keep = |key: String, font: &[u8]| {
        let entry = kept.entry(key).or_default();
        entry.shortest.insert((font.len(), font.to_vec()));
        if entry.shortest.len() > SHORTEST {
            entry.shortest.pop_last();
        }
        if entry.any.len() < ANY {
            entry.any.push(font.to_vec());
        }
    };
    for case in cases::made(seed).take(LOOKED_AT) {
        if case.font.len() > LONGEST {
            continue;
        }
        let before = model::read(&case.font, NONE);
        for head in heads(&before, &model::read(&case.font, WISHES)) {
            keep(head, &case.font);
        }
    }
    let mut kept: Vec<VecDeque<Vec<u8>>> = kept
        .into_iter()
        .map(|(head, kept)| {
            // A short one and any other, in turn.
            let mut short = kept.shortest.into_iter().map(|(_, font)| font);
            let mut any = kept.any.into_iter();
            let mut all = VecDeque::new();
            for _ in 0..SHORTEST.max(ANY) {
                all.extend(short.next());
                all.extend(any.next());
            }
            all.truncate(most(&head));
            all
        })
        .collect();
    let mut lines = Vec::new();
    let mut seen = BTreeSet::new();
    let mut used = BTreeSet::new();
    while lines.len() < count && kept.iter().any(|fonts| !fonts.is_empty()) {
        for fonts in &mut kept {
            // Fonts come under several heads; each is used once.
            while let Some(font) = fonts.pop_front() {
                if used.insert(font.clone()) {
                    let k = used.len() as u64;
                    for line in lines_of(&font, &mut Generator::new(mixed(seed, k))) {
                        if seen.insert(line.clone()) {
                            lines.push(line);
                        }
                    }
                    break;
                }
            }
        }
    }
    lines.truncate(count);
    lines
}

/// Some lines of one font: two of one that is refused, by document 01 or now.
fn lines_of(bytes: &[u8], g: &mut Generator) -> Vec<String> {
    let before = model::read(bytes, NONE);
    let reading = model::read(bytes, WISHES);
    let font = reading.font.as_ref().map_err(|r| r.number);
    checked(bytes, &before, font);
    let mut lines = vec![line('R', bytes, &[], &read_answer(font))];
    let mut names = Vec::new();
    let mut cids = Vec::new();
    let mut items = Vec::new();
    // A font that a wish takes is asked what a refused one is, so that the choice of lines stays.
    match before.font.as_ref().map_err(|r| r.number).and(font) {
        Err(_) => match g.below(3) {
            0 => names.push(any(g, |g| compare::names(g, None, bytes))),
            1 => cids.push(any(g, |g| compare::cids(g, None))),
            _ => items.push((g.below(3) as u8, any(g, |g| compare::item_numbers(g, 0)))),
        },
        Ok(f) => {
            let glyphs = f.charset.len();
            // The last glyph, one that there is, and any other.
            for glyph in [glyphs - 1, g.below(glyphs)] {
                let id = f.charset[glyph];
                if f.cid_keyed {
                    cids.push(id);
                } else {
                    names.push(f.text(bytes, id).to_vec());
                }
            }
            if !f.cid_keyed || g.once_in(3) {
                names.push(any(g, |g| compare::names(g, Some(f), bytes)));
            }
            if f.cid_keyed || g.once_in(3) {
                cids.push(any(g, |g| compare::cids(g, Some(f))));
            }
            // The last item of a kind, the number after the last of one, and any others.
            let count = |kind| f.index(kind).count as u64;
            let kind = g.below(3) as u8;
            items.push((kind, count(kind).saturating_sub(1)));
            let kind = g.below(3) as u8;
            items.push((kind, count(kind)));
            let kind = g.below(3) as u8;
            items.push((kind, g.word() % count(kind).max(1)));
            if g.once_in(3) {
                let kind = g.below(3) as u8;
                items.push((kind, any(g, |g| compare::item_numbers(g, count(kind)))));
            }
        }
    }
    names.retain(|name| name.len() < 40);
    items.retain(|&(_, number)| number <= u64::from(u32::MAX));
    lines.extend(names.iter().map(|name| name_line(bytes, font, name)));
    lines.extend(cids.iter().map(|&cid| cid_line(bytes, font, cid)));
    lines.extend(items.iter().map(|&item| item_line(bytes, font, item)));
    lines
}

/// One of a list.
fn any<T>(g: &mut Generator, list: impl Fn(&mut Generator) -> Vec<T>) -> T {
    let mut list = list(g);
    let k = g.below(list.len());
    list.swap_remove(k)
}

/// The model's answers are the original's, refusal 5 apart: those to store inside the domain, document 01's outside.
pub fn checked(bytes: &[u8], before: &Reading, stored: Result<&Font, u8>) {
    let font = if domain::inside(Call::Read, before, WISHES) {
        stored
    } else {
        before.font.as_ref().map_err(|r| r.number)
    };
    match (original::read(bytes), font) {
        (_, Err(PAST_LIMITS)) => {}
        (Outcome::Refused(error), Err(number)) => assert_eq!(original::number(&error), number),
        (Outcome::Program(program), Ok(font)) => {
            assert_eq!(program.charset(), font.charset);
            assert_eq!(program.is_cid_keyed(), font.cid_keyed);
            assert_eq!(original::locals(&program), font.locals);
            for kind in 0..3 {
                for k in 0..font.index(kind).count as u64 + 1 {
                    let mine = font.item(bytes, kind, k).ok().map(|span| &bytes[span]);
                    assert_eq!(original::item(&program, kind, k), mine);
                }
            }
            for name in program.glyph_names() {
                assert_eq!(program.gid(name), font.find_name(bytes, name));
            }
        }
        _ => panic!("model and original differ on {}", hex(bytes)),
    }
}

fn read_answer(font: Result<&Font, u8>) -> Vec<u8> {
    let font = match font {
        Err(refusal) => return vec![refusal],
        Ok(font) => font,
    };
    let Counts {
        glyphs,
        globals,
        strings,
        cid_keyed,
        work,
    } = counts(font);
    let mut out = vec![0];
    for n in [glyphs, globals, strings] {
        out.extend_from_slice(&(n as u32).to_be_bytes());
    }
    out.push(cid_keyed as u8);
    out.extend_from_slice(&work.to_be_bytes());
    out
}

fn found(answer: Result<Option<u16>, u8>) -> Vec<u8> {
    match answer {
        Err(refusal) => vec![refusal],
        Ok(None) => vec![0, 0, 0, 0],
        Ok(Some(glyph)) => [vec![0, 1], glyph.to_be_bytes().to_vec()].concat(),
    }
}

/// A case: its kind, its input and its answer. The input is the font's length, the font, and what is asked of it.
fn line(kind: char, font: &[u8], asked: &[u8], answer: &[u8]) -> String {
    let length = u16::try_from(font.len()).expect("a short font");
    let input = [&length.to_be_bytes(), font, asked].concat();
    format!("{kind} {} {}", hex(&input), hex(answer))
}

fn name_line(bytes: &[u8], font: Result<&Font, u8>, name: &[u8]) -> String {
    let answer = found(font.map(|f| f.find_name(bytes, name)));
    line('N', bytes, name, &answer)
}

fn cid_line(bytes: &[u8], font: Result<&Font, u8>, cid: u16) -> String {
    let answer = found(font.map(|f| f.find_cid(cid)));
    line('C', bytes, &cid.to_be_bytes(), &answer)
}

fn item_line(bytes: &[u8], font: Result<&Font, u8>, (kind, number): (u8, u64)) -> String {
    let answer = match font.and_then(|f| f.item(bytes, kind, number)) {
        Err(refusal) => vec![refusal],
        Ok(span) => [&[0], &bytes[span]].concat(),
    };
    let number = u32::try_from(number).expect("a number of four bytes");
    let asked = [&[kind][..], &number.to_be_bytes()].concat();
    line('I', bytes, &asked, &answer)
}
