//! Cases of cff/mod.rs: an INDEX (`x`), a charset (`c`) and an FDSelect (`s`) read at a position.

mod charsets;
mod indexes;
mod selects;

use crate::cases::Cases;
use crate::cff::opened::{parse_charset, parse_fd_select, read_index};
use crate::generator::Generator;
use crate::program::FontError;
use charsets::{chosen_charsets, random_charset};
use indexes::{chosen_indexes, random_index};
use selects::{chosen_selects, random_select};

/// The longest font of a case.
const LONGEST: usize = 120;

/// The most glyphs of a case that may be answered by an id each, and by an FD each: the line stays short.
const MOST_IDS: u16 = 380;
const MOST_FDS: u16 = 700;

pub fn all(cases: &mut Cases, random: &mut Generator) {
    chosen_indexes(cases);
    for _ in 0..620 {
        random_index(cases, random);
    }
    chosen_charsets(cases);
    for _ in 0..330 {
        random_charset(cases, random);
    }
    chosen_selects(cases);
    for _ in 0..270 {
        random_select(cases, random);
    }
}

// ---- what is asked and answered

/// A line that is short enough.
pub fn add(cases: &mut Cases, kind: char, input: &[u8], answer: &[u8]) {
    assert!(
        4 + 2 * (input.len() + answer.len()) <= 1900,
        "a line of kind {kind} is too long"
    );
    cases.add(kind, input, answer);
}

/// The number of a refusal.
pub fn refusal(error: &FontError) -> u8 {
    match error {
        FontError::Truncated(_) => 1,
        FontError::Malformed(_) => 2,
        _ => panic!("an error of another kind: {error}"),
    }
}

/// Whether the INDEX at a position has all its offsets and the first of them is not 1: document 02, Wish 5. The original
/// reads such an INDEX, or judges its pairs.
fn begins_elsewhere(pos: usize, font: &[u8]) -> bool {
    let head = font.get(pos..pos.saturating_add(3));
    let Some(&[high, low, size @ 1..=4]) = head else {
        return false;
    };
    let (count, size) = (usize::from(high) << 8 | usize::from(low), usize::from(size));
    let Some(offsets) = font.get(pos + 3..pos + 3 + (count + 1) * size) else {
        return false;
    };
    let first = offsets[..size]
        .iter()
        .fold(0, |n, &b| n << 8 | u32::from(b));
    count > 0 && first != 1
}

/// An INDEX read at a position, by the original; by Wish 5 where it begins elsewhere than at 1.
fn index(cases: &mut Cases, pos: usize, font: &[u8]) {
    let answer = match read_index(font, pos) {
        _ if begins_elsewhere(pos, font) => vec![2],
        Err(e) => vec![refusal(&e)],
        Ok((items, end)) => {
            let mut answer = vec![0];
            answer.extend_from_slice(&(end as u32).to_be_bytes());
            answer.extend_from_slice(&(items.len() as u16).to_be_bytes());
            for item in items {
                let start = item.as_ptr() as usize - font.as_ptr() as usize;
                assert!(&font[start..start + item.len()] == item);
                answer.extend_from_slice(&(start as u32).to_be_bytes());
                answer.extend_from_slice(&(item.len() as u16).to_be_bytes());
            }
            answer
        }
    };
    add(cases, 'x', &[&place(pos)[..], part(font)].concat(), &answer);
}

fn charset(cases: &mut Cases, pos: usize, glyphs: u16, font: &[u8]) {
    let answer = match parse_charset(font, pos, glyphs) {
        Err(e) => vec![refusal(&e)],
        Ok(ids) => {
            let mut answer = vec![0];
            answer.extend(ids.iter().flat_map(|id| id.to_be_bytes()));
            answer
        }
    };
    add(
        cases,
        'c',
        &[&place(pos)[..], &glyphs.to_be_bytes(), part(font)].concat(),
        &answer,
    );
}

fn select(cases: &mut Cases, pos: usize, glyphs: u16, font: &[u8]) {
    let answer = match parse_fd_select(font, pos, glyphs) {
        Err(e) => vec![refusal(&e)],
        Ok(fds) => [&[0][..], &fds].concat(),
    };
    add(
        cases,
        's',
        &[&place(pos)[..], &glyphs.to_be_bytes(), part(font)].concat(),
        &answer,
    );
}

fn place(pos: usize) -> [u8; 2] {
    u16::try_from(pos)
        .expect("a position of two bytes")
        .to_be_bytes()
}

fn part(font: &[u8]) -> &[u8] {
    assert!(font.len() <= LONGEST);
    font
}

// ---- what the cases of a charset and of an FDSelect have in common

/// `charset` or `select`: a position, how many glyphs, the font.
type Ask = fn(&mut Cases, usize, u16, &[u8]);

/// Many formats, alone and with the same bytes behind each.
fn formats(cases: &mut Cases, ask: Ask, glyphs: [u16; 3], behind: &[u8]) {
    for format in 0..=255u8 {
        if format < 8 || format.is_power_of_two() || format > 253 {
            for glyphs in glyphs {
                ask(cases, 0, glyphs, &[&[format], behind].concat());
                ask(cases, 0, glyphs, &[format]);
            }
        }
    }
}

/// Positions around the end of short fonts.
fn positions(cases: &mut Cases, ask: Ask, glyphs: [u16; 3], font: [u8; 3]) {
    for pos in [0, 1, 2, 3, 65535] {
        for glyphs in glyphs {
            ask(cases, pos, glyphs, &[]);
            ask(cases, pos, glyphs, &[0, 0]);
            ask(cases, pos, glyphs, &font);
        }
    }
}

/// Every byte missing in turn; some glyphs more or fewer than it has.
fn parts_and_glyphs(cases: &mut Cases, ask: Ask, glyphs: u16, whole: &[u8]) {
    for cut in 0..=whole.len() {
        ask(cases, 0, glyphs, &whole[..cut]);
    }
    for more in 1..=3 {
        ask(cases, 0, glyphs + more, whole);
        ask(cases, 0, glyphs - more, whole);
        let late = [&counted(5)[..], whole, &[1, 2, 3, 4, 5]].concat();
        ask(cases, 5, glyphs + more, &late);
    }
}

/// Bytes that tell their places apart.
fn counted(n: usize) -> Vec<u8> {
    (0..n).map(|k| 0xa0 ^ k as u8).collect()
}

/// The bytes at a position, some others behind them as often as not.
fn among_others(random: &mut Generator, pos: usize, bytes: Vec<u8>) -> Vec<u8> {
    let mut font = random.bytes(pos);
    font.extend(bytes);
    if random.once_in(2) {
        font.extend(random.bytes(4));
    }
    font.truncate(LONGEST);
    font
}

/// Cuts the font short or changes a byte, three times in `odds`.
fn damage(random: &mut Generator, odds: usize, font: &mut Vec<u8>) {
    match random.below(odds) {
        0 => font.truncate(random.below(font.len() + 1)),
        1 => font.truncate(font.len() - 1),
        2 => {
            let at = random.below(font.len());
            font[at] = random.one_of(&[0, 1, 2, 3, 255, 128]);
        }
        _ => {}
    }
}
