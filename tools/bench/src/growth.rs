//! The growth of our time: with the glyphs of a font, with those that are kept, and with the rows of a record, the fonts being subsets of
//! the one with the most glyphs; and with the names of glyphs, in fonts that are made.

use crate::cff::CffProgram;
use crate::measure::least;
use crate::record::ROW;
use crate::{names, original, ours, sheet};
use mogdivash::{Font, Record};

/// The first so many of a list.
fn first(keep: &[u16], n: usize) -> &[u16] {
    &keep[..n.min(keep.len())]
}

/// Our least time, and the subset.
fn cut(bytes: &[u8], keep: &[u16], record: &Record) -> (f64, Vec<u8>) {
    least(|| ours::cut(bytes, keep, record))
}

/// Sizes that double, up to a largest.
fn sizes(largest: usize) -> Vec<usize> {
    let mut all: Vec<usize> = std::iter::successors(Some(1000), |n| Some(2 * n))
        .take_while(|&n| n < largest)
        .collect();
    all.push(largest);
    all
}

/// A row of a table: a size, the time, and the time by the size.
fn line(n: usize, time: f64, length: usize) {
    println!("| {n} | {length} | {time:.0} | {:.3} |", time / n as f64);
}

fn heading(title: &str, of: &str) {
    println!(
        "\n## {title}\n\n| {of} | bytes of the subset | microseconds | each |\n|---|---|---|---|"
    );
}

fn parsed(bytes: &[u8]) -> CffProgram {
    CffProgram::parse(bytes).expect("a font that is read")
}

pub fn print(fonts: &[(String, Vec<u8>)]) {
    let (name, bytes) = fonts
        .iter()
        .max_by_key(|(_, bytes)| Font::read(bytes).map_or(0, |font| font.glyphs()))
        .expect("a font");
    let program = parsed(bytes);
    let keep = sheet::all(&program);
    println!("{name}, {} bytes, {} glyphs.", bytes.len(), keep.len());
    by_glyphs(bytes, &keep);
    by_kept(bytes, &program, &keep);
    by_rows(bytes, &program, &keep);
    by_names("Names, all kept", usual);
    by_names("Names that share one hash, all kept", names::alike);
    by_shared();
}

fn by_glyphs(bytes: &[u8], keep: &[u16]) {
    heading("Glyphs of the font, 75 kept", "glyphs");
    for n in sizes(keep.len()) {
        let (_, font) = cut(bytes, first(keep, n), &Record::untraced());
        let program = parsed(&font);
        let letters = sheet::letters(&program);
        let (time, subset) = cut(&font, &letters, &original::record(&program, &letters));
        line(n, time, subset.len());
    }
}

fn by_kept(bytes: &[u8], program: &CffProgram, keep: &[u16]) {
    heading("Glyphs that are kept", "kept");
    for n in sizes(keep.len()) {
        let part = first(keep, n);
        let (time, subset) = cut(bytes, part, &original::record(program, part));
        line(n, time, subset.len());
    }
}

/// A row of a mask in a glyph.
const GLYPH_MASK: u8 = 2;

fn by_rows(bytes: &[u8], program: &CffProgram, keep: &[u16]) {
    heading("Rows of the record, 75 glyphs kept", "rows");
    let letters = sheet::letters(program);
    let own = original::record(program, &letters);
    let all = original::record(program, keep);
    // Rows of masks in glyphs that are not kept are passed over, so that the subset stays as it is.
    let kept = original::glyphs(&letters);
    let glyph = |row: &[u8]| u16::from_be_bytes([row[2], row[3]]);
    let others: Vec<&[u8]> = (all.bytes().chunks(ROW))
        .filter(|row| row[0] == GLYPH_MASK && !kept.contains(&glyph(row)))
        .collect();
    for n in sizes(others.len()) {
        let rows = own.bytes().chunks(ROW).chain(others[..n].iter().copied());
        let record = Record::from_bytes(rows.collect::<Vec<&[u8]>>().concat());
        let (time, subset) = cut(bytes, &letters, &record);
        line(record.bytes().len() / ROW, time, subset.len());
    }
}

/// The most glyphs with names of their own: ids from 391 to 64,999, and glyph 0.
const MOST_NAMES: usize = 64_610;

/// `uni` and four digits, as many fonts name their glyphs.
fn usual(count: usize) -> Vec<Vec<u8>> {
    let name = |k| format!("uni{k:04X}").into_bytes();
    (0..count).map(name).collect()
}

fn by_names(title: &str, made: fn(usize) -> Vec<Vec<u8>>) {
    heading(title, "glyphs");
    for n in sizes(MOST_NAMES) {
        let font = names::font(&made(n - 1));
        let keep: Vec<u16> = (0..n as u16).collect();
        let (time, subset) = cut(&font, &keep, &Record::untraced());
        line(n, time, subset.len());
    }
}

fn by_shared() {
    heading(
        "Glyphs that share one name of as many bytes, the first and the last kept",
        "glyphs",
    );
    for n in sizes(65_534) {
        let keep = [1, n as u16];
        let (time, subset) = cut(&names::shared(n), &keep, &Record::untraced());
        line(n, time, subset.len());
    }
}
