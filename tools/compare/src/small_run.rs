//! The mode `small`: calls with few work words beside those with many, and against the original.

use crate::cases::{self, Table};
use crate::cut_tally::CutTally;
use crate::encoding_compare::Notes;
use crate::small::{Both, Tally};
use crate::{
    cut_cases, cut_compare, cut_large, encoding_compare, library, small_cases, small_fonts,
};
use std::path::Path;

/// The report of a run, and how many differences it met.
pub fn run(seed: u64, count: usize, target: &Path) -> (String, u64) {
    let both = Both {
        large: library::library(),
        small: library::small(),
    };
    let tables = cases::tables(&target.join("fonts"), seed);
    let pairs = [
        ("made fonts", made(&both, seed, count)),
        ("many glyphs, and large fonts", many(&both, seed)),
        ("real fonts", real(&both, seed, &tables)),
    ];
    let alone = [
        ("few words against the original", plain(seed, count / 4)),
        (
            "few words and many glyphs against the original",
            alone(seed),
        ),
        (
            "few words and the encoding against the model",
            coded(seed, count / 4),
        ),
    ];
    let folder = target.join("compare");
    let mut text = format!(
        "seed {seed}, {count} cuts of made fonts, {} tables of real fonts\n",
        tables.len()
    );
    let mut differences = 0;
    for (title, tally) in &pairs {
        text += &format!("\n==== {title}\n{}", tally.report(&folder));
        differences += tally.differences();
    }
    for (title, tally) in &alone {
        text += &format!("\n==== {title}\n{}", tally.report(&folder));
        differences += tally.differences();
    }
    (text, differences)
}

/// So many cuts of fonts made for this, for subsets and for encodings, in turn.
fn made(both: &Both, seed: u64, count: usize) -> Tally {
    let mut tally = Tally::default();
    let others = cut_cases::fonts(seed).zip(cut_cases::coded(seed));
    let all = small_fonts::fonts(seed).zip(others);
    for case in all.flat_map(|(own, (cut, coded))| [own, cut, coded]) {
        let most = count - tally.cuts as usize;
        if most == 0 {
            break;
        }
        tally.font(both, &case, seed, most, &cut_cases::made);
    }
    tally
}

/// Fonts with more glyphs than a window has words, and the large ones of `subset`.
fn many(both: &Both, seed: u64) -> Tally {
    let mut tally = Tally::default();
    for case in small_fonts::large(seed) {
        tally.font(both, &case, seed, usize::MAX, &small_cases::many);
    }
    for (case, ask) in cut_large::fonts(seed) {
        tally.font(both, &case, seed, usize::MAX, &ask);
    }
    tally
}

/// The tables of real fonts as in `subset`, with many kept glyphs too, and two damaged copies of each.
fn real(both: &Both, seed: u64, tables: &[Table]) -> Tally {
    let mut tally = Tally::default();
    for table in tables {
        for (k, case) in table.cases().take(3).enumerate() {
            if k > 0 {
                tally.font(both, &case, seed, usize::MAX, &cut_cases::few);
                continue;
            }
            tally.font(both, &case, seed, usize::MAX, &cut_cases::real);
            tally.font(both, &case, seed, usize::MAX, &small_cases::many);
        }
    }
    tally
}

/// Cuts of so many fonts made for subsets, and of as many made for this, compared as in `subset`.
fn plain(seed: u64, count: usize) -> CutTally {
    let library = library::small();
    let mut tally = CutTally::default();
    let fonts = cut_cases::fonts(seed).zip(small_fonts::fonts(seed));
    for case in fonts.take(count).flat_map(|(cut, own)| [cut, own]) {
        cut_compare::compare(&library, &case, seed, &mut tally, &cut_cases::made);
    }
    tally
}

/// Cuts of fonts with more glyphs than a window has words, compared as in `subset`: both calls cut by the same functions.
fn alone(seed: u64) -> CutTally {
    let library = library::small();
    let mut tally = CutTally::default();
    for case in small_fonts::large(seed) {
        cut_compare::compare(&library, &case, seed, &mut tally, &small_cases::many);
    }
    tally
}

/// Cuts with the encoding of so many fonts made for it, and of those with many names, compared as in `encoding`.
fn coded(seed: u64, count: usize) -> CutTally {
    let library = library::small();
    let mut tally = CutTally::default();
    let mut notes = Notes::default();
    for case in cut_cases::coded(seed).take(count) {
        tally.fonts += 1;
        let asks = &cut_cases::made;
        encoding_compare::compare(&library, &case, seed, &mut tally, &mut notes, asks);
    }
    for case in small_fonts::large(seed) {
        if case.state == small_fonts::LEAST_NAMES {
            tally.fonts += 1;
            let asks = &small_cases::many;
            encoding_compare::compare(&library, &case, seed, &mut tally, &mut notes, asks);
        }
    }
    tally
}
