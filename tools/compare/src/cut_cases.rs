//! Fonts to cut, and what is asked of them.

use crate::cases::{Families, Member, copied};
use crate::cut::{self, Cut, LONGEST_NAME};
use crate::cut_compare::Opened;
use crate::cut_records::{self, Record};
use crate::fonts;
use crate::generator::Generator;

/// The made fonts to cut.
pub fn fonts(seed: u64) -> Families {
    Families::new(seed ^ 0x9fb2_1c65_1e98_df25, family)
}

/// Those made for their encodings.
pub fn coded(seed: u64) -> Families {
    Families::new(seed ^ 0x4cf5_ad43_2745_937f, |g| {
        let made = fonts::make_coded(g);
        copied(g, made)
    })
}

fn family(g: &mut Generator) -> Vec<Member> {
    let made = fonts::make_to_cut(g);
    copied(g, made)
}

/// Some cuts of a font; one of a font that is refused.
pub fn made(g: &mut Generator, opened: &Opened<'_>) -> Vec<Cut> {
    let n = if opened.read.is_ok() {
        2 + g.below(5)
    } else {
        1
    };
    (0..n).map(|_| any(g, opened)).collect()
}

/// A cut of a font.
pub fn any(g: &mut Generator, opened: &Opened<'_>) -> Cut {
    let (Ok(font), Some(program)) = (opened.read, opened.program) else {
        return Cut {
            cid_keyed: g.once_in(2),
            name: name(g),
            keep: (0..g.below(4)).map(|_| g.below(9) as u16).collect(),
            record: Vec::new(),
            flag: g.below(2) as u8,
            record_kind: "no rows",
            encoding: 0,
        };
    };
    let glyphs = font.charset.len();
    let found: Vec<u16> = (0..glyphs as u16)
        .filter(|&k| cut::found(opened.bytes, font, program, k))
        .collect();
    let mut keep = listed(g, &found);
    let kept = cut::glyphs(&keep);
    let mut record = cut_records::any(g, program, &kept);
    if g.once_in(30) {
        // A number past the font.
        let at = g.below(keep.len() + 1);
        keep.insert(at, (glyphs + g.below(3)).min(65535) as u16);
    }
    if g.once_in(30) && glyphs < 65535 {
        keep.push(65535);
    }
    if found.len() < glyphs && g.once_in(8) {
        // A glyph whose name or CID is another's.
        let others: Vec<u16> = (0..glyphs as u16).filter(|k| !found.contains(k)).collect();
        let at = g.below(keep.len() + 1);
        keep.insert(at, others[g.below(others.len())]);
    }
    if g.once_in(60) {
        record = cut_records::malformed(g, program, &kept);
    }
    Cut {
        cid_keyed: font.cid_keyed ^ g.once_in(30),
        name: name(g),
        keep,
        record: record.bytes,
        flag: record.flag,
        record_kind: record.kind,
        encoding: 0,
    }
}

/// Numbers from a list in any order, with repeats: none, few, many or all of them.
pub fn listed(g: &mut Generator, found: &[u16]) -> Vec<u16> {
    let count = match g.below(8) {
        0 => 0,
        1 => 1,
        2 => found.len() + g.below(4),
        _ => 1 + g.below(found.len().min(12)),
    };
    let mut keep: Vec<u16> = (0..count).map(|_| found[g.below(found.len())]).collect();
    match g.below(6) {
        0 => keep.sort_unstable(),
        1 => keep.extend_from_slice(found),
        _ => {}
    }
    keep
}

/// A new name: short, around 255 bytes, or around the longest.
fn name(g: &mut Generator) -> Vec<u8> {
    let n = match g.below(120) {
        0 => LONGEST_NAME,
        1..=3 => LONGEST_NAME + 1 + g.below(2),
        4..=7 => 253 + g.below(4),
        8..=13 => 0,
        _ => 1 + g.below(20),
    };
    (0..n).map(|k| b'A' + (k % 26) as u8).collect()
}

/// Letters, digits and marks of a line of text, by name.
fn letters() -> Vec<String> {
    let mut names: Vec<String> = (b'A'..=b'Z')
        .chain(b'a'..=b'z')
        .map(|c| (c as char).to_string())
        .collect();
    let others = "zero one two three four five six seven eight nine space period comma hyphen colon semicolon \
                  exclam question parenleft parenright quoteright quoteleft ampersand";
    names.extend(others.split_whitespace().map(str::to_string));
    names
}

/// How much of a real font is kept.
pub const AMOUNTS: [&str; 3] = ["75 letters", "few glyphs", "all glyphs"];

/// The glyphs kept of a real font.
pub fn amount(g: &mut Generator, opened: &Opened<'_>, amount: &str) -> Vec<u16> {
    let (Ok(font), Some(program)) = (opened.read, opened.program) else {
        return Vec::new();
    };
    let all =
        || (0..font.charset.len() as u16).filter(|&k| cut::found(opened.bytes, font, program, k));
    match amount {
        "75 letters" if !font.cid_keyed => letters()
            .iter()
            .filter_map(|name| program.gid(name.as_bytes()))
            .collect(),
        "all glyphs" => all().collect(),
        _ => {
            let found: Vec<u16> = all().collect();
            let n = if amount == "few glyphs" { 3 } else { 75 };
            (0..n).map(|_| found[g.below(found.len())]).collect()
        }
    }
}

/// Glyphs above which the original's time, a product of glyphs and masks, is too long: there all are copied, and so many are
/// cut by its record.
pub const MANY: usize = 6000;

/// Cuts of a real font: each amount with the original's record, the first two with others too.
pub fn real(g: &mut Generator, opened: &Opened<'_>) -> Vec<Cut> {
    let (Ok(font), Some(program)) = (opened.read, opened.program) else {
        return vec![any(g, opened)];
    };
    let mut cuts = Vec::new();
    let mut push = |keep: &[u16], Record { bytes, flag, kind }| {
        cuts.push(Cut {
            cid_keyed: font.cid_keyed,
            name: b"ABCDEF+Subset".to_vec(),
            keep: keep.to_vec(),
            record: bytes,
            flag,
            record_kind: kind,
            encoding: 0,
        });
    };
    for what in AMOUNTS {
        let mut keep = amount(g, opened, what);
        if keep.len() > MANY {
            push(&keep, cut_records::none());
            keep.truncate(MANY);
        }
        let kept = cut::glyphs(&keep);
        push(&keep, cut_records::own(program, &kept));
        if keep.len() <= 75 {
            for _ in 0..3 {
                push(&keep, cut_records::any(g, program, &kept));
            }
        }
    }
    cuts
}

/// Cuts of a damaged copy of a real font: few glyphs, with any record.
pub fn few(g: &mut Generator, opened: &Opened<'_>) -> Vec<Cut> {
    let (Ok(font), Some(program)) = (opened.read, opened.program) else {
        return vec![any(g, opened)];
    };
    let keep = amount(g, opened, AMOUNTS[1]);
    let record = cut_records::any(g, program, &cut::glyphs(&keep));
    vec![Cut {
        cid_keyed: font.cid_keyed,
        name: b"Copy".to_vec(),
        keep,
        record: record.bytes,
        flag: record.flag,
        record_kind: record.kind,
        encoding: 0,
    }]
}
