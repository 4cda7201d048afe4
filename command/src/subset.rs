//! `mogdivash subset`: traces the selected glyphs, cuts, writes, and says what was done.

use crate::args::Wanted;
use crate::failure::Failure;
use crate::odd;
use crate::output;
use crate::selection::{self, Selection, Source};
use crate::{say, warn};
use mogdivash::{Font, Record, Refusal, Subset, Way};
use std::fs;
use std::path::{Path, PathBuf};

pub fn run(wanted: &Wanted) -> Result<(), Failure> {
    let path = wanted.font.as_path();
    let file = output::font_bytes(path)?;
    let refused = |refusal| Failure::refused(path, refusal);
    let font = Font::read(&file).map_err(refused)?;
    let out = out_path(wanted)?;
    let file = file.as_slice();
    let source = Source { font, file, path };
    let kept = selection::select(&source, &wanted.keep)?;
    let keep: Vec<u16> = kept.keys().copied().collect();
    let record = traced(&source, &kept, &keep)?;
    if !record.is_traced() {
        odd::warn_of(&source, &kept, &keep)?;
    }
    let subset = cut(&source, wanted, &keep, &record)?;
    output::put(&out, &subset.bytes)?;
    report(&source, &kept, &record, &subset, &out);
    Ok(())
}

fn traced(source: &Source, kept: &Selection, keep: &[u16]) -> Result<Record, Failure> {
    source.font.trace(keep).map_err(|refusal| {
        if refusal == Refusal::NotFound {
            odd::warn_of_unfound(&source.font, kept, keep);
        }
        Failure::refused(source.path, refusal)
    })
}

fn cut(source: &Source, wanted: &Wanted, keep: &[u16], record: &Record) -> Result<Subset, Failure> {
    let font = &source.font;
    let made = || made_name(source.path, keep);
    let name = wanted.name.clone().unwrap_or_else(made);
    if wanted.encoding && font.is_cid_keyed() {
        warn("a CID-keyed font has no codes: --encoding changes nothing");
    }
    let subset = match wanted.encoding {
        true => font.subset_with_encoding(name.as_bytes(), keep, record),
        false => font.subset(name.as_bytes(), keep, record),
    };
    subset.map_err(|refusal| Failure::refused(source.path, refusal))
}

/// Where the subset is written: never over the font itself.
fn out_path(wanted: &Wanted) -> Result<PathBuf, Failure> {
    let out = wanted.output.clone().unwrap_or_else(|| {
        let stem = wanted.font.file_stem().unwrap_or_default();
        let mut name = stem.to_os_string();
        name.push(".subset.cff");
        PathBuf::from(name)
    });
    let same = match (fs::canonicalize(&out), fs::canonicalize(&wanted.font)) {
        (Ok(out), Ok(font)) => out == font,
        _ => false,
    };
    if same {
        return Err(Failure::work(format!(
            "{}: the font itself would be replaced",
            out.display()
        )));
    }
    Ok(out)
}

/// A name as a PDF wants it for a subset: six letters by the kept glyphs, a plus, and the name of the file, of which the characters
/// that need no escape in a PDF stay.
fn made_name(path: &Path, keep: &[u16]) -> String {
    let mut sum = keep.iter().fold(5381_u64, |sum, &glyph| {
        sum.wrapping_mul(33).wrapping_add(u64::from(glyph))
    });
    let mut name = String::new();
    for _ in 0..6 {
        name.push(char::from(b'A' + (sum % 26) as u8));
        sum /= 26;
    }
    name.push('+');
    let stem = path.file_stem().unwrap_or_default().to_string_lossy();
    let plain = |letter: &char| letter.is_ascii_alphanumeric() || "-_.".contains(*letter);
    name.extend(stem.chars().filter(plain).take(64));
    name
}

/// What was done, on standard output, or beside it where the subset itself goes there.
fn report(source: &Source, kept: &Selection, record: &Record, subset: &Subset, out: &Path) {
    let plain = match record.is_traced() {
        true => "all plain",
        false => "not all plain",
    };
    let way = match subset.way {
        Way::Renumbered => "only the subroutines in use, renumbered",
        Way::Stubbed => "subroutines not in use emptied",
        Way::Copied => "all subroutines copied",
    };
    let (name, out_name) = (source.path.display(), out.display());
    // glyph 0 is always there
    let count = kept.len() + usize::from(!kept.contains_key(&0));
    let (of, before, after) = (source.font.glyphs(), source.file.len(), subset.bytes.len());
    let lines = [
        format!("{name}: kept {count} of {of} glyphs, {plain}; {way}"),
        format!("{out_name}: {after} bytes of {before}"),
    ];
    let to_error = out.as_os_str() == "-";
    for line in lines {
        if to_error { warn(&line) } else { say(&line) }
    }
}
