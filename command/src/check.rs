//! `mogdivash check`: whether a record of another tracer is accepted (document 02, Wish 6), and where not, what it lacks.

use crate::args::Checked;
use crate::failure::Failure;
use crate::odd;
use crate::output;
use crate::say;
use crate::selection::{self, Source};
use mogdivash::{Font, Record, Refusal};
use std::collections::BTreeSet;

/// The bytes of a row of a record.
const ROW: usize = 10;

pub fn run(checked: &Checked) -> Result<(), Failure> {
    let path = checked.font.as_path();
    let file = output::font_bytes(path)?;
    let refused = |refusal| Failure::refused(path, refusal);
    let font = Font::read(&file).map_err(refused)?;
    let file = file.as_slice();
    let source = Source { font, file, path };
    let kept = selection::select(&source, &checked.keep)?;
    let keep: Vec<u16> = kept.keys().copied().collect();
    let record = Record::from_bytes(output::file_bytes(&checked.record)?);
    match font.check_record(&keep, &record) {
        Ok(()) => {}
        Err(refusal @ (Refusal::Record | Refusal::NotAccepted)) => {
            let traced = font.trace(&keep).map_err(refused)?;
            match traced.is_traced() {
                true => name_missing(&traced, &record),
                false => odd::warn_of(&source, &kept, &keep)?,
            }
            return Err(Failure::refused(&checked.record, refusal));
        }
        Err(refusal) => return Err(refused(refusal)),
    }
    let (name, rows) = (checked.record.display(), record.bytes().len() / ROW);
    let count = keep.len() + usize::from(!kept.contains_key(&0));
    say(&format!(
        "{name}: accepted: its {rows} rows list all that {count} glyphs of {} meet",
        path.display()
    ));
    Ok(())
}

/// Says how many rows of the tracer's the record lacks, and the first of them.
fn name_missing(traced: &Record, record: &Record) {
    let there: BTreeSet<&[u8]> = record.bytes().chunks(ROW).collect();
    let lacks: Vec<&[u8]> = traced
        .bytes()
        .chunks(ROW)
        .filter(|row| !there.contains(row))
        .collect();
    if let Some(first) = lacks.first() {
        let (count, all) = (lacks.len(), traced.bytes().len() / ROW);
        let first = words(first);
        crate::warn(&format!(
            "the record lacks {count} of {all} rows that the kept glyphs meet, first {first}"
        ));
    }
}

/// A row in words: kind, FD, number, offset and length (document 01, 'Reach record').
fn words(row: &[u8]) -> String {
    let number = |at: usize, n: usize| {
        let part = row.get(at..at + n).unwrap_or_default();
        part.iter()
            .fold(0_u64, |sum, &byte| sum << 8 | u64::from(byte))
    };
    let (kind, fd, which) = (number(0, 1), number(1, 1), number(2, 2));
    let mask = format!(" at {}, of {} bytes", number(4, 4), number(8, 2));
    match kind {
        0 => format!("local subroutine {which} of FD {fd}"),
        1 => format!("global subroutine {which}"),
        2 => format!("the mask in glyph {which}{mask}"),
        3 => format!("the mask in local subroutine {which} of FD {fd}{mask}"),
        _ => format!("the mask in global subroutine {which}{mask}"),
    }
}

#[cfg(test)]
mod tests {
    use super::*;

    #[test]
    fn rows_in_words() {
        assert_eq!(
            words(&[0, 2, 1, 0, 0, 0, 0, 0, 0, 0]),
            "local subroutine 256 of FD 2"
        );
        assert_eq!(
            words(&[1, 0, 0, 7, 0, 0, 0, 0, 0, 0]),
            "global subroutine 7"
        );
        assert_eq!(
            words(&[2, 0, 0, 7, 0, 0, 0, 9, 0, 3]),
            "the mask in glyph 7 at 9, of 3 bytes"
        );
        assert_eq!(
            words(&[3, 1, 0, 7, 0, 0, 0, 9, 0, 3]),
            "the mask in local subroutine 7 of FD 1 at 9, of 3 bytes"
        );
        words(&[4]);
    }
}
