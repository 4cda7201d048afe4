//! The `CFF ` tables of OpenType files and collections.

use std::collections::BTreeSet;

fn number(bytes: &[u8], at: usize, n: usize) -> Option<usize> {
    let part = bytes.get(at..at.checked_add(n)?)?;
    Some(part.iter().fold(0, |v, &b| v << 8 | usize::from(b)))
}

/// The table's bytes of every font in a file, each once.
pub fn tables(file: &[u8]) -> Option<Vec<&[u8]>> {
    let directories = if file.starts_with(b"ttcf") {
        let count = number(file, 8, 4)?;
        (0..count)
            .map(|k| number(file, 12 + 4 * k, 4))
            .collect::<Option<Vec<_>>>()?
    } else {
        vec![0]
    };
    let mut spans = BTreeSet::new();
    for at in directories {
        for k in 0..number(file, at + 4, 2)? {
            let row = at + 12 + 16 * k;
            if file.get(row..row + 4)? == b"CFF " {
                let start = number(file, row + 8, 4)?;
                spans.insert((start, start + number(file, row + 12, 4)?));
            }
        }
    }
    spans
        .into_iter()
        .map(|(start, end)| file.get(start..end))
        .collect()
}
