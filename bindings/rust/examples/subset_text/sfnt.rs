//! The tables of an OpenType file, and the glyph of a character (cmap formats 4 and 12).

fn number(bytes: &[u8], at: usize, n: usize) -> Option<usize> {
    let part = bytes.get(at..at.checked_add(n)?)?;
    Some(part.iter().fold(0, |v, &b| v << 8 | usize::from(b)))
}

/// A table of the file.
pub fn table(file: &[u8], tag: [u8; 4]) -> Option<&[u8]> {
    for k in 0..number(file, 4, 2)? {
        let row = 12 + 16 * k;
        if file.get(row..row + 4)? == tag {
            let start = number(file, row + 8, 4)?;
            return file.get(start..start.checked_add(number(file, row + 12, 4)?)?);
        }
    }
    None
}

/// The glyph of a character: format 12 before format 4.
pub fn glyph(cmap: &[u8], letter: char) -> Option<u16> {
    let code = letter as usize;
    let places: Vec<usize> = (0..number(cmap, 2, 2)?)
        .filter_map(|k| number(cmap, 8 + 8 * k, 4))
        .collect();
    let of = |format: usize| {
        places
            .iter()
            .filter(move |&&at| number(cmap, at, 2) == Some(format))
    };
    let found = of(12)
        .find_map(|&at| in_groups(cmap, at, code))
        .or_else(|| of(4).find_map(|&at| in_segments(cmap, at, code)))?;
    u16::try_from(found).ok().filter(|&glyph| glyph != 0)
}

/// Format 12: groups of characters, each with its first glyph.
fn in_groups(cmap: &[u8], at: usize, code: usize) -> Option<usize> {
    for k in 0..number(cmap, at + 12, 4)? {
        let group = at + 16 + 12 * k;
        let first = number(cmap, group, 4)?;
        if (first..=number(cmap, group + 4, 4)?).contains(&code) {
            return Some(number(cmap, group + 8, 4)? + code - first);
        }
    }
    None
}

/// Format 4: segments of characters, each with a delta and perhaps an array of glyphs.
fn in_segments(cmap: &[u8], at: usize, code: usize) -> Option<usize> {
    let twice = number(cmap, at + 6, 2)?;
    for k in 0..twice / 2 {
        let end = number(cmap, at + 14 + 2 * k, 2)?;
        let first = number(cmap, at + 16 + twice + 2 * k, 2)?;
        if !(first..=end).contains(&code) {
            continue;
        }
        let delta = number(cmap, at + 16 + 2 * twice + 2 * k, 2)?;
        let place = at + 16 + 3 * twice + 2 * k;
        let offset = number(cmap, place, 2)?;
        if offset == 0 {
            return Some((code + delta) % 65536);
        }
        let glyph = number(cmap, place + offset + 2 * (code - first), 2)?;
        return Some(if glyph == 0 {
            0
        } else {
            (glyph + delta) % 65536
        });
    }
    None
}
