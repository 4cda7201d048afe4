//! The characters of an OpenType file: its table `cmap`, formats 4 and 12 of the Unicode platforms.
//!
//! Nothing of a file is believed: each number is read by `number`, which has no answer past the end.

/// The table `cmap` of a file.
#[derive(Clone, Copy, Debug)]
pub struct Cmap<'a> {
    table: &'a [u8],
}

/// A big-endian number of `n` bytes, four at most.
fn number(bytes: &[u8], at: usize, n: usize) -> Option<usize> {
    let part = bytes.get(at..at.checked_add(n)?)?;
    Some(
        part.iter()
            .fold(0, |sum, &byte| sum << 8 | usize::from(byte)),
    )
}

/// A table of an OpenType file: the first of that tag.
fn table(file: &[u8], tag: [u8; 4]) -> Option<&[u8]> {
    for k in 0..number(file, 4, 2)? {
        let row = 12 + 16 * k;
        if file.get(row..row + 4)? == tag {
            let start = number(file, row + 8, 4)?;
            return file.get(start..start.checked_add(number(file, row + 12, 4)?)?);
        }
    }
    None
}

impl<'a> Cmap<'a> {
    /// The table of a file that begins with `OTTO`: a bare font has none.
    pub fn of_file(file: &'a [u8]) -> Option<Cmap<'a>> {
        let file = file.starts_with(b"OTTO").then_some(file)?;
        Some(Cmap {
            table: table(file, *b"cmap")?,
        })
    }

    /// Where the subtables of that format stand which have Unicode characters: platform 0, and encodings 1 and 10 of platform 3.
    fn subtables(self, format: usize) -> impl Iterator<Item = usize> {
        let count = number(self.table, 2, 2).unwrap_or(0);
        let rows = (0..count).map(|k| 4 + 8 * k);
        rows.filter_map(move |row| {
            let platform = number(self.table, row, 2)?;
            let encoding = number(self.table, row + 2, 2)?;
            let unicode = platform == 0 || platform == 3 && (encoding == 1 || encoding == 10);
            let at = number(self.table, row + 4, 4)?;
            (unicode && number(self.table, at, 2)? == format).then_some(at)
        })
    }

    /// The glyph of a character: format 12, which has all characters, before format 4. Glyph 0 is that of a character which the
    /// font does not have.
    pub fn glyph(self, letter: char) -> Option<u16> {
        let code = letter as usize;
        let found = self
            .subtables(12)
            .find_map(|at| self.in_groups(at, code))
            .or_else(|| self.subtables(4).find_map(|at| self.in_segments(at, code)))?;
        u16::try_from(found).ok().filter(|&glyph| glyph != 0)
    }

    /// Format 12: groups of characters, each with its first glyph.
    fn in_groups(self, at: usize, code: usize) -> Option<usize> {
        for k in 0..number(self.table, at + 12, 4)? {
            let group = at + 16 + 12 * k;
            let first = number(self.table, group, 4)?;
            let last = number(self.table, group + 4, 4)?;
            if (first..=last).contains(&code) {
                return Some(number(self.table, group + 8, 4)? + code - first);
            }
        }
        None
    }

    /// Format 4: segments of characters, each with a delta and perhaps an array of glyphs.
    fn in_segments(self, at: usize, code: usize) -> Option<usize> {
        let twice = number(self.table, at + 6, 2)?;
        for k in 0..twice / 2 {
            let last = number(self.table, at + 14 + 2 * k, 2)?;
            let first = number(self.table, at + 16 + twice + 2 * k, 2)?;
            if (first..=last).contains(&code) {
                return self.in_segment(at + 16 + 2 * twice + 2 * k, twice, code, first);
            }
        }
        None
    }

    /// The glyph by the segment whose delta stands at `delta_at`: its offset, counted from where it stands, is `twice` further.
    fn in_segment(self, delta_at: usize, twice: usize, code: usize, first: usize) -> Option<usize> {
        let delta = number(self.table, delta_at, 2)?;
        let place = delta_at + twice;
        let offset = number(self.table, place, 2)?;
        let glyph = match offset {
            0 => return Some((code + delta) % 65536),
            _ => number(self.table, place + offset + 2 * (code - first), 2)?,
        };
        Some(if glyph == 0 {
            0
        } else {
            (glyph + delta) % 65536
        })
    }
}

#[cfg(test)]
#[path = "cmap_tests.rs"]
mod tests;
